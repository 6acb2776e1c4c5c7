/* Builds a store from a root and certificates below it, and goes through the
 * three pages of a console: what the store holds and what of it stands at a
 * second; what would no longer stand without the root; and, when the root is
 * withdrawn, what the store holds then. To build it, after `make archive` in the
 * repository's root:
 *
 *   cc -std=c99 -Iinclude examples/withdraw.c crates/nattveldi_c/out/libnattveldi_c.a -o withdraw
 *
 * The example certificates are hex text with comments; as octets they come from
 *
 *   for name in root unit; do cut -d# -f1 examples/$name.hex | xxd -r -p > $name.octets; done
 *   ./withdraw 694700000 root.octets unit.octets
 *
 * The exit status is 0, 1 if the withdrawal was refused, or 2 for bad usage or a
 * file that cannot be read.
 */
#include <stdio.h>
#include <stdlib.h>
#include <string.h>

#include "nattveldi.h"
#define PROGRAM "withdraw"
#include "files.h"
#include "row.h"

/* Installs the root, or admits a certificate below it. No signature is checked
 * here: every verdict is good. */
static uint8_t put(uint8_t *store, const char *name, int is_root)
{
    /* One octet more, so that a longer file is noticed. */
    uint8_t certificate[NATTVELDI_LONGEST_CERTIFICATE + 1];
    size_t length = read_file(name, certificate, sizeof certificate);
    if (!is_root)
        return nattveldi_admit(store, NATTVELDI_STORE_LENGTH, certificate, length, NATTVELDI_GOOD);
    return nattveldi_install(store, NATTVELDI_STORE_LENGTH, certificate, length, NATTVELDI_GOOD);
}

static uint8_t look(const uint8_t *store, int slot, uint8_t *stored)
{
    return nattveldi_stored(store, NATTVELDI_STORE_LENGTH, (size_t)slot, stored,
                            NATTVELDI_STORED_LENGTH);
}

/* The page that lists: every certificate, and whether it stands. */
static void print_overview(const uint8_t *store, uint32_t second)
{
    uint8_t list[NATTVELDI_LIST_LENGTH], stored[NATTVELDI_STORED_LENGTH];
    int32_t slot, next = 0, n = nattveldi_standing(store, NATTVELDI_STORE_LENGTH, second, list,
                                                   sizeof list);
    if (n < 0) {
        printf("standing refused %d\n", (int)-n);
        return;
    }
    printf("%d stand at %lu:\n", (int)n, (unsigned long)second);
    for (slot = 0; slot < NATTVELDI_SLOTS; slot++) {
        int stands = next < n && list[next] == slot;
        next += stands;
        if (look(store, slot, stored) != NATTVELDI_ACCEPTED)
            continue; /* 7, it is empty: 1 and 2 would have come from nattveldi_standing */
        print_row(slot, stored);
        printf(", %s\n", stands ? "stands" : "does not stand");
    }
}

/* Picks the row of slot 0, as a user would. The id is all that is kept of it. */
static void pick(const uint8_t *store, uint8_t *id)
{
    uint8_t stored[NATTVELDI_STORED_LENGTH];
    if (look(store, 0, stored) == NATTVELDI_ACCEPTED)
        memcpy(id, stored + NATTVELDI_STORED_ID, NATTVELDI_ID_LENGTH);
}

/* The page that asks: what stands now and would not after the withdrawal. */
static void draw(const uint8_t *store, const uint8_t *id, uint32_t second)
{
    uint8_t list[NATTVELDI_LIST_LENGTH], stored[NATTVELDI_STORED_LENGTH];
    int32_t i, n = nattveldi_list(store, NATTVELDI_STORE_LENGTH, id, NATTVELDI_ID_LENGTH, second,
                                  list, sizeof list);
    if (n < 0) {
        printf("list refused %d\n", (int)-n);
        return;
    }
    printf("withdraw this? %d would no longer stand:\n", (int)n);
    for (i = 0; i < n; i++) {
        if (look(store, list[i], stored) == NATTVELDI_ACCEPTED)
            print_row(list[i], stored);
        printf("\n");
    }
}

/* Where the second stands in the input of the program `page`. */
#define SECOND_AT (NATTVELDI_STORE_LENGTH + NATTVELDI_ID_LENGTH)

/* The same as the text of the program `page`. */
static void print_page(const uint8_t *store, const uint8_t *id, uint32_t second)
{
    static uint8_t input[SECOND_AT + NATTVELDI_WORD_LENGTH], text[NATTVELDI_PAGE_LENGTH];
    int i;
    memcpy(input, store, NATTVELDI_STORE_LENGTH);
    memcpy(input + NATTVELDI_STORE_LENGTH, id, NATTVELDI_ID_LENGTH);
    for (i = 0; i < NATTVELDI_WORD_LENGTH; i++)
        input[SECOND_AT + i] = (uint8_t)(second >> (24 - 8 * i));
    fwrite(text, 1, nattveldi_page(input, sizeof input, text, sizeof text), stdout);
}

/* Above all seconds is also what strtoull returns for a number too large for it. */
static uint32_t second_of(const char *word)
{
    char *end;
    unsigned long long number = strtoull(word, &end, 10);
    if (word[0] < '0' || word[0] > '9' || *end != '\0' || number > UINT32_MAX)
        fail("no second since the start of 2004: ", word);
    return (uint32_t)number;
}

int main(int count, char **words)
{
    static uint8_t store[NATTVELDI_STORE_LENGTH]; /* zeros: an empty store */
    uint8_t id[NATTVELDI_ID_LENGTH] = {0}, number;
    uint32_t second;
    int i;
    if (count < 3)
        fail("usage: withdraw SECOND ROOT CERTIFICATE..", "");
    second = second_of(words[1]);
    for (i = 2; i < count; i++)
        printf("%s %d\n", i == 2 ? "install" : "admit", put(store, words[i], i == 2));
    print_overview(store, second);
    pick(store, id);
    draw(store, id, second);
    print_page(store, id, second);
    number = nattveldi_withdraw(store, sizeof store, id, sizeof id);
    printf("withdraw %d\n", number);
    draw(store, id, second);
    print_overview(store, second);
    return number != NATTVELDI_ACCEPTED;
}
