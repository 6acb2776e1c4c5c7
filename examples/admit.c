/* Installs a root in an empty store, admits certificates below it, and prints
 * each answer and then the filled slots. To build it, after `make archive` in the
 * repository's root:
 *
 *   cc -std=c99 -Iinclude examples/admit.c crates/nattveldi_c/out/libnattveldi_c.a -o admit
 *
 * The example certificates are hex text with comments; as octets they come from
 *
 *   for name in root unit; do cut -d# -f1 examples/$name.hex | xxd -r -p > $name.octets; done
 *   ./admit root.octets unit.octets
 *
 * The exit status is 0, 1 if a certificate was refused, or 2 for bad usage or a
 * file that cannot be read.
 */
#include <stdio.h>

#include "nattveldi.h"
#define PROGRAM "admit"
#include "files.h"
#include "row.h"

static void print_slots(const uint8_t *store)
{
    uint8_t stored[NATTVELDI_STORED_LENGTH];
    int slot;
    for (slot = 0; slot < NATTVELDI_SLOTS; slot++) {
        uint8_t number = nattveldi_stored(store, NATTVELDI_STORE_LENGTH, (size_t)slot, stored,
                                          sizeof stored);
        if (number != NATTVELDI_ACCEPTED)
            continue; /* 7, it is empty: no other number is met in a store made here */
        print_row(slot, stored);
        printf("\n");
    }
}

int main(int count, char **names)
{
    static uint8_t store[NATTVELDI_STORE_LENGTH]; /* zeros: an empty store */
    /* One octet more, so that a longer file is noticed. */
    uint8_t certificate[NATTVELDI_LONGEST_CERTIFICATE + 1];
    int i, refused = 0;
    if (count < 2)
        fail("usage: admit ROOT CERTIFICATE..", "");
    for (i = 1; i < count; i++) {
        size_t length = read_file(names[i], certificate, sizeof certificate);
        /* No signature is checked here: every verdict is good. */
        uint8_t number =
            i == 1 ? nattveldi_install(store, sizeof store, certificate, length, NATTVELDI_GOOD)
                   : nattveldi_admit(store, sizeof store, certificate, length, NATTVELDI_GOOD);
        printf("%s %d\n", i == 1 ? "install" : "admit", number);
        refused |= number != NATTVELDI_ACCEPTED;
    }
    print_slots(store);
    return refused;
}
