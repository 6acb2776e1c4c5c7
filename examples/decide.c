/* Judges signed messages as a roadside unit does: builds a store from a root and
 * an authority below it, works out for each message what the chip is to be
 * asked, asks it, decides, and prints the payload. A certificate that an
 * accepted message carries is admitted to the store, so that later messages can
 * name it by id. To build it, after `make archive` in the repository's root:
 *
 *   cc -std=c99 -Iinclude examples/decide.c crates/nattveldi_c/out/libnattveldi_c.a -o decide
 *
 * The example files are hex text with comments; as octets they come from
 *
 *   for name in root authority message-with-certificate message-by-id; do
 *       cut -d# -f1 examples/$name.hex | xxd -r -p > $name.octets
 *   done
 *
 * The message that names its signer by id is unknown before, and accepted after,
 * the one that carries the signer's certificate. This prints decide.expected:
 *
 *   ./decide 694700001000000 root.octets authority.octets message-by-id.octets \
 *       message-with-certificate.octets message-by-id.octets
 *
 * The exit status is 0, 1 if the root, the authority or a message was refused, or
 * 2 for bad usage or a file that cannot be read.
 */
#include <errno.h>
#include <stdio.h>
#include <stdlib.h>

#include "nattveldi.h"
#define PROGRAM "decide"
#include "files.h"

/* Where the unit stands: 64.15 degrees north, 21.9 west. */
#define LATITUDE 641500000
#define LONGITUDE (-219000000)
/* By how much the generation time may differ from now: 0 is two seconds. */
#define AGE 0

struct octets {
    uint8_t at[NATTVELDI_LONGEST_MESSAGE + 1]; /* one more, so that a longer file is noticed */
    size_t length;
};

static void read_octets(const char *name, struct octets *octets)
{
    octets->length = read_file(name, octets->at, sizeof octets->at);
}

/* Prints an answer; says whether it is a refusal. */
static int refused(const char *what, uint8_t number)
{
    if (number == NATTVELDI_ACCEPTED)
        printf("%s: accepted\n", what);
    else
        printf("%s: refused %d, %s\n", what, number, nattveldi_name(number));
    return number != NATTVELDI_ACCEPTED;
}

static void print_octets(const uint8_t *octets, size_t length)
{
    size_t i;
    for (i = 0; i < length; i++)
        printf("%02x", octets[i]);
}

static unsigned long key_type(const uint8_t *question)
{
    return nattveldi_word_at(question + NATTVELDI_QUESTION_KEY_TYPE);
}

/* Stands in for the chip, which would hash the signed octets and check the
 * signature under the key. Here no signature is checked. */
static uint8_t ask_chip(const char *about, const uint8_t *question)
{
    struct nattveldi_part covered = nattveldi_part_at(question + NATTVELDI_QUESTION_SIGNED);
    struct nattveldi_part signature = nattveldi_part_at(question + NATTVELDI_QUESTION_SIGNATURE);
    printf("  chip, on the %s: %zu octets from %zu, signature %zu octets from %zu,\n", about,
           covered.length, covered.start, signature.length, signature.start);
    printf("    key type %lu, key ", key_type(question));
    print_octets(question + NATTVELDI_QUESTION_KEY, NATTVELDI_KEY_LENGTH);
    printf("\n");
    return NATTVELDI_GOOD;
}

/* The question about a carried certificate has point type 0 if there is none. */
static int carries_certificate(const uint8_t *questions)
{
    return key_type(questions + NATTVELDI_CERTIFICATE_QUESTION) != 0;
}

static void print_decision(const struct octets *message, const uint8_t *decision)
{
    struct nattveldi_part payload = nattveldi_part_at(decision + NATTVELDI_DECISION_PAYLOAD);
    unsigned long permission = nattveldi_word_at(decision + NATTVELDI_DECISION_PERMISSION);
    unsigned long long time =
        nattveldi_long_word_at(decision + NATTVELDI_DECISION_GENERATION_TIME);
    printf("  payload \"");
    fwrite(message->at + payload.start, 1, payload.length, stdout);
    printf("\"\n  signer ");
    print_octets(decision + NATTVELDI_DECISION_SIGNER, NATTVELDI_ID_LENGTH);
    printf(", permission %lu, generation time %llu\n", permission, time);
}

/* A carried certificate is what its signature covers, and the signature after
 * that. The chip found it good: it can be stored. */
static void keep_certificate(uint8_t *store, const struct octets *message, const uint8_t *question)
{
    struct nattveldi_part covered = nattveldi_part_at(question + NATTVELDI_QUESTION_SIGNED);
    struct nattveldi_part signature = nattveldi_part_at(question + NATTVELDI_QUESTION_SIGNATURE);
    refused("  admit its certificate",
            nattveldi_admit(store, NATTVELDI_STORE_LENGTH, message->at + covered.start,
                            covered.length + signature.length, NATTVELDI_GOOD));
}

/* Says whether the message is refused. */
static int judge(uint8_t *store, const struct octets *message, uint64_t now)
{
    uint8_t questions[NATTVELDI_QUESTIONS_LENGTH], decision[NATTVELDI_DECISION_LENGTH];
    const uint8_t *of_certificate = questions + NATTVELDI_CERTIFICATE_QUESTION;
    uint8_t verdict, certificate_verdict = 0;
    if (refused("  prepare",
                nattveldi_prepare(store, NATTVELDI_STORE_LENGTH, message->at, message->length, now,
                                  LATITUDE, LONGITUDE, AGE, questions, sizeof questions)))
        return 1;
    if (carries_certificate(questions))
        certificate_verdict = ask_chip("certificate", of_certificate);
    verdict = ask_chip("message", questions + NATTVELDI_MESSAGE_QUESTION);
    if (refused("  decide",
                nattveldi_decide(store, NATTVELDI_STORE_LENGTH, message->at, message->length, now,
                                 LATITUDE, LONGITUDE, AGE, verdict, certificate_verdict,
                                 decision, sizeof decision)))
        return 1;
    print_decision(message, decision);
    if (carries_certificate(questions))
        keep_certificate(store, message, of_certificate);
    return 0;
}

static uint64_t microseconds(const char *word)
{
    unsigned long long number;
    char *end;
    errno = 0; /* strtoull leaves it alone unless the number is too large */
    number = strtoull(word, &end, 10);
    if (word[0] < '0' || word[0] > '9' || *end != '\0' || errno != 0)
        fail("no number of microseconds: ", word);
    return number;
}

int main(int count, char **words)
{
    static uint8_t store[NATTVELDI_STORE_LENGTH]; /* zeros: an empty store */
    static struct octets octets;
    uint64_t now;
    int i, any_refused;
    if (count < 4)
        fail("usage: decide NOW ROOT AUTHORITY MESSAGE..", "");
    now = microseconds(words[1]);
    read_octets(words[2], &octets);
    any_refused = refused("install", nattveldi_install(store, sizeof store, octets.at,
                                                       octets.length, NATTVELDI_GOOD));
    read_octets(words[3], &octets);
    any_refused |= refused("admit", nattveldi_admit(store, sizeof store, octets.at,
                                                    octets.length, NATTVELDI_GOOD));
    for (i = 4; i < count; i++) {
        read_octets(words[i], &octets);
        printf("message %d, %zu octets\n", i - 3, octets.length);
        any_refused |= judge(store, &octets, now);
    }
    return any_refused;
}
