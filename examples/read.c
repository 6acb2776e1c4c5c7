/* Reads a certificate from standard input and prints some of its fields and its
 * id. To build it, after `make archive` in the repository's root:
 *
 *   cc -std=c99 -Iinclude examples/read.c crates/nattveldi_c/out/libnattveldi_c.a -o read
 *
 * The example certificate is hex text with comments; as octets it comes from
 *
 *   cut -d# -f1 examples/ticket.hex | xxd -r -p | ./read
 */
#include <stdio.h>

#include "nattveldi.h"

static void print_octets(const char *label, const uint8_t *octets, size_t length)
{
    size_t i;
    printf("%s ", label);
    for (i = 0; i < length; i++)
        printf("%02x", octets[i]);
    printf("%s\n", length == 0 ? "-" : "");
}

static unsigned long word(const uint8_t *fields, size_t field)
{
    return nattveldi_word_at(nattveldi_field(fields, field));
}

static struct nattveldi_part part(const uint8_t *fields, size_t field)
{
    return nattveldi_part_at(nattveldi_field(fields, field));
}

static void print_part(const char *label, const uint8_t *certificate,
                       struct nattveldi_part named)
{
    print_octets(label, certificate + named.start, named.length);
}

static void print_fields(const uint8_t *certificate, const uint8_t *fields)
{
    unsigned long i;
    unsigned long long end = nattveldi_long_word_at(nattveldi_field(fields, NATTVELDI_END));
    printf("kind %lu\n", word(fields, NATTVELDI_KIND));
    print_part("issuer", certificate, part(fields, NATTVELDI_ISSUER));
    print_part("name", certificate, part(fields, NATTVELDI_NAME));
    print_part("key", certificate, part(fields, NATTVELDI_KEY));
    printf("period %lu %llu\n", word(fields, NATTVELDI_START), end);
    for (i = 0; i < word(fields, NATTVELDI_PERMISSION_COUNT); i++)
        printf("permission %lu\n", word(fields, NATTVELDI_PERMISSIONS + i));
    printf("signed %lu\n", (unsigned long)part(fields, NATTVELDI_SIGNED).length);
}

int main(void)
{
    /* One octet more, so that a longer input is noticed. */
    uint8_t certificate[NATTVELDI_LONGEST_CERTIFICATE + 1];
    uint8_t fields[NATTVELDI_FIELDS_LENGTH], id[NATTVELDI_ID_LENGTH];
    size_t length = fread(certificate, 1, sizeof certificate, stdin);
    uint8_t number = nattveldi_read(certificate, length, fields, sizeof fields);
    if (number == NATTVELDI_ACCEPTED)
        number = nattveldi_id(certificate, length, id, sizeof id);
    if (number != NATTVELDI_ACCEPTED) {
        printf("refused %d\n", number);
        return 1;
    }
    print_fields(certificate, fields);
    print_octets("id", id, sizeof id);
    return 0;
}
