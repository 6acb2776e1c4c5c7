/* Prints what the header's inline functions return; C and C++. The number of an
 * answer comes from another translation unit, which has them too. */
#include <stdio.h>

#include "nattveldi.h"

const char *meaning_elsewhere(int answer);

int main(void)
{
    static const uint8_t octets[] = {0x80, 0x00, 0x00, 0x01, 0x7f, 0xff, 0xff, 0xfe};
    static const uint8_t lowest[] = {0x80, 0x00, 0x00, 0x00};
    static const uint8_t minus_one[] = {0xff, 0xff, 0xff, 0xff};
    struct nattveldi_part part = nattveldi_part_at(octets);
    unsigned long long long_word = nattveldi_long_word_at(octets);
    int answer;
    printf("%lu %lu\n", (unsigned long)nattveldi_word_at(octets),
           (unsigned long)nattveldi_word_at(nattveldi_field(octets, 1)));
    printf("%llu\n", long_word);
    printf("%ld %ld %ld %ld\n", (long)nattveldi_coordinate_at(octets),
           (long)nattveldi_coordinate_at(octets + 4), (long)nattveldi_coordinate_at(lowest),
           (long)nattveldi_coordinate_at(minus_one));
    printf("%lu %lu\n", (unsigned long)part.start, (unsigned long)part.length);
    for (answer = -1; answer <= 19; answer++)
        printf("%s: %s\n", nattveldi_name(answer), meaning_elsewhere(answer));
    return 0;
}
