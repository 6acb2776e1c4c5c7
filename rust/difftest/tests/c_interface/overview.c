/* Calls nattveldi_stored or nattveldi_standing with the store on standard input,
 * and prints the answer and every octet of the buffer, which was filled before:
 *
 *   overview stored SLOT BUFFER-LENGTH
 *   overview standing SECOND BUFFER-LENGTH
 */
#include <stdio.h>
#include <stdlib.h>
#include <string.h>

#include "nattveldi.h"

#define FILL 0xa5
/* More than either function writes, so that an octet behind that is seen. */
#define BUFFER_LENGTH 300

int main(int count, char **words)
{
    /* One octet more, so that a longer store is passed as one. */
    static uint8_t store[NATTVELDI_STORE_LENGTH + 1], buffer[BUFFER_LENGTH];
    size_t i, store_length = fread(store, 1, sizeof store, stdin);
    unsigned long long number;
    size_t length;
    int32_t answer;
    if (count != 4)
        return 2;
    number = strtoull(words[2], NULL, 10);
    length = (size_t)strtoull(words[3], NULL, 10);
    memset(buffer, FILL, sizeof buffer);
    if (strcmp(words[1], "stored") == 0)
        answer = nattveldi_stored(store, store_length, (size_t)number, buffer, length);
    else
        answer = nattveldi_standing(store, store_length, (uint32_t)number, buffer, length);
    printf("%ld ", (long)answer);
    for (i = 0; i < sizeof buffer; i++)
        printf("%02x", buffer[i]);
    printf("\n");
    return 0;
}
