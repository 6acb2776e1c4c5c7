/* A line about a certificate in a store, for the examples that print stores. */
#ifndef ROW_H
#define ROW_H

#include <stdio.h>

#include "nattveldi.h"

/* A name may be any octets; those that are no plain characters become "?". */
static void print_name(const uint8_t *name, uint32_t length)
{
    uint32_t i;
    for (i = 0; i < length; i++)
        putchar(name[i] >= ' ' && name[i] <= '~' ? name[i] : '?');
}

/* Prints what a slot holds: id, kind, name and state. */
static void print_row(int slot, const uint8_t *stored)
{
    static const char *const kinds[] = {"", "ticket", "authority", "", "root"};
    static const char *const states[] = {"", "held", "withdrawn"};
    int i;
    printf("slot %d ", slot);
    for (i = 0; i < NATTVELDI_ID_LENGTH; i++)
        printf("%02x", stored[NATTVELDI_STORED_ID + i]);
    printf(" %s \"", kinds[nattveldi_word_at(stored + NATTVELDI_STORED_KIND)]);
    print_name(stored + NATTVELDI_STORED_NAME,
               nattveldi_word_at(stored + NATTVELDI_STORED_NAME_LENGTH));
    printf("\", %s", states[nattveldi_word_at(stored + NATTVELDI_STORED_STATE)]);
}

#endif
