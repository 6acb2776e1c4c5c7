/* Reading a file, for the examples. Whoever includes this says in PROGRAM which
 * name stands before a fault. */
#ifndef FILES_H
#define FILES_H

#include <stdint.h>
#include <stdio.h>
#include <stdlib.h>

static void fail(const char *what, const char *name)
{
    fprintf(stderr, PROGRAM ": %s%s\n", what, name);
    exit(2);
}

/* Reads a file, at most so many octets of it, and returns how many they are. */
static size_t read_file(const char *name, uint8_t *octets, size_t most)
{
    size_t length;
    FILE *file = fopen(name, "rb");
    if (file == NULL)
        fail("cannot open ", name);
    length = fread(octets, 1, most, file);
    if (ferror(file))
        fail("cannot read ", name);
    fclose(file);
    return length;
}

#endif
