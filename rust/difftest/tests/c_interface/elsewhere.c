/* The header in a second translation unit of `helpers.c`. */
#include "nattveldi.h"

const char *meaning_elsewhere(int answer);

const char *meaning_elsewhere(int answer)
{
    return nattveldi_meaning(answer);
}
