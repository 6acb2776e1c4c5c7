/* Looks at no answer: the compiler is to say so of every function. */
#include "nattveldi.h"

void ignore_every_answer(uint8_t *a, uint8_t *b);

void ignore_every_answer(uint8_t *a, uint8_t *b)
{
    nattveldi_read(a, 0, b, 0);
    nattveldi_id(a, 0, b, 0);
    nattveldi_install(a, 0, b, 0, NATTVELDI_GOOD);
    nattveldi_admit(a, 0, b, 0, NATTVELDI_GOOD);
    nattveldi_stored(a, 0, 0, b, 0);
    nattveldi_standing(a, 0, 0, b, 0);
    nattveldi_list(a, 0, a, 0, 0, b, 0);
    nattveldi_withdraw(a, 0, b, 0);
    nattveldi_page(a, 0, b, 0);
    nattveldi_prepare(a, 0, a, 0, 0, 0, 0, 0, b, 0);
    nattveldi_decide(a, 0, a, 0, 0, 0, 0, 0, NATTVELDI_GOOD, NATTVELDI_GOOD, b, 0);
    nattveldi_name(0);
    nattveldi_meaning(0);
    nattveldi_word_at(a);
    nattveldi_long_word_at(a);
    nattveldi_coordinate_at(a);
    nattveldi_part_at(a);
    nattveldi_field(a, 0);
}
