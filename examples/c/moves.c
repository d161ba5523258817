#include <stdio.h>

#include "thresholm.h"

/* Prints the move that does first and then second, or why there is none. Moves of the plane are Projective, of three
 * dimensions; their numbers stand in the order 1, e0, e1, e2, e01, e20, e12, e012. */
static void print_both(const double *second, size_t second_len, const double *first, size_t first_len) {
    const thresholm_shape move = thresholm_projective(3);
    thresholm_shape shape;
    uint32_t pairs;
    double out[8];
    uint8_t number = thresholm_general_product(&move, &move, second, second_len, first, first_len, out, 8, &shape, &pairs);
    if (number == THRESHOLM_DONE)
        printf("%g %+g e01 %+g e20 %+g e12, of %lu pairs\n", out[0], out[4], out[5], out[6], (unsigned long)pairs);
    else
        printf("refused: %s\n", thresholm_refusal_text(number));
}

/* Two turns of the camera dolly in examples/room.txt; and the same with a number missing. */
int main(void) {
    const double first[8] = {0.9659258127212524, 0, 0, 0, -517.6380902528763, -388.22856760025024, -0.2588191032409668, 0};
    const double second[8] = {0.9238795042037964, 0, 0, 0, -2296.100594162941, 1530.733729481697, -0.3826833963394165, 0};
    print_both(second, 8, first, 8);
    print_both(second, 8, first, 7);
    return 0;
}
