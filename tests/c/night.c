/* N8 of document 01 played through the library from C: [x]p·o?<x>.0 | p·o!<v>, with a communication that is refused until [x] is extruded. */
#include <stdio.h>
#include "wigandoy.h"

enum { RECORD = 16, MOVE = 6, MOVES = 3 };

static const uint8_t n8[5 * RECORD] = {
    6, 0, 0, 0, 0, 0, 0, 0, 0, 0, 0, 0, 0, 0, 0, 0, /* a parallel */
    8, 0, 0, 128, 0, 0, 0, 0, 0, 0, 0, 0, 0, 0, 0, 0, /* [x] */
    3, 1, 1, 0, 2, 0, 0, 128, 0, 0, 0, 0, 0, 0, 0, 0, /* p·o?<x> */
    0, 0, 0, 0, 0, 0, 0, 0, 0, 0, 0, 0, 0, 0, 0, 0, /* nil */
    2, 1, 1, 0, 2, 0, 5, 0, 0, 0, 0, 0, 0, 0, 0, 0, /* p·o!<v> */
};

static const uint8_t moves[MOVES * MOVE] = {
    1, 0, 2, 0, 4, 0, /* communication of 2 and 4 */
    5, 0, 1, 0, 0, 0, /* extrusion of 1 */
    1, 0, 2, 0, 4, 0, /* communication of 2 and 4 */
};

static unsigned word(const uint8_t *at) { return at[0] + 256u * at[1]; }

int main(void) {
    static uint8_t out[WIGANDOY_OUTPUT];
    uint8_t replies[sizeof moves];
    uint32_t tally[4];
    uint64_t reply = wigandoy_play(n8, sizeof n8, moves, sizeof moves, out, sizeof out, replies, sizeof replies, tally);
    for (int i = 0; i < MOVES; i++) {
        const uint8_t *r = replies + MOVE * i;
        printf("%d %d %u %u %u\n", i + 1, moves[MOVE * i], word(r), word(r + 2), word(r + 4));
    }
    uint64_t left = wigandoy_load(out, (size_t)RECORD * wigandoy_records(reply));
    printf("total %u %u %u %u\n", tally[0], tally[1], tally[2], wigandoy_records(left));
    return 0;
}
