/* The open moves of N8 of document 01, [x]p·o?⟨x⟩.0 | p·o!⟨v⟩, from C: a line for each, with its kind, a and b. */
#include <stdio.h>

#include "wigandoy.h"

/* parallel, delimitation of x, receive, nil, invoke */
static const uint8_t table[80] = {
    [0] = WIGANDOY_PARALLEL,
    [16] = WIGANDOY_DELIMITATION, [19] = 0x80,
    [32] = WIGANDOY_RECEIVE, [33] = 1, [34] = 1, [36] = 2, [39] = 0x80,
    [64] = WIGANDOY_INVOKE, [65] = 1, [66] = 1, [68] = 2, [70] = 5,
};

static unsigned word(const uint8_t *at) { return at[0] + 256u * at[1]; }

int main(void) {
    uint8_t list[600];
    uint64_t reply = wigandoy_open(table, sizeof table, list, sizeof list);
    if (wigandoy_answer(reply) == WIGANDOY_LIST_TOO_SHORT) {
        printf("the list takes %u bytes\n", 6 * wigandoy_place(reply));
        return 1;
    }
    for (unsigned i = 0; i < wigandoy_records(reply); i++) {
        const uint8_t *move = list + 6 * i;
        printf("%u %u %u\n", (unsigned)move[0], word(move + 2), word(move + 4));
    }
    return wigandoy_answer(reply) != WIGANDOY_ACCEPTED;
}
