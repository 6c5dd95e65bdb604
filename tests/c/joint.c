/* Two telescopes' blocks closed by one joint step, from C: each under a scope of its own, with a protected part that parks the telescope. The second has a
 * guider under a scope inside its own, so the two do not close together. A line for each list of stops: the reply, the tally, and the load before and after. */
#include <stdio.h>

#include "wigandoy.h"

enum { RECORD = 16, RECORDS = 20, LISTS = 3, LABEL = 0xc0 /* the high byte of a label */ };

/* [1](kill(1) | (⟦1·3!⟨⟩⟧ | 1·4?⟨⟩.0)) | [2](kill(2) | (⟦2·3!⟨⟩⟧ | [3](kill(3) | ⊖30.0))) */
static const uint8_t table[RECORDS][RECORD] = {
    {WIGANDOY_PARALLEL},
    {WIGANDOY_DELIMITATION, 0, 1, LABEL}, /* the first block */
    {WIGANDOY_PARALLEL},
    {WIGANDOY_KILL, 0, 1, LABEL}, /* 3: closes it */
    {WIGANDOY_PARALLEL},
    {WIGANDOY_PROTECTION},
    {WIGANDOY_INVOKE, 0, 1, 0, 3, 0}, /* park */
    {WIGANDOY_RECEIVE, 0, 1, 0, 4, 0}, /* an image */
    {WIGANDOY_NIL},
    {WIGANDOY_DELIMITATION, 0, 2, LABEL}, /* the second block */
    {WIGANDOY_PARALLEL},
    {WIGANDOY_KILL, 0, 2, LABEL}, /* 11: closes it */
    {WIGANDOY_PARALLEL},
    {WIGANDOY_PROTECTION},
    {WIGANDOY_INVOKE, 0, 2, 0, 3, 0}, /* park */
    {WIGANDOY_DELIMITATION, 0, 3, LABEL}, /* its guider */
    {WIGANDOY_PARALLEL},
    {WIGANDOY_KILL, 0, 3, LABEL}, /* 17: ends it */
    {WIGANDOY_WAIT, [14] = 30},
    {WIGANDOY_NIL},
};

static const uint16_t lists[LISTS][2] = {
    {17, 11}, /* the guider's scope lies inside the block's */
    {3, 9}, /* a scope is no stop */
    {11, 3}, /* both blocks */
};

int main(void) {
    for (int i = 0; i < LISTS; i++) {
        const uint16_t *stops = lists[i];
        uint8_t out[sizeof table];
        uint32_t tally[4];
        uint64_t reply = wigandoy_joint(*table, sizeof table, stops, 2, out, sizeof out, tally);
        printf("%u %u: %u %u %u", stops[0], stops[1], wigandoy_answer(reply), wigandoy_place(reply), wigandoy_records(reply));
        printf(", tally %u %u %u %u", (unsigned)tally[0], (unsigned)tally[1], (unsigned)tally[2], (unsigned)tally[3]);
        if (wigandoy_answer(reply) == WIGANDOY_ACCEPTED) {
            uint64_t before = wigandoy_load(*table, sizeof table), after = wigandoy_load(out, (size_t)RECORD * wigandoy_records(reply));
            printf(", load %u then %u", wigandoy_records(before), wigandoy_records(after));
        }
        printf("\n");
    }
    return 0;
}
