/* A controller's clock read five times over a wait of 12, ⊖12.0, from C: the two readings, the reply, and what the wait holds in the table that is left.
 * A refused reading leaves the table as it was. */
#include <inttypes.h>
#include <stdio.h>
#include <string.h>

#include "wigandoy.h"

enum { RECORD = 16, READINGS = 5 };

/* wait, nil */
static uint8_t table[2 * RECORD] = {[0] = WIGANDOY_WAIT, [14] = 12};

static const uint32_t readings[READINGS][2] = {
    {4294967290, 4}, /* over the top: ten ticks */
    {4, 4}, /* none */
    {4, 3}, /* gone back */
    {4, 70004}, /* more than a move can say */
    {4, 9}, /* three more than the wait holds */
};

int main(void) {
    for (int i = 0; i < READINGS; i++) {
        uint32_t earlier = readings[i][0], later = readings[i][1];
        uint8_t out[sizeof table];
        uint64_t reply = wigandoy_ticks(table, sizeof table, earlier, later, out, sizeof out);
        printf("%" PRIu32 " %" PRIu32 ": %u %u %u", earlier, later, wigandoy_answer(reply), wigandoy_place(reply), wigandoy_records(reply));
        if (wigandoy_answer(reply) == WIGANDOY_ACCEPTED) {
            memcpy(table, out, sizeof table);
            printf(", wait %u", table[14] + 256u * table[15]);
        }
        printf("\n");
    }
    return 0;
}
