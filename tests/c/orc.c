/* Two Orc scripts, translated and played: S(a) > x > T(x), then T(x) where x :∈ (S(a) | S(b)), whose first answer ends the other call.
 * A translation alone has nobody to meet: beside it stands, for each call, a service of the site, [u][v][w] S?⟨u,v,w⟩.v·w!⟨u⟩, that answers what it was
 * asked. Values are letters here; 1 and 2 are the endpoint that the translation made. */
#include <stdio.h>
#include <string.h>

#include "wigandoy.h"

enum { RECORD = 16, MOVE = 6, X = 0x80 /* the high byte of a variable */ };

static const uint8_t sequence[] = {
    2, 0, 0, X, 0, 0, 0, 0, /* f > x > g */
    1, 0, 'a', 0, 'S', 0, 's', 0, /* f: S(a) */
    1, 0, 0, X, 'T', 0, 't', 0, /* g: T(x) */
};

static const uint8_t first_answer[] = {
    4, 0, 0, X, 0, 0, 0, 0, /* g where x :∈ f */
    1, 0, 0, X, 'T', 0, 't', 0, /* g: T(x) */
    3, 0, 0, 0, 0, 0, 0, 0, /* f: a parallel */
    1, 0, 'a', 0, 'S', 0, 's', 0, /* S(a) */
    1, 0, 'b', 0, 'S', 0, 's', 0, /* S(b) */
};

static uint8_t table[WIGANDOY_OUTPUT], next[WIGANDOY_OUTPUT], list[60000];
static size_t bytes;

static unsigned word(const uint8_t *at) { return at[0] + 256u * at[1]; }

/* Records at the end of the table. */
static void put(const uint8_t *records, size_t length) {
    memcpy(table + bytes, records, length);
    bytes += length;
}

/* A service of the site, with variables of its own: number n's are 256 n + 1 to 3 above the script's. */
static void put_service(uint8_t site, uint8_t n) {
    uint8_t v = (uint8_t)(X + n), operation = (uint8_t)(site - 'A' + 'a');
    const uint8_t service[5 * RECORD] = {
        WIGANDOY_DELIMITATION, 0, 1, v, [16] = WIGANDOY_DELIMITATION, 0, 2, v, [32] = WIGANDOY_DELIMITATION, 0, 3, v,
        [48] = WIGANDOY_RECEIVE, 3, site, 0, operation, 0, 1, v, 2, v, 3, v,
        [64] = WIGANDOY_INVOKE, 1, 2, v, 3, v, 1, v,
    };
    put(service, sizeof service);
}

/* The translation in parallel with services of the sites; its records, or 0 if it was refused. */
static unsigned translate(const uint8_t *script, size_t length, const char *sites) {
    static const uint8_t parallel[RECORD] = {WIGANDOY_PARALLEL};
    bytes = 0;
    for (const char *s = sites; *s; s++) put(parallel, RECORD);
    unsigned records = wigandoy_records(wigandoy_orc(script, length, 'R', 'r', table + bytes, sizeof table - bytes));
    bytes += (size_t)RECORD * records;
    for (uint8_t n = 1; *sites; n++) put_service((uint8_t)*sites++, n);
    return records;
}

/* How many messages are sent to a partner; the last of them. */
static unsigned sent_to(unsigned partner, const uint8_t **last) {
    unsigned count = 0;
    for (const uint8_t *r = table; r < table + bytes; r += RECORD) {
        if (r[0] == WIGANDOY_INVOKE && word(r + 2) == partner) {
            *last = r;
            count++;
        }
    }
    return count;
}

static void print_atom(const uint8_t *at, const char *behind) { printf(at[0] < 'A' ? "%d%s" : "%c%s", at[0], behind); }

static void print_message(const char *before, const uint8_t *r) {
    printf("  %s ", before);
    print_atom(r + 2, "·");
    print_atom(r + 4, "!⟨");
    for (unsigned i = 0; i < r[1]; i++) print_atom(r + 6 + 2 * i, i + 1 < r[1] ? "," : "⟩\n");
}

/* What happens next: a kill or a communication if one is open, for these are listed first; else a delimitation floats up over something that is none, to
 * enclose who would meet; else the sequence's receive is copied. */
static const uint8_t *chosen(unsigned moves) {
    for (const uint8_t *m = list; m < list + MOVE * moves && list[0] > WIGANDOY_COMMUNICATE; m += MOVE) {
        if (m[0] == WIGANDOY_EXTRUDE && table[RECORD * (word(m + 2) - 1)] != WIGANDOY_DELIMITATION) return m;
    }
    return list;
}

/* Moves until a result is sent to R·r; 0 if all goes well. */
static int play(const char *words, unsigned records) {
    const uint8_t *message;
    printf("%s: %u records\n", words, records);
    while (sent_to('R', &message) == 0) {
        unsigned calls = sent_to('S', &message), moves = wigandoy_records(wigandoy_open(table, bytes, list, sizeof list));
        const uint8_t *m = chosen(moves);
        uint64_t reply = wigandoy_step(table, bytes, m, MOVE, next, sizeof next);
        if (moves == 0 || wigandoy_answer(reply) != WIGANDOY_ACCEPTED) return 1;
        if (m[0] == WIGANDOY_COMMUNICATE) print_message("communication", table + RECORD * word(m + 4));
        if (m[0] == WIGANDOY_UNFOLD) printf("  unfolding of the sequence's receive\n");
        bytes = 0;
        put(next, (size_t)RECORD * wigandoy_records(reply));
        if (m[0] == WIGANDOY_KILL_MOVE) printf("  kill: calls of S left %u, then %u\n", calls, sent_to('S', &message));
    }
    print_message("result", message);
    return 0;
}

int main(void) {
    return play("S(a) > x > T(x)", translate(sequence, sizeof sequence, "ST")) ||
           play("T(x) where x :∈ (S(a) | S(b))", translate(first_answer, sizeof first_answer, "SST"));
}
