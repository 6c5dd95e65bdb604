/* How much stack the functions of the library take: each is called on a stack of its own that was painted before, on tables and scripts that take the
 * longest ways (depth 256, 2,048 records, atoms far apart, every move, eight stops; scripts 64 deep, of 511 records), and the painted bytes that are left
 * are counted.
 * A function that takes more than the header says is a failure. */
#include <stdio.h>
#include <stdlib.h>
#include <string.h>
#include <ucontext.h>

#include "wigandoy.h"

enum { STACK = 4 << 20, PAINT = 0xa5 };

static uint8_t *stack;
static uint8_t table[32768], out[32768], replies[60000], moves[60000], opened[60000];
static uint16_t stops[8];
static size_t bytes, list, above, count;

/* A record at the end of the table. */
static size_t put(int kind, unsigned first, unsigned second, unsigned slot, unsigned interval) {
    uint8_t *r = table + bytes;
    memset(r, 0, 16);
    r[0] = (uint8_t)kind;
    r[1] = slot != 0;
    unsigned words[] = {first, second, slot};
    for (int i = 0; i < 3; i++) {
        r[2 + 2 * i] = (uint8_t)words[i];
        r[3 + 2 * i] = (uint8_t)(words[i] >> 8);
    }
    r[14] = (uint8_t)interval;
    r[15] = (uint8_t)(interval >> 8);
    bytes += 16;
    return bytes / 16 - 1;
}

/* A move at the end of the list; a kill is a stop of the joint step too. */
static void propose(int kind, size_t a, size_t b) {
    uint8_t m[] = {(uint8_t)kind, 0, (uint8_t)a, (uint8_t)(a >> 8), (uint8_t)b, (uint8_t)(b >> 8)};
    memcpy(moves + list, m, 6);
    list += 6;
    if (kind == WIGANDOY_KILL_MOVE) stops[count++] = (uint16_t)a;
}

/* Parallels nested to the left, waits and invokes on their right sides. */
static void nest(int depth) {
    for (int i = 0; i < depth; i++) put(WIGANDOY_PARALLEL, 0, 0, 0, 0);
    put(WIGANDOY_WAIT, 0, 0, 0, 9);
    put(WIGANDOY_NIL, 0, 0, 0, 0);
    for (int i = 0; i < depth; i++) put(WIGANDOY_INVOKE, 1, 2, 5, 0);
}

/* [k](kill(k) | deep) beside a receive that meets an invoke, under time, with a kill at the end. */
static void deep_night(void) {
    bytes = list = count = 0;
    put(WIGANDOY_PARALLEL, 0, 0, 0, 0);
    put(WIGANDOY_DELIMITATION, 49152, 0, 0, 0);
    put(WIGANDOY_PARALLEL, 0, 0, 0, 0);
    size_t kill = put(WIGANDOY_KILL, 49152, 0, 0, 0);
    nest(250);
    put(WIGANDOY_DELIMITATION, 32768, 0, 0, 0);
    put(WIGANDOY_PARALLEL, 0, 0, 0, 0);
    size_t receive = put(WIGANDOY_RECEIVE, 3, 4, 32768, 0);
    put(WIGANDOY_NIL, 0, 0, 0, 0);
    size_t invoke = put(WIGANDOY_INVOKE, 3, 4, 6, 0);
    propose(WIGANDOY_ELAPSE, 1, 0);
    propose(WIGANDOY_COMMUNICATE, receive, invoke);
    propose(WIGANDOY_KILL_MOVE, kill, 0);
}

/* Delimited values far apart, side by side. */
static void scattered(unsigned from, unsigned to) {
    for (unsigned i = from; i < to; i++) {
        if (i + 1 < to) put(WIGANDOY_PARALLEL, 0, 0, 0, 0);
        put(WIGANDOY_DELIMITATION, 40 + 80 * i, 0, 0, 0);
        put(WIGANDOY_INVOKE, 40 + 80 * i, 2, 0, 0);
    }
}

/* Delimitations of atoms far apart, in a replication that unfolds; a wait that runs out; a delimitation that floats up. */
static void wide_night(void) {
    bytes = list = count = 0;
    put(WIGANDOY_PARALLEL, 0, 0, 0, 0);
    size_t replication = put(WIGANDOY_REPLICATION, 0, 0, 0, 0);
    put(WIGANDOY_PARALLEL, 0, 0, 0, 0);
    scattered(0, 150);
    scattered(150, 300);
    put(WIGANDOY_PROTECTION, 0, 0, 0, 0);
    above = put(WIGANDOY_DELIMITATION, 40000, 0, 0, 0);
    put(WIGANDOY_CHOICE, 0, 0, 0, 0);
    size_t wait = put(WIGANDOY_WAIT, 0, 0, 0, 0);
    put(WIGANDOY_NIL, 0, 0, 0, 0);
    put(WIGANDOY_NIL, 0, 0, 0, 0);
    propose(WIGANDOY_EXTRUDE, above, 0);
    propose(WIGANDOY_TIMEOUT, wait, 0);
    propose(WIGANDOY_UNFOLD, replication, 0);
}

/* Eight scopes side by side at the end of a way of protections, each a nest of parallels over its kill. */
static void closing_night(void) {
    bytes = list = count = 0;
    for (int i = 0; i < 130; i++) put(WIGANDOY_PROTECTION, 0, 0, 0, 0);
    for (unsigned k = 49152; k < 49160; k++) {
        if (k < 49159) put(WIGANDOY_PARALLEL, 0, 0, 0, 0);
        put(WIGANDOY_DELIMITATION, k, 0, 0, 0);
        for (int i = 0; i < 115; i++) put(WIGANDOY_PARALLEL, 0, 0, 0, 0);
        propose(WIGANDOY_KILL_MOVE, put(WIGANDOY_KILL, k, 0, 0, 0), 0);
        for (int i = 0; i < 115; i++) put(WIGANDOY_INVOKE, 1, 2, 5, 0);
    }
}

/* Orc scripts: operators nested to the left, to the right or balanced, over calls of sites far apart. */
enum { CALL = 1, SEQUENCE, BOTH, WHERE };
enum { LEFT, RIGHT, BALANCED };

static uint8_t script[4096];
static size_t length;

static void put_script(int kind, unsigned atom, unsigned site) {
    uint8_t r[] = {(uint8_t)kind, 0, (uint8_t)atom, (uint8_t)(atom >> 8), (uint8_t)site, (uint8_t)(site >> 8), (uint8_t)site, (uint8_t)(site >> 8)};
    memcpy(script + length, r, 8);
    length += 8;
}

static void nest_script(int kind, int operators, int shape) {
    unsigned number = (unsigned)length / 8;
    if (operators == 0) {
        put_script(CALL, 40, 40 + 60 * number);
        return;
    }
    int left = shape == LEFT ? operators - 1 : shape == RIGHT ? 0 : (operators - 1) / 2;
    put_script(kind, kind == BOTH ? 0 : 32768 + 31 * number, 0);
    nest_script(kind, left, shape);
    nest_script(kind, operators - 1 - left, shape);
}

static uint64_t reply;
static uint8_t *move_at;
static size_t room;
static uint32_t tally[4], later;
static ucontext_t back, there;

static void call_check(void) { reply = wigandoy_check(table, bytes); }
static void call_load(void) { reply = wigandoy_load(table, bytes); }
static void call_open(void) { reply = wigandoy_open(table, bytes, opened, room); }
static void call_orc(void) { reply = wigandoy_orc(script, length, 3, 4, out, sizeof out); }
static void call_step(void) { reply = wigandoy_step(table, bytes, move_at, 6, out, sizeof out); }
static void call_ticks(void) { reply = wigandoy_ticks(table, bytes, UINT32_MAX, later, out, sizeof out); }
static void call_joint(void) { reply = wigandoy_joint(table, bytes, stops, count, out, sizeof out, tally); }
static void call_play(void) { reply = wigandoy_play(table, bytes, moves, list, out, sizeof out, replies, sizeof replies, tally); }

/* The bytes of stack that a call takes. */
static size_t taken(void (*call)(void)) {
    memset(stack, PAINT, STACK);
    getcontext(&there);
    there.uc_stack.ss_sp = stack;
    there.uc_stack.ss_size = STACK;
    there.uc_link = &back;
    makecontext(&there, call, 0);
    swapcontext(&back, &there);
    size_t free = 0;
    while (free < STACK && stack[free] == PAINT) free++;
    return STACK - free;
}

static size_t most(size_t a, size_t b) { return a < b ? b : a; }

/* The wide night's table, with an atom that is delimited twice. */
static void clash(void) {
    table[16 * above + 2] = 40;
    table[16 * above + 3] = 0;
}

static size_t check, load, step, ticks, joint, play, open, orc;

/* The stops as one step; whether it has the answer. */
static int joined(unsigned answer) {
    joint = most(joint, taken(call_joint));
    return wigandoy_answer(reply) == answer;
}

/* Every function on a table and its list, open with room and without, no tick and one over the top, all stops as one step; whether check, open, ticks, the
 * joint step and each step have the answer. */
static int measured(unsigned answer) {
    int right = 1;
    check = most(check, taken(call_check));
    right &= wigandoy_answer(reply) == answer;
    load = most(load, taken(call_load));
    for (room = 0; room <= sizeof opened; room += sizeof opened) {
        open = most(open, taken(call_open));
        right &= wigandoy_answer(reply) == (answer == WIGANDOY_ACCEPTED && room == 0 ? WIGANDOY_LIST_TOO_SHORT : answer);
    }
    for (move_at = moves; move_at < moves + list; move_at += 6) {
        step = most(step, taken(call_step));
        right &= wigandoy_answer(reply) == answer;
    }
    for (later = UINT32_MAX; later == UINT32_MAX || later == 0; later++) {
        ticks = most(ticks, taken(call_ticks));
        right &= wigandoy_answer(reply) == answer;
    }
    right &= joined(answer == WIGANDOY_ACCEPTED && count == 0 ? WIGANDOY_WRONG_NUMBER : answer);
    play = most(play, taken(call_play));
    return right;
}

/* Eight stops once more, the last of them twice, and with a position behind the table; whether both are refused. */
static int refused_stops(void) {
    stops[6] = stops[7];
    int right = joined(WIGANDOY_SCOPES_CLASH);
    stops[7] = (uint16_t)(bytes / 16);
    return right & joined(WIGANDOY_ABSENT);
}

/* The translation of a script of one operator; whether it has the answer. */
static int translated(int kind, int operators, int shape, unsigned answer) {
    length = 0;
    nest_script(kind, operators, shape);
    orc = most(orc, taken(call_orc));
    return wigandoy_answer(reply) == answer;
}

/* The same script once more, with a variable in its last call that nothing binds, and without that call; whether both are refused. */
static int refused(void) {
    script[length - 5] = 0xbf;
    orc = most(orc, taken(call_orc));
    int right = wigandoy_answer(reply) != WIGANDOY_ACCEPTED;
    length -= 8;
    orc = most(orc, taken(call_orc));
    return right & (wigandoy_answer(reply) != WIGANDOY_ACCEPTED);
}

int main(void) {
    stack = malloc(STACK);
    if (stack == NULL) return 1;
    deep_night();
    int right = measured(WIGANDOY_ACCEPTED);
    wide_night();
    right &= measured(WIGANDOY_ACCEPTED);
    clash();
    right &= measured(WIGANDOY_CLASH);
    closing_night();
    right &= measured(WIGANDOY_ACCEPTED) & refused_stops();
    right &= translated(WHERE, 63, LEFT, WIGANDOY_ACCEPTED) & translated(SEQUENCE, 63, LEFT, WIGANDOY_ACCEPTED) & refused();
    right &= translated(WHERE, 42, RIGHT, WIGANDOY_ACCEPTED) & translated(WHERE, 63, RIGHT, WIGANDOY_TOO_LARGE);
    right &= translated(SEQUENCE, 42, RIGHT, WIGANDOY_ACCEPTED) & translated(SEQUENCE, 63, RIGHT, WIGANDOY_TOO_LARGE);
    right &= translated(BOTH, 63, LEFT, WIGANDOY_ACCEPTED) & translated(BOTH, 255, BALANCED, WIGANDOY_ACCEPTED) & refused();
    right &= translated(WHERE, 255, BALANCED, WIGANDOY_TOO_LARGE) & translated(WHERE, 227, BALANCED, WIGANDOY_ACCEPTED) & refused();
    if (!right) {
        printf("stack: a table, a script or a move has another answer than this program is made for\n");
        return 1;
    }
    printf("stack: check %zu, load %zu, open %zu, step %zu, ticks %zu, joint %zu, play %zu, orc %zu bytes\n", check, load, open, step, ticks, joint, play,
           orc);
    return check > WIGANDOY_STACK_CHECK || load > WIGANDOY_STACK_CHECK || open > WIGANDOY_STACK_OPEN || step > WIGANDOY_STACK_STEP ||
           ticks > WIGANDOY_STACK_STEP || joint > WIGANDOY_STACK_STEP || play > WIGANDOY_STACK_PLAY || orc > WIGANDOY_STACK_ORC;
}
