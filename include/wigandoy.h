/* Wigandoy: the stepper for COWS tables, as a static library (`rt lib` in crates/export writes crates/export/out/libexport.a).
 *
 * A table is 1 to 2,048 records of 16 bytes in prefix order; a move is 6 bytes (kind, 0, a, b; a and b 16 bits,
 * little-endian): 0 kill at a, 1 communication of receive a and invoke b, 2 timeout at a, 3 time passes by a (each live
 * wait falls by a, and to 0 where it holds less), 4 unfolding at a, 5 extrusion at a. Bytes may be anything and lengths too:
 * every call is answered. Buffers that are read are never changed. A buffer that is written overlaps no other. No pointer is
 * NULL, not even that of a buffer of length 0.
 *
 * A reply is one number: see the three functions at the end. Answer 0 is accepted: place 0, and the number of records.
 * Any other answer is a refusal, with 0 records and untouched buffers. The lowest number that applies is given
 * (for a script 30 to 32 come before 20 and 21, for ticks 23 and 24 before 21; for a joint step the order is 25, 11, 26, 21),
 * then the lowest place (for 11 and 26 of a joint step the first listed). Places count records from 0, but those of 12 and 22.
 *
 *   the table's author
 *    1  no bytes, over 32,768, or not a multiple of 16                                  place 0
 *    2  a record with an unknown kind, a count over 4, an atom of the wrong set, a
 *       used slot of 0, an unused field not zero, or a pattern variable twice           the record
 *    3  the term ends before the records do                                             the first one over
 *       or the records end first                                                        their number
 *    4  depth over 256                                                                  the first such record
 *    5  a choice's child that is no nil, receive, wait or choice                        the child
 *    6  a variable or label used outside every delimitation of it                       the record of the use
 *    7  a second delimitation of an atom, or a delimited value used outside             that record
 *   the proposer of the move
 *   10  not 6 bytes, a kind over 5, byte 1 not zero, or an unused b not zero            place 0
 *   11  no live record of the kind wanted                                               a if it is at fault, else b
 *       or, for a joint step, no live kill at a listed position                         the first listed such
 *   12  an invoke that does not fit the receive                                         what differs, the lowest of:
 *       a variable in its endpoint or its tuple is unset                                0
 *       another endpoint                                                                1
 *       another count of the tuple                                                      2
 *       another value, in the first such slot of one to four                            3 to 6
 *   13  a delimitation does not enclose as asked                                        a
 *   14  a ready kill holds a scope of a party back                                      the first such [k]
 *   15  a ready receive that fits binds fewer variables                                 the first
 *   16  the wait's interval is not 0                                                    a
 *   17  a time of 0                                                                     place 0
 *   18  a label, or no fitting parent, or the root                                      a
 *   the proposer of a list of moves
 *   19  over 10,000 moves: over 60,000 bytes                                            place 0
 *   the lender of the output
 *   20  the successor, or the table of a script, has over 2,048 records or a depth
 *       over 256                                                                        place 0
 *   21  the output of a step, of a joint step, of ticks or of a script is shorter than
 *       that; a play's is shorter than 32,768 bytes, or its replies than 6 bytes for
 *       each move                                                                       place 0
 *   the lender of the list of open moves
 *   22  the list is shorter than 6 bytes for each of them                               their number
 *   the reader of the clock
 *   23  2,147,483,648 ticks or more: the clock has gone back                            place 0
 *   24  over 65,535 ticks                                                               place 0
 *   the proposer of a joint step
 *   25  no stop, or over 8                                                              place 0
 *   26  a stop whose scope lies inside, holds or is that of another listed one          the first listed such
 *   the author of an Orc script
 *   30  no bytes, over 512 records, or not a multiple of 8; or a result endpoint that
 *       is no pair of values                                                            place 0
 *       or a record with an unknown kind, byte 1 or an unused field not zero, or an
 *       atom of the wrong set                                                           the record
 *   31  the expression ends before the records do                                       the first one over
 *       or the records end first                                                        their number
 *       or a depth over 64, where that comes first                                      the first such record
 *   32  a variable used outside its scope, or bound a second time                       that record
 *   then 20 and 21, of the script's table
 */
#ifndef WIGANDOY_H
#define WIGANDOY_H

#include <stddef.h>
#include <stdint.h>

#ifdef __cplusplus
extern "C" {
#endif

/* The kinds of records, and of moves. */
enum {
    WIGANDOY_NIL, WIGANDOY_KILL, WIGANDOY_INVOKE, WIGANDOY_RECEIVE, WIGANDOY_WAIT, WIGANDOY_CHOICE,
    WIGANDOY_PARALLEL, WIGANDOY_PROTECTION, WIGANDOY_DELIMITATION, WIGANDOY_REPLICATION
};
enum {
    WIGANDOY_KILL_MOVE, WIGANDOY_COMMUNICATE, WIGANDOY_TIMEOUT, WIGANDOY_ELAPSE, WIGANDOY_UNFOLD, WIGANDOY_EXTRUDE
};

/* The kinds of an Orc script's records. */
enum {
    WIGANDOY_ORC_NOTHING, WIGANDOY_ORC_CALL, WIGANDOY_ORC_SEQUENCE, WIGANDOY_ORC_PARALLEL, WIGANDOY_ORC_WHERE
};

/* The answers, as numbered above. */
enum {
    WIGANDOY_ACCEPTED = 0,
    WIGANDOY_BAD_LENGTH = 1, WIGANDOY_BAD_RECORD = 2, WIGANDOY_BAD_SHAPE = 3, WIGANDOY_TOO_DEEP = 4,
    WIGANDOY_NO_GUARD = 5, WIGANDOY_OUT_OF_SCOPE = 6, WIGANDOY_CLASH = 7,
    WIGANDOY_NO_MOVE = 10, WIGANDOY_ABSENT = 11, WIGANDOY_DIFFERS = 12, WIGANDOY_APART = 13, WIGANDOY_HELD_BACK = 14,
    WIGANDOY_LOOSER = 15, WIGANDOY_UNRIPE = 16, WIGANDOY_NO_TIME = 17, WIGANDOY_STUCK = 18, WIGANDOY_LIST_TOO_LONG = 19,
    WIGANDOY_TOO_LARGE = 20, WIGANDOY_NO_ROOM = 21, WIGANDOY_LIST_TOO_SHORT = 22,
    WIGANDOY_GONE_BACK = 23, WIGANDOY_TOO_MANY_TICKS = 24, WIGANDOY_WRONG_NUMBER = 25, WIGANDOY_SCOPES_CLASH = 26,
    WIGANDOY_BAD_SCRIPT = 30, WIGANDOY_BAD_NESTING = 31, WIGANDOY_BAD_BINDING = 32
};

/* The places of 12: what differs. In slot i of the tuple, from 0, it is WIGANDOY_OTHER_VALUE + i. */
enum {
    WIGANDOY_UNSET_VARIABLE = 0, WIGANDOY_OTHER_ENDPOINT = 1, WIGANDOY_OTHER_COUNT = 2, WIGANDOY_OTHER_VALUE = 3
};

/* The bytes that the output of a play must hold. */
#define WIGANDOY_OUTPUT 32768

/* Threads: no function keeps anything between calls or allocates memory; calls may run side by side, as long as no buffer
 * that one of them writes is used by another. All that a call needs is on the stack of its thread, at most so many bytes
 * (measured by tests/c/stack.c, and rounded up): */
#define WIGANDOY_STACK_CHECK 196608 /* check and load */
#define WIGANDOY_STACK_STEP 262144 /* step, ticks and joint */
#define WIGANDOY_STACK_PLAY 327680
#define WIGANDOY_STACK_OPEN 196608
#define WIGANDOY_STACK_ORC 65536

/* Whether bytes are a well-formed table: refusals 1 to 7, or 0 and its records. */
uint64_t wigandoy_check(const uint8_t *table, size_t bytes);

/* The load of a table, its kills, invokes, receives and waits: refusals 1 to 7, or 0 and the load in place of the records. */
uint64_t wigandoy_load(const uint8_t *table, size_t bytes);

/* One move on a table: refusals 1 to 7, 10 to 18, 20 and 21, or 0 and the successor's records, which the output then begins
 * with; the bytes behind them stay as they were. */
uint64_t wigandoy_step(const uint8_t *table, size_t bytes, const uint8_t *move, size_t length, uint8_t *out, size_t room);

/* A time move from two readings of a controller's clock of 32 bits. What has elapsed is later less earlier, rolling over at the
 * top: from 4,294,967,290 to 4 it is 10. Refusals 1 to 7, 23, 24 and 21, in this order. If nothing has elapsed, no move is made:
 * 0 and the table's records, which the output then begins with as they came; the bytes behind them stay as they were. Otherwise
 * reply and output are exactly those of the step whose move is the time that has elapsed. (Request 2026-08 will add an argument,
 * b: the engine whose waits fall.) */
uint64_t wigandoy_ticks(const uint8_t *table, size_t bytes, uint32_t earlier, uint32_t later, uint8_t *out, size_t room);

/* One to eight stops (kills of the table) fired as one step. `stops` has their positions, `count` of them, as numbers of the
 * machine. Each is live, and no one's scope, the delimitation of its label, lies inside another's or is the same; a position that
 * is listed twice clashes with itself. Fired singly in any order, each at the place that its record then has, they are all
 * accepted and leave one table: the joint step leaves it. Refusals 1 to 7, 25, 11, 26 and 21, in this order; or 0 and the
 * successor's records, which the output then begins with; the bytes behind them stay as they were. `tally` is always written, in
 * play's order: as many kills as were listed and nothing else, or zeros if the step was refused. It is a step of its own: no move
 * says it, and no list or play has it. */
uint64_t wigandoy_joint(const uint8_t *table, size_t bytes, const uint16_t *stops, size_t count, uint8_t *out, size_t room,
                        uint32_t tally[4]);

/* A list of moves on a table, six bytes each, which may be anything; a tail of 1 to 5 bytes is no move. Each is judged on
 * the table that the accepted ones before it left, with an output of 32,768 bytes. Refusals of the whole: 1 to 7, 19 and
 * 21. Otherwise 0 and the records of the last table, which the output then begins with, zeros behind it up to byte 32,768;
 * `replies` takes six bytes for each move: answer, place and records of the table then kept, 16 bits each, little-endian.
 * All other bytes of both stay as they were. `tally` is always written: communications, kills, timeouts, and the load that
 * unfoldings copied, of the accepted moves; zeros if the play was refused. */
uint64_t wigandoy_play(const uint8_t *table, size_t bytes, const uint8_t *moves, size_t length, uint8_t *out, size_t room,
                       uint8_t *replies, size_t space, uint32_t tally[4]);

/* What can happen now: every move but time that a step on the table would accept with an output of 32,768 bytes, in this order:
 * kills by a, communications by a then b, timeouts by a, unfoldings by a, extrusions by a. Refusals 1 to 7 and 22; or 0 and the
 * number of moves in place of the records (it may pass 65,535, and is 0 where nothing can happen), with the moves, six bytes
 * each, from the list's start; the bytes behind them stay as they were. */
uint64_t wigandoy_open(const uint8_t *table, size_t bytes, uint8_t *list, size_t room);

/* An Orc script into a table, by the clauses of COWS's encoding of Orc (the expressions, not the sites that they call). A script
 * is 1 to 512 records of 8 bytes in prefix order: kind, a zero byte, and 16 bits each, little-endian, for an atom, a partner and
 * an operation; the fields that a kind does not use are zero. Nothing; a site call, of the atom as its parameter, at the site's
 * partner and operation; a sequence f >x> g, f | g, and g where x :in f (g comes first), of two parts, the atom being x. x is in
 * scope in the right part of its sequence and in the left part of its where. partner and operation are the endpoint that the
 * results are sent to: a site call becomes the message of its parameter and of the endpoint that its result goes to. Each new
 * atom is the smallest of its set that is not in the script, not in that endpoint and not taken before, in the order of the
 * table's records. Refusals 30, 31, 32, 20 and 21; or 0 and the table's records, which the output then begins with; the bytes
 * behind them stay as they were. The table is well formed. */
uint64_t wigandoy_orc(const uint8_t *script, size_t bytes, uint16_t partner, uint16_t operation, uint8_t *out, size_t room);

/* The parts of a reply. */
static inline unsigned wigandoy_answer(uint64_t reply) { return (unsigned)(reply & 0xff); }
static inline unsigned wigandoy_place(uint64_t reply) { return (unsigned)(reply >> 8 & 0xffffff); }
static inline unsigned wigandoy_records(uint64_t reply) { return (unsigned)(reply >> 32); }

#ifdef __cplusplus
}
#endif

#endif
