/* lucorphane.h: simulation games on a Buechi automaton, and its quotient. C99 and C++.
 *
 * tools/library.sh writes the library, target/staticlib/libcapi.a, for x86-64 Linux; it needs nothing beside C's
 * memset. What each function does is proved for every argument; that this text says the same is by reading. No number is
 * cut to fewer bits before it is looked at: a start of 2^40 is refused with 4, and a mode of 256 with 8.
 *
 * The automaton. Every function but lucorphane_positions takes it in seven parameters:
 *
 *   n, k, start           states 0 to n-1, n from 1 to 64; letters 0 to k-1, k from 1 to 16; the start state
 *   accept, accept_len    n bytes, one a state: 1 if it accepts, else 0
 *   moves, moves_len      three bytes a move: from, letter, to. Moves ascend by from, then letter, then to, and none
 *                         occurs twice. There may be none.
 *
 * The modes: 0 ordinary, 1 direct, 2 delayed, 3 fair simulation.
 *
 * The table has P entries, one a position of the game. T, the largest entry allowed, means lost. Spoiler moves Red, from
 * q; Duplicator moves Blue, from r, and has to answer the letter a. Modes 0, 1 and 3 have P = n*n*(1+k) positions:
 *
 *   Spoiler's (q,r)         q*n + r
 *   Duplicator's (q,r,a)    n*n + (q*n + r)*k + a
 *
 * Mode 2 has a bit b beside them, 1 while Blue owes an accepting state, and P = 2*n*n*(1+k) positions:
 *
 *   Spoiler's (b,q,r)       b*n*n + q*n + r
 *   Duplicator's (b,q,r,a)  2*n*n + (b*n*n + q*n + r)*k + a
 *
 * Refusals. A refused call returns the lowest number that applies, but 17 before 9 and 16, with its place and all values 0,
 * and writes to no buffer. Places count from 0 and name the first thing at fault; a place that is not named is 0.
 *
 *   number                                                               place
 *    1  n is not 1 to 64
 *    2  k is not 1 to 16
 *    3  accept_len is not n; or a byte of accept is above 1              n; or the byte's index
 *    4  start is not below n
 *    5  moves_len is not a multiple of 3
 *    6  a move's state is not below n, or its letter not below k         the move, counted in moves
 *    7  a move is not above the one before it                            the move, counted in moves
 *    8  mode is above 3
 *    9  table_len is not P
 *   10  an entry of the table is above T                                 the entry
 *   11  position is not below P
 *   12  the table is not at rest                                         the lowest position that is not
 *   13  a reply is asked for at a Spoiler's position
 *   14  a reply is asked for at a position that is lost
 *   15  a reply is asked for where Blue has no move; a table at rest has T there, so 12 or 14 comes before it
 *   16  an output has not the length that it must have
 *   17  a quotient is asked for in mode 0 or 3
 *
 * What the caller owes, and nothing tests: a pointer is valid for the length after it, counted in elements, and aligned
 * for them; a buffer that is written to overlaps no other; nobody else writes to a lent buffer during the call. A pointer
 * whose length is 0 is not followed, and may be null. The stack has room for 128 KB, the most that a call was seen to need
 * being 102,567 bytes (docs/PERFORMANCE.md has it for each).
 *
 * No function keeps anything between calls, allocates memory or fails in any other way than by a number of refusal. All of
 * them end. Nothing is proved of their time; docs/PERFORMANCE.md has what lucorphane_settle took on automata made to be slow.
 */
#ifndef LUCORPHANE_H
#define LUCORPHANE_H

#include <stddef.h>
#include <stdint.h>

#ifdef __cplusplus
extern "C" {
#endif

/* What every call returns. number 0: accepted; else the number of the refusal. place and value are 0 unless said below. */
typedef struct lucorphane_answer { uint64_t number, place, value[3]; } lucorphane_answer;

/* Checks an automaton. Refusals 1 to 7. */
lucorphane_answer lucorphane_check(uint64_t n, uint64_t k, uint64_t start, const uint8_t *accept, size_t accept_len,
                                   const uint8_t *moves, size_t moves_len);

/* The length of a table: value[0] is P. Refusals 1, 2, 8. */
lucorphane_answer lucorphane_positions(uint64_t n, uint64_t k, uint64_t mode);

/* The largest entry of a table: value[0] is T, with f accepting states 1 in modes 0 and 1, n*(n-f)+1 in mode 2, f*(n-f)+1 in
 * mode 3. Refusals 1 to 8. */
lucorphane_answer lucorphane_ceiling(uint64_t n, uint64_t k, uint64_t start, const uint8_t *accept, size_t accept_len,
                                     const uint8_t *moves, size_t moves_len, uint64_t mode);

/* Fills the table with 0. Refusals 1 to 9. */
lucorphane_answer lucorphane_clear(uint64_t n, uint64_t k, uint64_t start, const uint8_t *accept, size_t accept_len,
                                   const uint8_t *moves, size_t moves_len, uint64_t mode, uint32_t *table, size_t table_len);

/* Lifts one position: its entry becomes what the position asks for, if that is more. value[0] is 1 if the entry rose, else
 * 0. No other entry changes. From a cleared table, lifts in any order that come to rest leave the table that
 * lucorphane_settle leaves. Refusals 1 to 11. */
lucorphane_answer lucorphane_lift(uint64_t n, uint64_t k, uint64_t start, const uint8_t *accept, size_t accept_len,
                                  const uint8_t *moves, size_t moves_len, uint64_t mode, uint32_t *table, size_t table_len,
                                  size_t position);

/* Clears the table, then lifts its positions in ascending order, sweep after sweep, until a whole sweep raises nothing.
 * value[0] is the number of raises. What the table held before does not matter. Refusals 1 to 9. */
lucorphane_answer lucorphane_settle(uint64_t n, uint64_t k, uint64_t start, const uint8_t *accept, size_t accept_len,
                                    const uint8_t *moves, size_t moves_len, uint64_t mode, uint32_t *table,
                                    size_t table_len);

/* Whether the table is at rest, which is that no lift would raise an entry. value[0] is 1 if it is; else value[0] is 0 and
 * place is the lowest position that a lift would raise. Refusals 1 to 10. */
lucorphane_answer lucorphane_rest(uint64_t n, uint64_t k, uint64_t start, const uint8_t *accept, size_t accept_len,
                                  const uint8_t *moves, size_t moves_len, uint64_t mode, const uint32_t *table,
                                  size_t table_len);

/* The relation that a table at rest tells: out has n*n bytes, and out[q*n + r] becomes 1 if the pair (q,r) begins below T,
 * else 0. value[0] is the number of ones. From any table at rest every 1 is a pair that Duplicator wins, so that r simulates
 * q; from the settled one every such pair is a 1. Refusals 1 to 10, 12, 16. */
lucorphane_answer lucorphane_relation(uint64_t n, uint64_t k, uint64_t start, const uint8_t *accept, size_t accept_len,
                                      const uint8_t *moves, size_t moves_len, uint64_t mode, const uint32_t *table,
                                      size_t table_len, uint8_t *out, size_t out_len);

/* Blue's reply at a Duplicator's position that is not lost, from a table at rest. value[0] is the state to move to: the
 * lowest numbered among the moves to the least entry. Refusals 1 to 15. */
lucorphane_answer lucorphane_reply(uint64_t n, uint64_t k, uint64_t start, const uint8_t *accept, size_t accept_len,
                                   const uint8_t *moves, size_t moves_len, uint64_t mode, const uint32_t *table,
                                   size_t table_len, size_t position);

/* Settles the table and merges the states of which each simulates the other, in mode 1 or 2. classes, of n bytes, becomes
 * the class of each state; classes are numbered from 0 on, in the order of their least members. marks, of n bytes, has one
 * byte a class: 1 if a member accepts, else 0. moves_out, of moves_len bytes, has the moves with each state replaced by its
 * class, ascending and each once. Bytes of marks and moves_out that are not used become 255. value[0] is the number of
 * classes, value[1] the number of moves, value[2] the class of start.
 * A quotient by ordinary or fair simulation may accept words that the automaton does not: 0 to 1 and a loop on 1, with 0
 * accepting, accepts none, and would become one accepting state with a loop. So modes 0 and 3 are refused with 17, whatever
 * the lengths of the table and of the outputs. That a quotient in mode 1 or 2 accepts the same words is known and not
 * promised here. Refusals 1 to 8, then 17, 9 and 16. */
lucorphane_answer lucorphane_quotient(uint64_t n, uint64_t k, uint64_t start, const uint8_t *accept, size_t accept_len,
                                      const uint8_t *moves, size_t moves_len, uint64_t mode, uint32_t *table,
                                      size_t table_len, uint8_t *classes, size_t classes_len, uint8_t *marks,
                                      size_t marks_len, uint8_t *moves_out, size_t moves_out_len);

#ifdef __cplusplus
}
#endif

#endif
