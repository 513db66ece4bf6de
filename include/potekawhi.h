/* Potekawhi: Byzantine broadcast of a block of bytes among 4 to 16 controllers, at most t of n >= 3t + 1 of them faulty.
 *
 * The functions are those of the crate `boards`, which are proved; `./library` writes target/staticlib/libboards.a. It is for
 * x86-64, and calls nothing but memcpy, memmove and memset.
 *
 * Bytes. A `const uint8_t *` is lent for reading and a `uint8_t *` for reading and writing, for the time of the call, with its length in
 * the argument behind it; a `size_t *` or `uint16_t *` is lent for one number. The caller owns all memory; the library allocates none, keeps
 * no pointer and has no state of its own, so calls on different buffers may run at the same time. The caller sees to it that
 *   - each pointer is valid for its length and not NULL (also where the length is 0: any valid pointer will do there), and
 *   - a buffer that is written overlaps no other buffer of the same call.
 *
 * Numbers. Controllers have the numbers 1 to n, calls 1 to 3t + 9 and rounds 1 to 3t + 8. Call c reads the messages of round c - 1 and
 * writes those of round c. Every function has an answer for every number and every length; there is nothing to test before a call.
 *
 * Refusals. A function that answers a number answers 0 if it did what it says, and otherwise, in this order, the first of
 *   1  n is not 4 to 16
 *   2  t is 0, or 3t + 1 exceeds n
 *   3  k is not 1 to 128
 *   4  a controller's own number, or the number of a piece, is not 1 to n
 *   5  the sender is not 0 to n
 *   6  a lent length is not the one stated
 * that it tries, as said below; step has two more, 7 and 8. Refused, it changes no byte.
 *
 * Without a sender. Sender 0 starts a run in which the controllers compare the blocks that they hold: nobody sends in round 1, and no slot of it
 * is read. If at most t controllers are faulty and all correct ones start with one block, they end with agreed and that block; if their blocks
 * differ, they still end with one outcome and one block. All lengths are those of a run with a sender.
 *
 * Marks. A set of controllers is a number of 16 bits: the bit worth 1 is for controller 1, the bit worth 2 for controller 2, the bit worth 4 for
 * controller 3 and so on; 0 is the empty set.
 *
 * Runs. A run has a number, 0 to 65535, which potekawhi_start takes and the state keeps. All correct controllers are to start a run with one number,
 * and the next run with another. Every message is sent in a slot that carries the number, and a slot that carries another one is read as absent,
 * everywhere: a message of an earlier run that comes late does not count in this one. Where a number is used again, the caller sees to it that no
 * message is left of the run that had it before.
 *
 * Boxes. An inbox or outbox has n slots, slot j for controller j. A slot has 3 + length bytes: one byte, 01 if a message is there; the run number,
 * two bytes, low byte first; and then the message, whose length is potekawhi_message_length of the round. A slot whose first byte is not 01, or whose
 * run number is another one, is absent, its message is not read; where a slot is written as absent, all its bytes are 00. The slot that i writes
 * for j in round c is to arrive in slot i of the inbox of j's call c + 1; where nothing arrived in time the slot's first byte is to be 00. A
 * controller's slot for itself arrives too. */
#ifndef POTEKAWHI_H
#define POTEKAWHI_H

#include <stddef.h>
#include <stdint.h>

#ifdef __cplusplus
extern "C" {
#endif

/* The length of a state in bytes. */
#define POTEKAWHI_STATE_LENGTH 119

/* The length of the rows of a matrix in bytes, of the missing pairs of a graph, and of the sets of a star. */
#define POTEKAWHI_ROWS_LENGTH 32
#define POTEKAWHI_PAIRS_LENGTH 15
#define POTEKAWHI_SETS_LENGTH 8

/* Refusals. */
#define POTEKAWHI_OK 0
#define POTEKAWHI_BAD_N 1
#define POTEKAWHI_BAD_T 2
#define POTEKAWHI_BAD_K 3
#define POTEKAWHI_BAD_NUMBER 4
#define POTEKAWHI_BAD_SENDER 5
#define POTEKAWHI_BAD_LENGTH 6
#define POTEKAWHI_BAD_STATE 7
#define POTEKAWHI_FINISHED 8

/* What potekawhi_decode answers where no block is close enough to the slots: the number of no refusal. */
#define POTEKAWHI_BEYOND 255

/* Outcomes: what potekawhi_outcome and potekawhi_final_block answer. With at most t faulty controllers all correct ones have the same one, agreed
 * or none. Agreed means that at least t + 1 correct controllers have held the final block since call 2, so that faulty ones cannot bring in a block
 * that no correct one held; a controller to which nothing came from the sender holds zeros. None means that no core was found: with a sender, that
 * the sender is faulty; with sender 0 it accuses nobody, the correct controllers did not all start with one block. With more than t faulty
 * controllers nothing is promised, and none accuses nobody. */
#define POTEKAWHI_OUTCOME_OPEN 0   /* the run is not at its end */
#define POTEKAWHI_OUTCOME_AGREED 1 /* the final block is the one agreed on */
#define POTEKAWHI_OUTCOME_NONE 2   /* no core was found; the final block is zeros */
#define POTEKAWHI_OUTCOME_BEYOND 3 /* no block is close enough to the pieces: more than t controllers are faulty; the final block is zeros */

/* Begins the run of one controller. `sender` is 1 to n, or 0 for none; `run` is the run number, and every number is one. `block` is the sender's
 * block, k * (t + 1) bytes; every other controller lends bytes of that length, whatever they are. With sender 0 each lends the block that it holds.
 * It is neither read nor changed here. `state` is POTEKAWHI_STATE_LENGTH bytes, whatever they are; the caller keeps it for the whole run.
 * Answers 6 if `state` has another length; else the first of 1 to 6, in order. Refused, it changes nothing, `state` included. */
uint8_t potekawhi_start(size_t n, size_t t, size_t k, size_t own, size_t sender, uint16_t run, const uint8_t *block, size_t block_length,
                        uint8_t *state, size_t state_length);

/* Makes the next call of the run. `state` is what potekawhi_start or the step before wrote; `block` is the controller's block, which the
 * caller keeps for the whole run and which step overwrites in call 3t + 9 and, with a sender, in call 2; `inbox` and `outbox` are as long as
 * potekawhi_inbox_length and potekawhi_outbox_length say of the call, and all of `outbox` is written.
 * Answers 6 if `state` has another length than POTEKAWHI_STATE_LENGTH; else 7 if its settings or its own number are refused with one of 1 to
 * 5, or its next call is not 1 to 3t + 10; else 8 if the run is at its end; else 6 if another lent length is wrong. Refused, nothing changes,
 * and the step can be made again. Every buffer of POTEKAWHI_STATE_LENGTH bytes is a state, damaged or not: step has an answer for it. */
uint8_t potekawhi_step(uint8_t *state, size_t state_length, uint8_t *block, size_t block_length, const uint8_t *inbox, size_t inbox_length,
                       uint8_t *outbox, size_t outbox_length);

/* The number of the next call that `state` stands before: in a run 1 to 3t + 9, or 3t + 10 at the end; in a damaged state whatever stands there.
 * 0 if `state` has another length than POTEKAWHI_STATE_LENGTH. */
size_t potekawhi_next_call(const uint8_t *state, size_t state_length);

/* The outcome in `state`: one of POTEKAWHI_OUTCOME_..; 6 if `state` has another length than POTEKAWHI_STATE_LENGTH. */
uint8_t potekawhi_outcome(const uint8_t *state, size_t state_length);

/* The outcome, and the block with which the run ended: copies `block` to `final_block` if the outcome is not POTEKAWHI_OUTCOME_OPEN; while
 * it is open, `final_block` does not change. Both are potekawhi_block_length bytes of the state's settings. Answers the outcome; or 6, and
 * nothing changes, if `state` has another length than POTEKAWHI_STATE_LENGTH or one of the blocks has another length. */
uint8_t potekawhi_final_block(const uint8_t *state, size_t state_length, const uint8_t *block, size_t block_length, uint8_t *final_block,
                              size_t final_block_length);

/* Whom the controller names: the marks of those whose piece in the last round was absent or differed, in any byte, from their piece of the final
 * block. Empty while the run is open, and where the outcome is POTEKAWHI_OUTCOME_NONE or POTEKAWHI_OUTCOME_BEYOND: start and every call set it
 * anew, and a step that is refused leaves it as it was. With at most t faulty controllers no correct one names a correct one, so that whoever
 * is named by t + 1 is faulty. The marks of correct controllers may differ, since a faulty one may send its true piece to some of them; and a
 * faulty one that sent its true piece is not named. In a damaged state whatever stands there. 0 if `state` has another length than
 * POTEKAWHI_STATE_LENGTH. */
uint16_t potekawhi_named(const uint8_t *state, size_t state_length);

/* The message in slot `j` of an inbox of messages of `length` bytes, in the run `run`: answers its length and writes to `*offset` where in the
 * inbox it starts; 0 and 0 if the slot is absent, j is 0, or the inbox does not hold the slot whole. */
size_t potekawhi_message(const uint8_t *inbox, size_t inbox_length, uint16_t run, size_t length, size_t j, size_t *offset);

/* Piece `number` of the coding of `block`, which has k * (t + 1) bytes, to `piece`, which has k. Tries 1, 2, 3, 4, 6. */
uint8_t potekawhi_encode(size_t n, size_t t, size_t k, size_t number, const uint8_t *block, size_t block_length, uint8_t *piece,
                         size_t piece_length);

/* The block from the pieces in `slots`, to `block`. `slots` is n slots of messages of k bytes, so 3 + k bytes each; absent ones, also those that carry
 * another run number than `run`, are dropped. With N slots present, it is the block in each stripe of which twice the number of present values that
 * differ from its coding is at most N - t - 1: any t + 1 true pieces suffice if all other slots are absent, and with all n present up to
 * (n - t - 1) / 2 may be false. With N at most t there is none. `block` has k * (t + 1) bytes. `*named` is written too: the marks of those of 1 to n
 * whose slot is absent or differs, in any byte, from their piece of that block. Answers 0, the block and its marks; POTEKAWHI_BEYOND, zeros and no
 * marks, 0, if there is no such block; or the first of 1, 2, 3, 6, and nothing changes: neither `block` nor `*named`. */
uint8_t potekawhi_decode(size_t n, size_t t, size_t k, uint16_t run, const uint8_t *slots, size_t slots_length, uint8_t *block,
                         size_t block_length, uint16_t *named);

/* The star of the neighbour graph of `rows`, 16 rows of marks of two bytes each, low byte first, of which the first n rows and of them the
 * lowest n bits are read: i and j are neighbours if each marks the other. Writes the sets C, D, F and E, of which E is the core, to `sets`,
 * two bytes each, low byte first; all zero if no core is found. `rows` has POTEKAWHI_ROWS_LENGTH bytes and `sets` POTEKAWHI_SETS_LENGTH.
 * Answers 6 if one of them has another length, else tries 1, 2; refused, nothing changes. */
uint8_t potekawhi_star(size_t n, size_t t, const uint8_t *rows, size_t rows_length, uint8_t *sets, size_t sets_length);

/* The neighbour graph of `rows`, as potekawhi_star reads them, as its missing pairs, to `pairs`: 120 bits, one for each pair of different
 * numbers of 1 to 16, in the order of the smaller number and then the larger, (1, 2), (1, 3) .. (1, 16), (2, 3) .. (15, 16), eight to a byte,
 * the bit worth 1 first. A bit is 1 if both numbers are at most n and they are not neighbours; an n above 16 counts as 16. `rows` has
 * POTEKAWHI_ROWS_LENGTH bytes and `pairs` POTEKAWHI_PAIRS_LENGTH. Answers 6, and nothing changes, if one of them has another length. */
uint8_t potekawhi_missing_pairs(size_t n, const uint8_t *rows, size_t rows_length, uint8_t *pairs, size_t pairs_length);

/* The star of the neighbour graph given as its missing pairs, 120 bits as potekawhi_missing_pairs writes them, or any others: bits of numbers
 * past n are not read. Else as potekawhi_star, and of the missing pairs of the same rows the same answer. `pairs` has POTEKAWHI_PAIRS_LENGTH
 * bytes and `sets` POTEKAWHI_SETS_LENGTH. Answers 6 if one of them has another length, else tries 1, 2; refused, nothing changes. */
uint8_t potekawhi_star_of_pairs(size_t n, size_t t, const uint8_t *pairs, size_t pairs_length, uint8_t *sets, size_t sets_length);

/* The lengths in bytes that a call states. All are 0 where n, t or k would be refused with 1, 2 or 3, and where there is no such round or
 * call. */

/* The length of a block: k * (t + 1). */
size_t potekawhi_block_length(size_t n, size_t t, size_t k);

/* The length of a message of round c, 1 to 3t + 8, without the three bytes in front of it in a slot. */
size_t potekawhi_message_length(size_t n, size_t t, size_t k, size_t c);

/* The length of the inbox of call c, which has the slots of round c - 1; 0 for the first call. */
size_t potekawhi_inbox_length(size_t n, size_t t, size_t k, size_t c);

/* The length of the outbox of call c, which has the slots of round c; 0 for the last call. */
size_t potekawhi_outbox_length(size_t n, size_t t, size_t k, size_t c);

/* How many calls a run has: 3t + 9; 0 if t is not 1 to 5. */
size_t potekawhi_calls(size_t t);

#ifdef __cplusplus
}
#endif

#endif
