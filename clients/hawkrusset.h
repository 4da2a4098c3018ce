/*
 * The calls that Hawkrusset offers to C. Each answers for any bytes and keeps nothing. With each stands the stack that it takes: the most that was
 * measured on x86-64, over the samples, other shows of full size and refused files, rounded up.
 */
#ifndef HAWKRUSSET_H
#define HAWKRUSSET_H

#include <stddef.h>
#include <stdint.h>

/* The answers of console_answer that are no refusal's number; play_file has the second too. */
#define HAWKRUSSET_CARRIED 100u
#define HAWKRUSSET_NO_TABLE 101u
#define HAWKRUSSET_NOT_CARRIED 200u

/* The bytes of a block. */
#define HAWKRUSSET_BLOCK 512u

/* The bytes that solve_file's buffer must have; no show takes more. */
#define HAWKRUSSET_FILE_ROOM 59392u

/* The bytes that play_file's buffer must have. */
#define HAWKRUSSET_RUN_ROOM 28672u

/* The bytes that hoa_file's buffer must have; no text takes more. */
#define HAWKRUSSET_TEXT_ROOM 20000u

/* The masks of a family of the solver by turns, and the entries that turn_file's table must have. */
#define HAWKRUSSET_FAMILY 448u
#define HAWKRUSSET_TABLE 28672u

/* The answers of turn_file and of look_up_file that are no refusal. */
#define HAWKRUSSET_UNFINISHED 1u
#define HAWKRUSSET_FINISHED 2u
#define HAWKRUSSET_STRUCK_OUT 1u
#define HAWKRUSSET_STILL_IN 2u

/*
 * What is said of the file whose bytes these are, as one number:
 *   100       its table passes, and each start state of the rig has a partner;
 *   101       it has no table;
 *   200 + c   its table passes, and the rig's start state c is the lowest that lacks a partner (c is below 64);
 *   2 to 12, and 19
 *             it was refused: docs/RULES.md has every number; 12 is an entry of the table that fails.
 * It takes at most 130,000 bytes of stack. libconsole.a has it (clients/archives.sh).
 */
uint32_t console_answer(const uint8_t *bytes, size_t length);

/*
 * How many bytes the whole file must have, by its first block: a multiple of 512, from 512 to 59,392. Or a refusal's number, 2 to 5 or 19: 2
 * for fewer than 512 bytes. It looks at no byte after the first 512, so that more may be handed over. Of a file of whole blocks whose first
 * block is refused, console_answer gives the same number.
 * It takes at most 100 bytes of stack. libconsole.a has it.
 */
uint32_t first_block_answer(const uint8_t *bytes, size_t length);

/*
 * The show of the file whose bytes these are, all of them, with the solver's table, whether or not the file has one: 59,905 bytes are
 * refusal 2. The answer is the length of the new file, which stands at the start of `out`; the bytes after it are unchanged. Or the answer
 * is 0: then `out` is unchanged. `spot` is a place for four numbers, written beside a refusal and only then: the refusal's number (1 for an
 * `out` of fewer than 59,392 bytes, 21 for a fairness set without a state) and the three numbers of its spot. `bytes`, `out` and `spot` must not
 * overlap.
 * It takes at most 195,000 bytes of stack. librestore.a has it.
 */
size_t solve_file(const uint8_t *bytes, size_t length, uint8_t *out, size_t room, uint64_t spot[4]);

/*
 * Plays a lasso of the rig, the states of its stem and of its loop, by the table of the file whose bytes these are. The answer is stem length
 * * 65,536 + loop length of the score's run, whose states stand at the start of `run`, a byte each, the stem's before the loop's; the bytes
 * after it, and `spot`, are unchanged. No loop is empty, so that this is not 0. Or the answer is 0: then `run` is unchanged, and `spot` has
 * the refusal's number (1 for a `run` of fewer than 28,672 bytes, 12 for an entry of the table that fails, 13 to 16 for the lasso) and the
 * three numbers of its spot, or 101 and three zeros where the file has no table. `run` and `spot` must not overlap each other or the rest.
 * It takes at most 130,000 bytes of stack. libplayback.a has it.
 */
uint64_t play_file(const uint8_t *bytes, size_t length, const uint8_t *stem, size_t stem_length, const uint8_t *loop, size_t loop_length,
                   uint8_t *run, size_t room, uint64_t spot[4]);

/*
 * The solver by turns, for a program that goes on between turns. It keeps the family, the sets of pairs that are still in, one for each section:
 * bit a of family[64 * (section - 1) + c] is the pair of the rig's state c and the score's state a. All three calls are handed the same show's
 * bytes, and read its machines each time; whether the file has a table makes no difference.
 *   first_family_file   makes the first family, all matched pairs in every section: 1.
 *   turn_file           makes every section's set afresh from the family that the turn before left: 1, or 2 if the turn changed nothing. Then it is
 *                       finished, and only then writes the table, solve_file's: its n x nC x nA entries stand at the start of `table`, and those
 *                       after them are unchanged. That is so after at most n x nC x nA + 1 turns; a further turn says 2 again and writes the same.
 *   look_up_file        looks up a pair in a section, counted from 1: 1 if it is struck out, which is final, 2 if it is still in.
 * Or the answer is 0: then `family` and `table` are unchanged, and `spot` has the refusal's number and the three numbers of its spot; else `spot` is
 * unchanged. The numbers are 1 for a `table` of fewer than 28,672 entries, told before the file is looked at, those of the reader, 21 for a fairness
 * set without a state, and last 20 for a look-up whose section or state is out of range. What is written must not overlap the rest.
 * A family of other origin is no error: of it turn and look-up see the matched pairs of the machines, and a turn gives what its rule gives. That
 * struck out is final, how many turns it takes and that the table is solve_file's is said of turns from first_family_file on.
 * They take at most 130,000, 165,000 and 130,000 bytes of stack. libwatch.a has them.
 */
uint32_t first_family_file(const uint8_t *bytes, size_t length, uint64_t family[HAWKRUSSET_FAMILY], uint64_t spot[4]);

uint32_t turn_file(const uint8_t *bytes, size_t length, uint64_t family[HAWKRUSSET_FAMILY], uint16_t *table, size_t entries, uint64_t spot[4]);

uint32_t look_up_file(const uint8_t *bytes, size_t length, const uint64_t family[HAWKRUSSET_FAMILY], size_t section, size_t c, size_t a,
                      uint64_t spot[4]);

/*
 * Writes a machine of the show whose bytes these are, 0 the rig or 1 the score, in the Hanoi Omega-Automata format, version 1
 * (http://adl.github.io/hoaf/). The answer is the length of the text, which stands at the start of `out`; the bytes after it, and `spot`, are
 * unchanged. The two texts, one after the other, are a stream of two automata. Whether the file has a table makes no difference, and a fairness set
 * without a state is written like any other. Or the answer is 0: then `out` is unchanged, and `spot` has the refusal's number and the three numbers
 * of its spot. The numbers are 1 for an `out` of fewer than 20,000 bytes, told before the file is looked at, those of the reader, 2 to 11 and 19,
 * and last 20 for a machine that is neither 0 nor 1. `bytes`, `out` and `spot` must not overlap.
 * It takes at most 130,000 bytes of stack. libexport.a has it.
 */
size_t hoa_file(const uint8_t *bytes, size_t length, size_t which, uint8_t *out, size_t room, uint64_t spot[4]);

#endif
