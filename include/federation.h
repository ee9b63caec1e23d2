/* The federation's list: sheets of up to FEDERATION_ENTRIES entries, plain ones and timed ones. The seven calls of sheet.h and the eight of timed.h
 * on a larger store that the caller lends, and the mending of a spoiled one. The conversions of sheet.h have no counterpart here: no such store
 * stood in the order of the range numbers.
 *
 * On x86-64 Linux, `rt lib` in crates/federation_c proves the crates and writes out/libfederation_c.a there; a program is then built by
 *
 *     gcc -I include -o program program.c crates/federation_c/out/libfederation_c.a
 *
 * with the archives of sheet.h and timed.h behind it where it makes their calls too. What a sheet and a timed sheet are, how slices are passed, what
 * comes back in `answer`, what the coins have to be, when to mend and what is not claimed stands in sheet.h and timed.h, and holds here but for the
 * numbers below.
 *
 * The store. A plain one is FEDERATION_SLOTS slots, FEDERATION_COUNTS counts and FEDERATION_TALLIES tallies, both of 32 bits; a timed one has a third
 * slice of FEDERATION_BALANCE words behind them. The size parameter M, counts[0], goes to 2 FEDERATION_ENTRIES - 1. The counts and the tallies of
 * M's tree stand in Van Emde Boas order (document 02, F-5), whatever the number of its levels; the third slice stands by the numbers of the ranges.
 * A store of zeros is the empty sheet, and federation_clear, federation_timed_clear make any store that one.
 *
 * Causes. They are those of sheet.h and timed.h, in the same order. SHEET_LENGTHS is that a slice has another length than these: so it is where the
 * store of a club is lent to a call of this header, and where this one is lent to a call of sheet.h or timed.h. SHEET_FULL is an insert with
 * FEDERATION_ENTRIES entries. A board has at most SHEET_BOARD ranks.
 *
 * Coins. FEDERATION_WORDS words suffice for any one call, but for a share below 2^-140 of all tapes of that length: a call reads at most 2,049 words
 * and those that its draws pass over. After SHEET_TAPE_ENDED lend the SAME words and more behind them.
 *
 * Histories. What is said of equal shares is said of the calls federation_X among themselves, and of the calls federation_timed_X among themselves.
 *
 * Stack. The working arrays stand on the caller's stack. Measured on x86-64 with N = 65,536: an insert or a delete, plain or timed, takes up to
 * 595 KB, of which 524 KB are the list of the entries where the whole sheet is laid out anew; mending takes 103 KB; a question takes 70 KB about a plain
 * sheet and 136 KB about a timed one.
 */
#ifndef FEDERATION_H
#define FEDERATION_H

#include "timed.h"

#define FEDERATION_SLOTS 208896
#define FEDERATION_COUNTS 8192
#define FEDERATION_TALLIES 8192
#define FEDERATION_BALANCE 8192
#define FEDERATION_ENTRIES 65536
#define FEDERATION_WORDS 2068

#ifdef __cplusplus
extern "C" {
#endif

/* Plain sheets. */

/* Makes any contents the empty sheet. Only SHEET_LENGTHS can refuse it. */
size_t federation_clear(uint64_t *slots, size_t slots_len, uint32_t *counts, size_t counts_len, uint32_t *tallies, size_t tallies_len,
                        uint64_t *answer, size_t answer_len);

/* Puts the entry in at a rank from 0 to N. The entries that had this rank and higher ones move up by one. */
size_t federation_insert(uint64_t *slots, size_t slots_len, uint32_t *counts, size_t counts_len, uint32_t *tallies, size_t tallies_len, size_t rank,
                         uint64_t entry, const uint32_t *tape, size_t tape_len, uint64_t *answer, size_t answer_len);

/* Takes the entry at a rank from 0 to N - 1 out. The entries of higher ranks move down by one. */
size_t federation_delete(uint64_t *slots, size_t slots_len, uint32_t *counts, size_t counts_len, uint32_t *tallies, size_t tallies_len, size_t rank,
                         const uint32_t *tape, size_t tape_len, uint64_t *answer, size_t answer_len);

/* Copies the entries of ranks first to last, inclusive, both from 0 to N - 1, to the front of the output. The rest of it stays as it was. */
size_t federation_read(const uint64_t *slots, size_t slots_len, const uint32_t *counts, size_t counts_len, const uint32_t *tallies,
                       size_t tallies_len, size_t first, size_t last, uint64_t *output, size_t output_len, uint64_t *answer, size_t answer_len);

/* The place of the entry at a rank from 0 to N - 1, with the sum and the number t of its tied group: the points are answer[1] over answer[2].
 * `answer` has at least three elements. A retired boat has place 0 and sum 0, and t is 1. */
size_t federation_place(const uint64_t *slots, size_t slots_len, const uint32_t *counts, size_t counts_len, const uint32_t *tallies,
                        size_t tallies_len, size_t rank, uint64_t *answer, size_t answer_len);

/* Whether the store is a sheet, and N. */
size_t federation_check(const uint64_t *slots, size_t slots_len, const uint32_t *counts, size_t counts_len, const uint32_t *tallies,
                        size_t tallies_len, uint64_t *answer, size_t answer_len);

/* Copies the entries at these ranks to the front of the output, as sheet_board does. The rest of the output stays as it was. */
size_t federation_board(const uint64_t *slots, size_t slots_len, const uint32_t *counts, size_t counts_len, const uint32_t *tallies,
                        size_t tallies_len, const uint64_t *ranks, size_t ranks_len, uint64_t *output, size_t output_len, uint64_t *answer,
                        size_t answer_len);

/* Puts the counts and the tallies of the sheet that has these slots and this size parameter into the store, as sheet_mend does, and gives N.
 * SHEET_LENGTHS, then SHEET_NOT_MENDABLE exactly where there is no such sheet. */
size_t federation_mend(const uint64_t *slots, size_t slots_len, uint32_t *counts, size_t counts_len, uint32_t *tallies, size_t tallies_len,
                       uint64_t *answer, size_t answer_len);

/* Timed sheets. */

/* Makes any contents the empty timed sheet. Only SHEET_LENGTHS can refuse it. */
size_t federation_timed_clear(uint64_t *slots, size_t slots_len, uint32_t *counts, size_t counts_len, uint32_t *tallies, size_t tallies_len,
                              uint64_t *balance, size_t balance_len, uint64_t *answer, size_t answer_len);

/* Puts the entry in. Its rank is the number of keys below its own; the entries that had this rank and higher ones move up by one. */
size_t federation_timed_insert(uint64_t *slots, size_t slots_len, uint32_t *counts, size_t counts_len, uint32_t *tallies, size_t tallies_len,
                               uint64_t *balance, size_t balance_len, uint64_t entry, const uint32_t *tape, size_t tape_len, uint64_t *answer,
                               size_t answer_len);

/* Takes the entry at a rank from 0 to N - 1 out. The entries of higher ranks move down by one. */
size_t federation_timed_delete(uint64_t *slots, size_t slots_len, uint32_t *counts, size_t counts_len, uint32_t *tallies, size_t tallies_len,
                               uint64_t *balance, size_t balance_len, size_t rank, const uint32_t *tape, size_t tape_len, uint64_t *answer,
                               size_t answer_len);

/* Whether an entry with this key is there, whatever its bits, and its rank; or the rank at which it would stand, the number of keys below. */
size_t federation_timed_find(const uint64_t *slots, size_t slots_len, const uint32_t *counts, size_t counts_len, const uint32_t *tallies,
                             size_t tallies_len, const uint64_t *balance, size_t balance_len, uint64_t entry, uint64_t *answer,
                             size_t answer_len);

/* Copies the entries of ranks first to last, inclusive, both from 0 to N - 1, to the front of the output. The rest of it stays as it was. */
size_t federation_timed_read(const uint64_t *slots, size_t slots_len, const uint32_t *counts, size_t counts_len, const uint32_t *tallies,
                             size_t tallies_len, const uint64_t *balance, size_t balance_len, size_t first, size_t last, uint64_t *output,
                             size_t output_len, uint64_t *answer, size_t answer_len);

/* The place of the entry at a rank from 0 to N - 1, with the sum and the number t of its tied group, as federation_place gives it. */
size_t federation_timed_place(const uint64_t *slots, size_t slots_len, const uint32_t *counts, size_t counts_len, const uint32_t *tallies,
                              size_t tallies_len, const uint64_t *balance, size_t balance_len, size_t rank, uint64_t *answer, size_t answer_len);

/* Whether the store is a timed sheet, and N. */
size_t federation_timed_check(const uint64_t *slots, size_t slots_len, const uint32_t *counts, size_t counts_len, const uint32_t *tallies,
                              size_t tallies_len, const uint64_t *balance, size_t balance_len, uint64_t *answer, size_t answer_len);

/* Copies the entries at these ranks, with their bits, to the front of the output, as timed_board does. The rest of the output stays as it was. */
size_t federation_timed_board(const uint64_t *slots, size_t slots_len, const uint32_t *counts, size_t counts_len, const uint32_t *tallies,
                              size_t tallies_len, const uint64_t *balance, size_t balance_len, const uint64_t *ranks, size_t ranks_len,
                              uint64_t *output, size_t output_len, uint64_t *answer, size_t answer_len);

/* Puts the counts, the tallies and the third slice of the timed sheet that has these slots and this size parameter into the store, as timed_mend
 * does, and gives N. SHEET_LENGTHS, then SHEET_NOT_MENDABLE exactly where there is no such timed sheet. */
size_t federation_timed_mend(const uint64_t *slots, size_t slots_len, uint32_t *counts, size_t counts_len, uint32_t *tallies, size_t tallies_len,
                             uint64_t *balance, size_t balance_len, uint64_t *answer, size_t answer_len);

#ifdef __cplusplus
}
#endif

#endif
