/* Timed sheets: eight calls on a store that the caller lends, whose entries rise, so that a boat is entered and found by her finish.
 *
 * On x86-64 Linux, `rt lib` in crates/timed_c proves the crates and writes out/libtimed_c.a there; a program is then built by
 *
 *     gcc -I include -o program program.c crates/timed_c/out/libtimed_c.a
 *
 * with crates/sheet_c/out/libsheet_c.a behind it where it makes the calls of sheet.h too. What a sheet is, how slices are passed, what the
 * coins have to be and what is not claimed stands in sheet.h, and holds here.
 *
 * The timed sheet. An entry is bit 63, SHEET_TIED, bit 62, SHEET_RETIRED, and its key, the other 62 bits: the finish time in bits 32 to 61, the
 * sail number in bits 0 to 31. A key is other than 0. Entries are compared by their keys, which rise strictly from rank to rank, so that no key
 * is there twice. The bits say what they say in sheet.h: equal finish times without SHEET_TIED are no tie. The store is SHEET_SLOTS slots,
 * SHEET_COUNTS counts and SHEET_TALLIES tallies, which are those of a sheet of sheet.h, and a third slice, `balance`, of TIMED_BALANCE words: it
 * holds at the number of each range above the leaves the balance entry of that range, the first of its right half, as it stands there, bits
 * included, and 0 elsewhere. Range 1 is the root, 2k and 2k + 1 are the halves of range k; the slice stands by these numbers, whatever the order
 * of the counts. A store of zeros is the empty timed sheet, and timed_clear makes any store that one.
 *
 * What a call returns. The returned number is that of the cause that refuses the call, or SHEET_ACCEPTED. The values come back in `answer`,
 * of which a place writes the first three elements and every other call the first two:
 *
 *     clear           0, 0
 *     insert, delete  the new N, the words read from the tape
 *     find            1 and the rank of the entry with this key; or 0 and the rank at which it would stand
 *     read, board     the entries put into `output`, 0
 *     place           the place p, the sum of the places p to p + t - 1, the number t of boats of the tied group; 0, 0, 1 for a retired boat
 *     check           N, 0
 *     mend            N, 0
 *
 * The first cause decides, in the order SHEET_LENGTHS, SHEET_NOT_A_SHEET, TIMED_NOT_TIMED, SHEET_BOARD_RANKS, SHEET_ENTRY_ZERO, TIMED_PRESENT,
 * SHEET_RANK, SHEET_FULL, SHEET_OUTPUT_SHORT, SHEET_TAPE_ENDED. SHEET_LENGTHS is that any of the four slices has another length;
 * SHEET_NOT_A_SHEET looks at slots, counts and tallies alone. SHEET_ENTRY_ZERO is that the entry given has the key 0, so that it has no bit but
 * SHEET_TIED and SHEET_RETIRED, or none. A refused call puts zeros into these two or three elements and changes nothing else. Where `answer` has
 * fewer than that, SHEET_ANSWER_SHORT is returned before any cause is looked for, and nothing changes at all.
 */
#ifndef TIMED_H
#define TIMED_H

#include "sheet.h"

#define TIMED_BALANCE 256

/* The numbers that only these calls return; the others are those of sheet.h. */
#define TIMED_PRESENT 10   /* insert of an entry whose key is there, whatever its bits, also on a full sheet */
#define TIMED_NOT_TIMED 11 /* a key is 0, the keys do not rise strictly, or the third slice is wrong, if only in bit 63 or 62 of a word */

#ifdef __cplusplus
extern "C" {
#endif

/* Makes any contents the empty timed sheet. Only SHEET_LENGTHS can refuse it. */
size_t timed_clear(uint64_t *slots, size_t slots_len, uint16_t *counts, size_t counts_len, uint16_t *tallies, size_t tallies_len,
                   uint64_t *balance, size_t balance_len, uint64_t *answer, size_t answer_len);

/* Puts the entry in. Its rank is the number of keys below its own; the entries that had this rank and higher ones move up by one. An entry
 * that is there keeps its bits: to change them, delete it and insert it again. */
size_t timed_insert(uint64_t *slots, size_t slots_len, uint16_t *counts, size_t counts_len, uint16_t *tallies, size_t tallies_len,
                    uint64_t *balance, size_t balance_len, uint64_t entry, const uint32_t *tape, size_t tape_len, uint64_t *answer,
                    size_t answer_len);

/* Takes the entry at a rank from 0 to N - 1 out. The entries of higher ranks move down by one. */
size_t timed_delete(uint64_t *slots, size_t slots_len, uint16_t *counts, size_t counts_len, uint16_t *tallies, size_t tallies_len,
                    uint64_t *balance, size_t balance_len, size_t rank, const uint32_t *tape, size_t tape_len, uint64_t *answer,
                    size_t answer_len);

/* Whether an entry with this key is there, whatever its bits, and its rank; or the rank at which it would stand, the number of keys below. */
size_t timed_find(const uint64_t *slots, size_t slots_len, const uint16_t *counts, size_t counts_len, const uint16_t *tallies,
                  size_t tallies_len, const uint64_t *balance, size_t balance_len, uint64_t entry, uint64_t *answer, size_t answer_len);

/* Copies the entries of ranks first to last, inclusive, both from 0 to N - 1, to the front of the output. The rest of it stays as it was. */
size_t timed_read(const uint64_t *slots, size_t slots_len, const uint16_t *counts, size_t counts_len, const uint16_t *tallies,
                  size_t tallies_len, const uint64_t *balance, size_t balance_len, size_t first, size_t last, uint64_t *output,
                  size_t output_len, uint64_t *answer, size_t answer_len);

/* The place of the entry at a rank from 0 to N - 1, with the sum and the number t of its tied group: the points are answer[1] over answer[2].
 * `answer` has at least three elements. A retired boat has place 0 and sum 0, and t is 1. */
size_t timed_place(const uint64_t *slots, size_t slots_len, const uint16_t *counts, size_t counts_len, const uint16_t *tallies,
                   size_t tallies_len, const uint64_t *balance, size_t balance_len, size_t rank, uint64_t *answer, size_t answer_len);

/* Whether the store is a timed sheet, and N. */
size_t timed_check(const uint64_t *slots, size_t slots_len, const uint16_t *counts, size_t counts_len, const uint16_t *tallies,
                   size_t tallies_len, const uint64_t *balance, size_t balance_len, uint64_t *answer, size_t answer_len);

/* Copies the entries at these ranks, with their bits, to the front of the output, in one walk along the sheet. There are at most SHEET_BOARD
 * ranks, each from 0 to N - 1 and none below the one before it; a rank may be repeated. output[k] is what timed_read of the one rank
 * ranks[k] would copy. The rest of the output stays as it was. No ranks at all are accepted on any timed sheet. */
size_t timed_board(const uint64_t *slots, size_t slots_len, const uint16_t *counts, size_t counts_len, const uint16_t *tallies,
                   size_t tallies_len, const uint64_t *balance, size_t balance_len, const uint64_t *ranks, size_t ranks_len, uint64_t *output,
                   size_t output_len, uint64_t *answer, size_t answer_len);

/* Puts the counts, the tallies and the third slice of the timed sheet that has these slots and this size parameter, counts[0], into the store, and
 * gives N. Slots and counts[0] are not written. A timed sheet comes through unaltered. SHEET_LENGTHS, then SHEET_NOT_MENDABLE exactly where there is no
 * such timed sheet: also where the keys do not rise. sheet.h says when to use it, and what it cannot tell. */
size_t timed_mend(const uint64_t *slots, size_t slots_len, uint16_t *counts, size_t counts_len, uint16_t *tallies, size_t tallies_len,
                  uint64_t *balance, size_t balance_len, uint64_t *answer, size_t answer_len);

#ifdef __cplusplus
}
#endif

#endif
