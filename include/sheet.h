/* The packed finishing sheet: seven calls on a store that the caller lends, the mending of a spoiled one, and the conversion of its counts between
 * two orders.
 *
 * On x86-64 Linux, `rt lib` in crates/sheet_c proves the crates and writes out/libsheet_c.a there; a program is then built by
 *
 *     gcc -I include -o program program.c crates/sheet_c/out/libsheet_c.a
 *
 * The sheet. An entry is a 64-bit number other than 0; equal entries may stand in one sheet. The list is the entries in finishing order,
 * N of them, at most SHEET_ENTRIES; their ranks are 0 to N - 1. The store is SHEET_SLOTS slots, SHEET_COUNTS counts and SHEET_TALLIES tallies.
 * A store of zeros is the empty sheet, and sheet_clear makes any store that one.
 *
 * Retired boats. Bit 62 of an entry, SHEET_RETIRED, marks a boat that retired or was disqualified: she stays on the sheet and keeps her rank,
 * but holds no place. The other boats are the scoring ones.
 *
 * Dead heats. Bit 63 of an entry, SHEET_TIED, says that the boat tied with the boat before her. A scoring boat ties with the scoring boat before
 * her exactly when she and every retired boat between them bear it; on the first scoring boat it has no effect. A tied group is a longest run of
 * scoring boats so tied; a boat that ties with no other is a group of 1. All t boats of a group take its place p, one more than the number of
 * scoring boats before its first boat; their points are the sum of the places p to p + t - 1, over t.
 *
 * Both bits are part of the entry: either alone is an entry, a read gives them back, and they change only by a delete and an insert. A place
 * looks at them, and the tallies at SHEET_RETIRED; where entries stand does not depend on them.
 *
 * The counts. Count 0 is the size parameter M; the counts of the ranges of M's tree follow in Van Emde Boas order (document 02, F-5), then
 * the unused ones. Stores from before F-5 have them in the order of the range numbers: convert these once by sheet_to_tree_order. No call
 * converts by itself: a store left in the old order is judged by the new one (above M = 64 expect SHEET_NOT_A_SHEET).
 *
 * The tallies. The tally of a range is the number of its scoring entries. It has the number in the tallies that the range's count has in the
 * counts; number 0 of the tallies, and the unused ones, are 0. A store from before F-11 in which no entry bears SHEET_RETIRED gets as tallies a
 * copy of its counts with 0 for number 0.
 *
 * Slices. A slice is a pointer and the number of its elements. The pointer is aligned for its element type and not null, also where the
 * number is 0. A slice that a call may write overlaps no other slice of that call.
 *
 * What a call returns. The returned number is that of the cause that refuses the call, or SHEET_ACCEPTED. The values come back in `answer`,
 * of which a place writes the first three elements and every other call the first two:
 *
 *     clear           0, 0
 *     insert, delete  the new N, the words read from the tape
 *     read, board     the entries put into `output`, 0
 *     place           the place p, the sum of the places p to p + t - 1, the number t of boats of the tied group; 0, 0, 1 for a retired boat
 *     check           N, 0
 *     conversions     M, 0
 *     mend            N, 0
 *
 * The first cause decides, in the order of the numbers but for SHEET_BOARD_RANKS, which comes after SHEET_NOT_A_SHEET and before SHEET_RANK. A
 * refused call puts zeros into these two or three elements and changes nothing else. Where `answer` has fewer than that, SHEET_ANSWER_SHORT is
 * returned before any cause is looked for, and nothing changes at all.
 *
 * Coins. The tape of an insert or a delete is 32-bit words, read from its first element. They are random (uniform and independent), secret,
 * and used once: after an accepted call drop the answer[1] words that it read, and lend those behind them to the next call. SHEET_WORDS words
 * suffice for any one call, but for a share below 2^-134 of all tapes of that length (docs/DECISIONS.md, "How many words a call reads"). On
 * SHEET_TAPE_ENDED make the call again with the SAME words and more behind them: a call that is decided does not change with more tape. Other
 * words in their place would favour the sheets that take few words, and the store would disclose something of its history.
 *
 * A spoiled store. A worn card spoils counts more often than slots. sheet_mend puts counts and tallies back in that follow from the slots and the
 * size parameter, where some sheet has these; there is at most one. It is for a store that SHEET_NOT_A_SHEET refuses though nobody but the calls wrote
 * it. It hides nothing: a store that it mends is the sheet that any reader of the slots works out, and what is not one it refuses. It cannot tell a
 * spoiled slot or a spoiled M from a right one where another sheet has these slots and this M. It is no call of a history: what is said of equal shares
 * is said of stores that the calls alone have written. From the mended sheet on every call does what it does on any sheet.
 *
 * Not claimed: that copies of a sheet taken at two times disclose nothing when they are compared; anything where arguments are chosen after
 * coins were seen, or where other code writes the store; that the caller's words are random; that the compiler is right.
 */
#ifndef SHEET_H
#define SHEET_H

#include <stddef.h>
#include <stdint.h>

#define SHEET_SLOTS 4224
#define SHEET_COUNTS 256
#define SHEET_TALLIES 256
#define SHEET_ENTRIES 1024
#define SHEET_BOARD 64 /* the most ranks of a board */
#define SHEET_WORDS 72

/* The bit of an entry that says that the boat tied with the boat before her, and that of a retired boat. */
#define SHEET_TIED (UINT64_C(1) << 63)
#define SHEET_RETIRED (UINT64_C(1) << 62)

/* The numbers that the calls return. */
#define SHEET_ACCEPTED 0
#define SHEET_LENGTHS 1        /* the store has other lengths than SHEET_SLOTS, SHEET_COUNTS and SHEET_TALLIES */
#define SHEET_NOT_A_SHEET 2    /* the contents of the store are no sheet, if only in a tally */
#define SHEET_ENTRY_ZERO 3     /* the entry is 0; SHEET_TIED or SHEET_RETIRED alone is an entry */
#define SHEET_RANK 4           /* a rank is too high, or first is above last */
#define SHEET_FULL 5           /* insert with SHEET_ENTRIES entries */
#define SHEET_OUTPUT_SHORT 6   /* the output has fewer than last - first + 1 elements, or fewer than there are ranks on the board */
#define SHEET_TAPE_ENDED 7     /* the tape ends before a draw is decided */
#define SHEET_BOARD_RANKS 16   /* the ranks of a board fall, or are more than SHEET_BOARD */
#define SHEET_NOT_MENDABLE 18  /* no sheet has these slots and this size parameter */
#define SHEET_ANSWER_SHORT 255 /* `answer` has fewer than three elements (place) or two (every other call) */

#ifdef __cplusplus
extern "C" {
#endif

/* Makes any contents the empty sheet. Only SHEET_LENGTHS can refuse it. */
size_t sheet_clear(uint64_t *slots, size_t slots_len, uint16_t *counts, size_t counts_len, uint16_t *tallies, size_t tallies_len,
                   uint64_t *answer, size_t answer_len);

/* Puts the entry in at a rank from 0 to N. The entries that had this rank and higher ones move up by one. */
size_t sheet_insert(uint64_t *slots, size_t slots_len, uint16_t *counts, size_t counts_len, uint16_t *tallies, size_t tallies_len, size_t rank,
                    uint64_t entry, const uint32_t *tape, size_t tape_len, uint64_t *answer, size_t answer_len);

/* Takes the entry at a rank from 0 to N - 1 out. The entries of higher ranks move down by one. */
size_t sheet_delete(uint64_t *slots, size_t slots_len, uint16_t *counts, size_t counts_len, uint16_t *tallies, size_t tallies_len, size_t rank,
                    const uint32_t *tape, size_t tape_len, uint64_t *answer, size_t answer_len);

/* Copies the entries of ranks first to last, inclusive, both from 0 to N - 1, to the front of the output. The rest of it stays as it was. */
size_t sheet_read(const uint64_t *slots, size_t slots_len, const uint16_t *counts, size_t counts_len, const uint16_t *tallies,
                  size_t tallies_len, size_t first, size_t last, uint64_t *output, size_t output_len, uint64_t *answer, size_t answer_len);

/* The place of the entry at a rank from 0 to N - 1, with the sum and the number t of its tied group: the points are answer[1] over answer[2],
 * always a whole or a half number. `answer` has at least three elements. A boat alone has her place as sum, and t is 1. A retired boat has
 * place 0 and sum 0, and t is 1. */
size_t sheet_place(const uint64_t *slots, size_t slots_len, const uint16_t *counts, size_t counts_len, const uint16_t *tallies,
                   size_t tallies_len, size_t rank, uint64_t *answer, size_t answer_len);

/* Whether the store is a sheet, and N. */
size_t sheet_check(const uint64_t *slots, size_t slots_len, const uint16_t *counts, size_t counts_len, const uint16_t *tallies,
                   size_t tallies_len, uint64_t *answer, size_t answer_len);

/* Copies the entries at these ranks to the front of the output, in one walk along the sheet. There are at most SHEET_BOARD ranks, each from 0 to
 * N - 1 and none below the one before it; a rank may be repeated. output[k] is what sheet_read of the one rank ranks[k] would copy. The
 * rest of the output stays as it was. No ranks at all are accepted on any sheet. */
size_t sheet_board(const uint64_t *slots, size_t slots_len, const uint16_t *counts, size_t counts_len, const uint16_t *tallies,
                   size_t tallies_len, const uint64_t *ranks, size_t ranks_len, uint64_t *output, size_t output_len, uint64_t *answer,
                   size_t answer_len);

/* Puts the counts and the tallies of the sheet that has these slots and this size parameter, counts[0], into the store, and gives N. Slots and
 * counts[0] are not written. A sheet comes through unaltered. SHEET_LENGTHS, then SHEET_NOT_MENDABLE exactly where there is no such sheet, whatever the
 * other counts and the tallies hold. No words are read. */
size_t sheet_mend(const uint64_t *slots, size_t slots_len, uint16_t *counts, size_t counts_len, uint16_t *tallies, size_t tallies_len,
                  uint64_t *answer, size_t answer_len);

/* Counts that stand in the order of the range numbers, as before F-5, put into the tree order, in place. SHEET_LENGTHS where there are not
 * SHEET_COUNTS counts, SHEET_NOT_A_SHEET where M is above 2 SHEET_ENTRIES - 1; everything else is accepted, whatever the other counts are.
 * Tallies are not converted: there were none before F-11. */
size_t sheet_to_tree_order(uint16_t *counts, size_t counts_len, uint64_t *answer, size_t answer_len);

/* Counts in the tree order, put back into the order of the range numbers. Each conversion undoes the other. */
size_t sheet_to_number_order(uint16_t *counts, size_t counts_len, uint64_t *answer, size_t answer_len);

#ifdef __cplusplus
}
#endif

#endif
