/* A small display program for the federation's list. Plain sheets first: enters boats, two of them in a dead heat, strikes one out, and prints
 * place, points and sail number of each; then one retires; then a notice board; then stores that are refused, a club's among them, and this one
 * where a club's call takes it; then a spoiled sheet that is mended, and stores that cannot be; then more boats than a club's sheet has. Timed
 * sheets after that: boats in the order in which their finishes come in, some of which are asked for; then causes; then a sheet with balance
 * entries, each boat of which is found. */
#include "federation.h"
#include "points.h"
#include "tape.h"

#include <inttypes.h>
#include <stdio.h>
#include <string.h>

/* How many boats are entered, plain and timed. */
#define BOATS 1100
#define TIMED_BOATS 200

static uint64_t slots[FEDERATION_SLOTS];
static uint32_t counts[FEDERATION_COUNTS];
static uint32_t tallies[FEDERATION_TALLIES];
static uint64_t balance[FEDERATION_BALANCE];
static uint64_t answer[3];

/* The slices of a plain store, and the four of a timed one, as every call takes them. */
#define PLAIN slots, FEDERATION_SLOTS, counts, FEDERATION_COUNTS, tallies, FEDERATION_TALLIES
#define TIMED PLAIN, balance, FEDERATION_BALANCE

/* An entry without its bits. */
static uint64_t bare(uint64_t entry) {
    return entry & ~(SHEET_TIED | SHEET_RETIRED);
}

static void insert(size_t rank, uint64_t entry) {
    size_t number;

    while ((number = federation_insert(PLAIN, rank, entry, tape, waiting, answer, 2)) == SHEET_TAPE_ENDED)
        extend_tape();
    accepted("insert", number);
    drop_words((size_t)answer[1]);
}

static void delete(size_t rank) {
    size_t number;

    while ((number = federation_delete(PLAIN, rank, tape, waiting, answer, 2)) == SHEET_TAPE_ENDED)
        extend_tape();
    accepted("delete", number);
    drop_words((size_t)answer[1]);
}

/* Prints the number of entries and a line for each: place, points and sail number. */
static void display(void) {
    uint64_t output[8];
    size_t i, n;

    accepted("check", federation_check(PLAIN, answer, 2));
    n = (size_t)answer[0];
    printf("%zu boats\n", n);
    accepted("read", federation_read(PLAIN, 0, n - 1, output, 8, answer, 2));
    for (i = 0; i < n; i++) {
        accepted("place", federation_place(PLAIN, i, answer, 3));
        print_place(answer);
        printf(" %" PRIu64 "\n", bare(output[i]));
    }
}

/* Five boats, of which the second tied with the first and the third is struck out; then the second one retires. */
static void race(void) {
    static const uint64_t boats[] = {117, 42 | SHEET_TIED, 2024, 7, 311};
    size_t i;

    accepted("clear", federation_clear(PLAIN, answer, 2));
    for (i = 0; i < sizeof boats / sizeof boats[0]; i++)
        insert(i, boats[i]);
    delete(2);
    display();
    delete(1);
    insert(1, 42 | SHEET_RETIRED);
    display();
}

/* A notice board: the boats at some ranks, one of which is there twice. It is printed after boards that are refused, which leave the output as
 * it was. */
static void board(void) {
    static const uint64_t ranks[] = {0, 1, 1, 3}, fall[] = {4, 0}, high[] = {2, 4}, zeros[SHEET_BOARD + 1] = {0};
    uint64_t output[SHEET_BOARD + 1];
    size_t i, n;

    accepted("board", federation_board(PLAIN, zeros, SHEET_BOARD, output, SHEET_BOARD, answer, 2));
    accepted("board", federation_board(PLAIN, ranks, 4, output, 4, answer, 2));
    n = (size_t)answer[0];
    printf("ranks that fall: %zu\n", federation_board(PLAIN, fall, 2, output, 4, answer, 2));
    printf("too many ranks: %zu\n", federation_board(PLAIN, zeros, SHEET_BOARD + 1, output, SHEET_BOARD + 1, answer, 2));
    printf("a rank too high: %zu\n", federation_board(PLAIN, high, 2, output, 4, answer, 2));
    printf("output too short: %zu\n", federation_board(PLAIN, zeros, 4, output, 3, answer, 2));
    printf("%zu boats on the board\n", n);
    for (i = 0; i < n; i++)
        printf("%" PRIu64 "%s\n", bare(output[i]), output[i] & SHEET_RETIRED ? " retired" : "");
}

/* Stores that are refused: a tally that is wrong, a count that is right in its lower 16 bits, and slices of other lengths, those of a club among
 * them. A club's call refuses slices of these lengths. */
static void refusals(void) {
    static uint16_t small_counts[FEDERATION_COUNTS], small_tallies[FEDERATION_TALLIES];

    tallies[1]++;
    printf("a tally wrong: %zu\n", federation_check(PLAIN, answer, 2));
    tallies[1]--;
    counts[1] += 65536;
    printf("a count wrong: %zu\n", federation_place(PLAIN, 0, answer, 3));
    counts[1] -= 65536;
    printf("tallies too short: %zu\n",
           federation_check(slots, FEDERATION_SLOTS, counts, FEDERATION_COUNTS, tallies, FEDERATION_TALLIES - 1, answer, 2));
    printf("a club's lengths: %zu\n", federation_check(slots, SHEET_SLOTS, counts, SHEET_COUNTS, tallies, SHEET_TALLIES, answer, 2));
    printf("a club's call: %zu", sheet_check(slots, FEDERATION_SLOTS, small_counts, FEDERATION_COUNTS, small_tallies, FEDERATION_TALLIES, answer, 2));
    printf(", with a club's lengths: %zu\n",
           sheet_insert(slots, SHEET_SLOTS, small_counts, SHEET_COUNTS, small_tallies, SHEET_TALLIES, 0, 5, tape, 0, answer, 2));
    printf("rank too high: %zu\n", federation_place(PLAIN, 4, answer, 3));
    printf("entry zero: %zu\n", federation_insert(PLAIN, 0, 0, tape, waiting, answer, 2));
    printf("no tape: %zu\n", federation_insert(PLAIN, 0, 5, tape, 0, answer, 2));
    printf("answer too short: %zu, %zu\n", federation_check(PLAIN, answer, 1), federation_place(PLAIN, 0, answer, 2));
}

/* Spoils all counts but the size parameter, all tallies and, of a timed sheet, the third slice, mends the sheet, and says whether they are as
 * before. */
static void mend(int timed) {
    static uint32_t counts_before[FEDERATION_COUNTS], tallies_before[FEDERATION_TALLIES];
    static uint64_t balance_before[FEDERATION_BALANCE];
    uint32_t m = counts[0];
    int same;

    memcpy(counts_before, counts, sizeof counts);
    memcpy(tallies_before, tallies, sizeof tallies);
    memcpy(balance_before, balance, sizeof balance);
    memset(counts, 0x5A, sizeof counts);
    memset(tallies, 0xA5, sizeof tallies);
    if (timed)
        memset(balance, 0x3C, sizeof balance);
    counts[0] = m;
    printf("spoiled: %zu", timed ? federation_timed_check(TIMED, answer, 2) : federation_check(PLAIN, answer, 2));
    printf(", mended: %zu", timed ? federation_timed_mend(TIMED, answer, 2) : federation_mend(PLAIN, answer, 2));
    same = memcmp(counts, counts_before, sizeof counts) == 0 && memcmp(tallies, tallies_before, sizeof tallies) == 0 &&
           memcmp(balance, balance_before, sizeof balance) == 0;
    printf(", %" PRIu64 " boats, %s\n", answer[0], same ? "as before" : "not as before");
}

/* Stores that cannot be mended: the first boat is lost, which stands in slot 0 of a sheet of few boats, or the size parameter is, or it has a bit
 * more. */
static void not_mendable(void) {
    uint64_t entry = slots[0];
    uint32_t m = counts[0];

    slots[0] = 0;
    printf("the first boat lost: %zu\n", federation_mend(PLAIN, answer, 2));
    slots[0] = entry;
    counts[0] = 0;
    printf("the size parameter lost: %zu\n", federation_mend(PLAIN, answer, 2));
    counts[0] = m + 131072;
    printf("the size parameter too large: %zu\n", federation_mend(PLAIN, answer, 2));
    counts[0] = m;
}

/* Enters more boats than a club's sheet has, each in front, every second one retired; looks at some places, at all boats and, after the first
 * hundred were struck out, at those that stay. */
static void fill(void) {
    static uint64_t output[BOATS];
    uint64_t places = 0;
    size_t i, right = 0;

    accepted("clear", federation_clear(PLAIN, answer, 2));
    for (i = 0; i < BOATS; i++)
        insert(0, (i + 1) | (i % 2 == 0 ? 0 : SHEET_RETIRED));
    for (i = 1; i < BOATS; i += 50) {
        accepted("place", federation_place(PLAIN, i, answer, 3));
        places += answer[0];
    }
    printf("%" PRIu32 " boats score, some of their places together: %" PRIu64 "\n", tallies[1], places);
    for (i = 0; i < 100; i++)
        delete(0);
    accepted("read", federation_read(PLAIN, 0, BOATS - 101, output, BOATS, answer, 2));
    for (i = 0; i < BOATS - 100; i++)
        right += bare(output[i]) == BOATS - 100 - i;
    printf("the last %" PRIu64 " boats stay, %zu of them at their ranks, %" PRIu32 " score\n", answer[0], right, tallies[1]);
    mend(0);
}

/* The entry of a boat: her finish time in the upper half, her sail number in the lower. */
static uint64_t finish(uint32_t time, uint32_t sail) {
    return (uint64_t)time << 32 | sail;
}

static void timed_insert_of(uint64_t entry) {
    size_t number;

    while ((number = federation_timed_insert(TIMED, entry, tape, waiting, answer, 2)) == SHEET_TAPE_ENDED)
        extend_tape();
    accepted("insert", number);
    drop_words((size_t)answer[1]);
}

static void timed_delete_of(size_t rank) {
    size_t number;

    while ((number = federation_timed_delete(TIMED, rank, tape, waiting, answer, 2)) == SHEET_TAPE_ENDED)
        extend_tape();
    accepted("delete", number);
    drop_words((size_t)answer[1]);
}

/* Prints whether the boat is there with this time, and the rank. */
static void ask(uint32_t time, uint32_t sail) {
    accepted("find", federation_timed_find(TIMED, finish(time, sail), answer, 2));
    printf("sail %u at %u: %s, rank %" PRIu64 "\n", sail, time, answer[0] == 1 ? "there" : "absent", answer[1]);
}

/* Prints the number of boats and a line for each: place, points, time and sail number. */
static void timed_display(void) {
    uint64_t output[8];
    size_t i, n;

    accepted("check", federation_timed_check(TIMED, answer, 2));
    n = (size_t)answer[0];
    printf("%zu boats\n", n);
    accepted("read", federation_timed_read(TIMED, 0, n - 1, output, 8, answer, 2));
    for (i = 0; i < n; i++) {
        accepted("place", federation_timed_place(TIMED, i, answer, 3));
        print_place(answer);
        printf(" %" PRIu64 " %" PRIu64 "\n", bare(output[i]) >> 32, output[i] & UINT32_MAX);
    }
}

/* Finishes in the order in which they come in. Sail numbers 42 and 7 have the same time and did not tie; 400 and 311 tied, which the entry of
 * the one behind says. */
static void timed_race(void) {
    static const uint32_t finishes[][2] = {{3720, 311}, {3605, 42}, {3605, 7}, {3590, 2024}, {4001, 117}};
    static const uint64_t ranks[] = {1, 1, 4};
    uint64_t output[3];
    size_t i;

    accepted("clear", federation_timed_clear(TIMED, answer, 2));
    for (i = 0; i < sizeof finishes / sizeof finishes[0]; i++)
        timed_insert_of(finish(finishes[i][0], finishes[i][1]));
    timed_insert_of(finish(3720, 400) | SHEET_TIED);
    timed_display();
    ask(3720, 400);
    ask(3606, 42);
    accepted("find", federation_timed_find(TIMED, finish(3605, 42), answer, 2));
    timed_delete_of((size_t)answer[1]);
    ask(3605, 42);
    accepted("board", federation_timed_board(TIMED, ranks, 3, output, 3, answer, 2));
    for (i = 0; i < answer[0]; i++)
        printf("on the board: %" PRIu64 "\n", output[i] & UINT32_MAX);
}

/* What the timed calls are refused by. */
static void timed_refusals(void) {
    printf("entered again: %zu\n", federation_timed_insert(TIMED, finish(3605, 7) | SHEET_TIED, tape, waiting, answer, 2));
    printf("entry zero: %zu, %zu\n", federation_timed_insert(TIMED, SHEET_TIED, tape, waiting, answer, 2),
           federation_timed_find(TIMED, SHEET_RETIRED, answer, 2));
    printf("no tape: %zu\n", federation_timed_insert(TIMED, finish(3605, 8), tape, 0, answer, 2));
    printf("third slice of a club: %zu\n", federation_timed_check(PLAIN, balance, TIMED_BALANCE, answer, 2));
    balance[0] = 1;
    printf("third slice wrong: %zu", federation_timed_check(TIMED, answer, 2));
    tallies[1]++;
    printf(", and a tally: %zu\n", federation_timed_check(TIMED, answer, 2));
    tallies[1]--;
    balance[0] = 0;
    slots[0] = finish(3606, 2024);
    printf("times that fall: %zu, %zu\n", federation_timed_check(TIMED, answer, 2), federation_timed_mend(TIMED, answer, 2));
    slots[0] = finish(3590, 2024);
    mend(1);
}

/* Enters boats out of order, finds each boat and each balance entry, and mends the sheet. */
static void timed_fill(void) {
    size_t i, found = 0, entries = 0, absent = 0;

    accepted("clear", federation_timed_clear(TIMED, answer, 2));
    for (i = 0; i < TIMED_BOATS; i++)
        timed_insert_of(finish(3600, (uint32_t)(i * 77 % TIMED_BOATS) + 1));
    for (i = 0; i < TIMED_BOATS; i++) {
        accepted("find", federation_timed_find(TIMED, finish(3600, (uint32_t)i + 1) | SHEET_TIED, answer, 2));
        found += answer[0] == 1 && answer[1] == i;
    }
    printf("found at their ranks: %zu\n", found);
    for (i = 0; i < FEDERATION_BALANCE; i++)
        if (balance[i] != 0) {
            accepted("find", federation_timed_find(TIMED, balance[i], answer, 2));
            entries++;
            absent += answer[0] != 1;
        }
    printf("balance entries: %s, absent: %zu\n", entries > 0 ? "some" : "none", absent);
    mend(1);
}

int main(void) {
    race();
    board();
    refusals();
    mend(0);
    display();
    not_mendable();
    fill();
    timed_race();
    timed_refusals();
    timed_fill();
    if (words_drawn != words_read + waiting)
        printf("a word was lost, or read by two calls\n");
    fprintf(stderr, "size parameter %" PRIu32 ", %lu words read\n", counts[0], words_read);
    return 0;
}
