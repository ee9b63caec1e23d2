/* A small display program for timed finishes: enters boats in the order in which their finishes come in, two of them in a dead heat, asks for
 * some of them, strikes one out, and prints place, points, time and sail number of each; then one retires; then a notice board; then causes
 * that a call is refused by; then a spoiled sheet that is mended, and stores that cannot be; then a full sheet, some boats of which have
 * retired and each of which is found. */
#include "points.h"
#include "tape.h"
#include "timed.h"

#include <inttypes.h>
#include <stdio.h>
#include <string.h>

static uint64_t slots[SHEET_SLOTS];
static uint16_t counts[SHEET_COUNTS];
static uint16_t tallies[SHEET_TALLIES];
static uint64_t balance[TIMED_BALANCE];
static uint64_t answer[3];

/* The slices of a plain store, and the four of a timed one, as every call takes them. */
#define PLAIN slots, SHEET_SLOTS, counts, SHEET_COUNTS, tallies, SHEET_TALLIES
#define STORE PLAIN, balance, TIMED_BALANCE

/* The entry of a boat: her finish time in the upper half, her sail number in the lower. */
static uint64_t finish(uint32_t time, uint32_t sail) {
    return (uint64_t)time << 32 | sail;
}

static void insert(uint64_t entry) {
    size_t number;

    while ((number = timed_insert(STORE, entry, tape, waiting, answer, 2)) == SHEET_TAPE_ENDED)
        extend_tape();
    accepted("insert", number);
    drop_words((size_t)answer[1]);
}

static void delete(size_t rank) {
    size_t number;

    while ((number = timed_delete(STORE, rank, tape, waiting, answer, 2)) == SHEET_TAPE_ENDED)
        extend_tape();
    accepted("delete", number);
    drop_words((size_t)answer[1]);
}

/* Prints whether the boat is there with this time, and the rank. */
static void ask(uint32_t time, uint32_t sail) {
    accepted("find", timed_find(STORE, finish(time, sail), answer, 2));
    printf("sail %u at %u: %s, rank %" PRIu64 "\n", sail, time, answer[0] == 1 ? "there" : "absent", answer[1]);
}

/* Prints the number of boats and a line for each: place, points, time and sail number. */
static void display(void) {
    uint64_t output[SHEET_ENTRIES];
    size_t i, n;

    accepted("check", timed_check(STORE, answer, 2));
    n = (size_t)answer[0];
    printf("%zu boats\n", n);
    accepted("read", timed_read(STORE, 0, n - 1, output, SHEET_ENTRIES, answer, 2));
    for (i = 0; i < n; i++) {
        accepted("place", timed_place(STORE, i, answer, 3));
        print_place(answer);
        printf(" %" PRIu64 " %" PRIu64 "\n", (output[i] & ~(SHEET_TIED | SHEET_RETIRED)) >> 32, output[i] & UINT32_MAX);
    }
}

/* A boat retires: she goes out and comes in again with the bit. */
static void retire(uint32_t time, uint32_t sail) {
    accepted("find", timed_find(STORE, finish(time, sail), answer, 2));
    delete((size_t)answer[1]);
    insert(finish(time, sail) | SHEET_RETIRED);
}

/* Finishes in the order in which they come in. Sail numbers 42 and 7 have the same time and did not tie; 400 and 311 tied, which the entry of
 * the one behind says. */
static void race(void) {
    static const uint32_t finishes[][2] = {{3720, 311}, {3605, 42}, {3605, 7}, {3590, 2024}, {4001, 117}};
    size_t i;

    accepted("clear", timed_clear(STORE, answer, 2));
    for (i = 0; i < sizeof finishes / sizeof finishes[0]; i++)
        insert(finish(finishes[i][0], finishes[i][1]));
    insert(finish(3720, 400) | SHEET_TIED);
    display();
    ask(3720, 400);
    ask(3605, 42);
    ask(3606, 42);
    accepted("find", timed_find(STORE, finish(3605, 42), answer, 2));
    delete((size_t)answer[1]);
    ask(3605, 42);
    display();
    retire(3605, 7);
    ask(3605, 7);
    display();
}

/* A notice board: the boats at some ranks, one of which is there three times. It is printed after boards that are refused, which leave the
 * output as it was. */
static void board(void) {
    static const uint64_t ranks[] = {1, 1, 1, 3, 4}, fall[] = {5, 0}, high[] = {0, 5}, zeros[5] = {0};
    uint64_t output[5];
    size_t i, n;

    accepted("board", timed_board(STORE, ranks, 5, output, 5, answer, 2));
    n = (size_t)answer[0];
    printf("ranks that fall: %zu", timed_board(STORE, fall, 2, output, 5, answer, 2));
    balance[0] = 1;
    printf(", and a third slice wrong: %zu\n", timed_board(STORE, fall, 2, output, 5, answer, 2));
    balance[0] = 0;
    printf("a rank too high: %zu\n", timed_board(STORE, high, 2, output, 5, answer, 2));
    printf("output too short: %zu\n", timed_board(STORE, zeros, 5, output, 4, answer, 2));
    printf("%zu boats on the board\n", n);
    for (i = 0; i < n; i++)
        printf("%" PRIu64 " %" PRIu64 "%s%s\n", (output[i] & ~(SHEET_TIED | SHEET_RETIRED)) >> 32, output[i] & UINT32_MAX,
               output[i] & SHEET_TIED ? " tied" : "", output[i] & SHEET_RETIRED ? " retired" : "");
}

/* What the calls are refused by. */
static void refusals(void) {
    printf("entered again: %zu\n", timed_insert(STORE, finish(3605, 7), tape, waiting, answer, 2));
    printf("entered again, tied: %zu\n", timed_insert(STORE, finish(3605, 7) | SHEET_TIED, tape, waiting, answer, 2));
    printf("entered again, retired: %zu\n", timed_insert(STORE, finish(3590, 2024) | SHEET_RETIRED, tape, waiting, answer, 2));
    printf("entry zero: %zu, %zu\n", timed_insert(STORE, 0, tape, waiting, answer, 2), timed_find(STORE, 0, answer, 2));
    printf("a bit alone: %zu, %zu\n", timed_insert(STORE, SHEET_TIED, tape, waiting, answer, 2), timed_find(STORE, SHEET_RETIRED, answer, 2));
    printf("rank too high: %zu\n", timed_place(STORE, 5, answer, 3));
    printf("no tape: %zu\n", timed_insert(STORE, finish(3605, 8), tape, 0, answer, 2));
    printf("answer too short: %zu, %zu\n", timed_check(STORE, answer, 1), timed_place(STORE, 0, answer, 2));
    printf("third slice too short: %zu\n", timed_check(PLAIN, balance, TIMED_BALANCE - 1, answer, 2));
    balance[0] = 1;
    printf("third slice wrong: %zu", timed_check(STORE, answer, 2));
    tallies[1]++;
    printf(", and a tally: %zu\n", timed_check(STORE, answer, 2));
    tallies[1]--;
    balance[0] = 0;
}

/* Spoils all counts but the size parameter, all tallies and the third slice, mends the sheet, and says whether they are as before. */
static void mend(void) {
    uint16_t counts_before[SHEET_COUNTS], tallies_before[SHEET_TALLIES];
    uint64_t balance_before[TIMED_BALANCE];
    uint16_t m = counts[0];
    int same;

    memcpy(counts_before, counts, sizeof counts);
    memcpy(tallies_before, tallies, sizeof tallies);
    memcpy(balance_before, balance, sizeof balance);
    memset(counts, 0x5A, sizeof counts);
    memset(tallies, 0xA5, sizeof tallies);
    memset(balance, 0x3C, sizeof balance);
    counts[0] = m;
    printf("spoiled: %zu", timed_check(STORE, answer, 2));
    printf(", mended: %zu", timed_mend(STORE, answer, 2));
    same = memcmp(counts, counts_before, sizeof counts) == 0 && memcmp(tallies, tallies_before, sizeof tallies) == 0 &&
           memcmp(balance, balance_before, sizeof balance) == 0;
    printf(", %" PRIu64 " boats, %s\n", answer[0], same ? "as before" : "not as before");
}

/* Stores that cannot be mended: the first boat, which stands in slot 0 of a sheet of few boats, is lost, or her time is behind the next one's. */
static void not_mendable(void) {
    uint64_t entry = slots[0];

    slots[0] = 0;
    printf("the first boat lost: %zu\n", timed_mend(STORE, answer, 2));
    slots[0] = finish(3606, 2024);
    printf("times that fall: %zu\n", timed_mend(STORE, answer, 2));
    slots[0] = entry;
}

/* The boat that comes in as number i of a full sheet: every sail number from 1 to SHEET_ENTRIES once, out of order. Boats of the same time
 * tied. Of each 16 boats two have retired, one between boats that tied and one before such boats. */
static uint64_t boat(size_t i) {
    uint32_t sail = (uint32_t)(i * 389 % SHEET_ENTRIES) + 1;

    return finish(3600 + sail / 4, sail) | (sail % 4 != 0 ? SHEET_TIED : 0) | (sail % 16 == 6 || sail % 16 == 8 ? SHEET_RETIRED : 0);
}

/* The points of all boats together, which ties do not change, the number of boats of each tied group, counted once for each of them, and the
 * retired boats. */
static void add_up(void) {
    uint64_t half_points = 0, boats = 0, retired = 0;
    size_t i;

    for (i = 0; i < SHEET_ENTRIES; i++) {
        accepted("place", timed_place(STORE, i, answer, 3));
        half_points += 2 * answer[1] / answer[2];
        if (answer[0] == 0)
            retired++;
        else
            boats += answer[2];
    }
    printf("all points: %" PRIu64 ", boats of the groups: %" PRIu64 ", retired: %" PRIu64 "\n", half_points / 2, boats, retired);
}

/* Fills the sheet, finds each boat and each balance entry, adds the points up, and strikes the first half out. */
static void fill(void) {
    size_t i, found = 0, absent = 0;

    accepted("clear", timed_clear(STORE, answer, 2));
    for (i = 0; i < SHEET_ENTRIES; i++)
        insert(boat(i));
    for (i = 0; i < SHEET_ENTRIES; i++) {
        accepted("find", timed_find(STORE, boat(i) ^ (i % 2 == 0 ? SHEET_TIED : SHEET_RETIRED), answer, 2));
        found += answer[0] == 1 && answer[1] + 1 == (boat(i) & UINT32_MAX);
    }
    printf("found at their ranks: %zu\n", found);
    for (i = 0; i < TIMED_BALANCE; i++)
        if (balance[i] != 0) {
            accepted("find", timed_find(STORE, balance[i], answer, 2));
            absent += answer[0] != 1;
        }
    printf("balance entries that are absent: %zu\n", absent);
    balance[1] ^= SHEET_TIED;
    printf("another bit in the third slice: %zu", timed_check(STORE, answer, 2));
    balance[1] ^= SHEET_TIED ^ SHEET_RETIRED;
    printf(", %zu\n", timed_check(STORE, answer, 2));
    balance[1] ^= SHEET_RETIRED;
    add_up();
    printf("one boat too many: %zu\n", timed_insert(STORE, finish(1, 1), tape, waiting, answer, 2));
    printf("entered again: %zu\n", timed_insert(STORE, boat(5), tape, waiting, answer, 2));
    for (i = 0; i < SHEET_ENTRIES / 2; i++)
        delete(0);
    accepted("check", timed_check(STORE, answer, 2));
    printf("%" PRIu64 " boats stay\n", answer[0]);
    mend();
    ask(3600 + SHEET_ENTRIES / 8, SHEET_ENTRIES / 2);
    ask(3600 + SHEET_ENTRIES / 8, SHEET_ENTRIES / 2 + 1);
}

int main(void) {
    race();
    board();
    refusals();
    mend();
    display();
    not_mendable();
    fill();
    if (words_drawn != words_read + waiting)
        printf("a word was lost, or read by two calls\n");
    fprintf(stderr, "size parameter %u, %lu words read\n", counts[0], words_read);
    return 0;
}
