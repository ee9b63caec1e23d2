/* A small display program: enters boats, two of them in a dead heat, strikes one out, and prints place, points and sail number of each; then
 * one retires; then a notice board; then stores that are refused; then a spoiled sheet that is mended, and stores that cannot be; then a full
 * sheet, half of it retired; then a store from before the tree order and the tallies; then the kinds of some lines, and what frames are answered
 * by on a cleared sheet. */
#include "frames.h"
#include "points.h"
#include "sheet.h"
#include "tape.h"

#include <inttypes.h>
#include <stdio.h>
#include <string.h>

static uint64_t slots[SHEET_SLOTS];
static uint16_t counts[SHEET_COUNTS];
static uint16_t tallies[SHEET_TALLIES];
static uint64_t answer[3];
static uint32_t frame_words[FRAME_TAPE_WORDS];
static uint8_t answers[FRAME_OUTPUT];

/* The three slices of the store, as every call takes them. */
#define STORE slots, SHEET_SLOTS, counts, SHEET_COUNTS, tallies, SHEET_TALLIES

static void insert(size_t rank, uint64_t entry) {
    size_t number;

    while ((number = sheet_insert(STORE, rank, entry, tape, waiting, answer, 2)) == SHEET_TAPE_ENDED)
        extend_tape();
    accepted("insert", number);
    drop_words((size_t)answer[1]);
}

static void delete(size_t rank) {
    size_t number;

    while ((number = sheet_delete(STORE, rank, tape, waiting, answer, 2)) == SHEET_TAPE_ENDED)
        extend_tape();
    accepted("delete", number);
    drop_words((size_t)answer[1]);
}

/* A boat that is there gets these bits and no others: her entry goes out and comes in again at her rank. */
static void mark(size_t rank, uint64_t bits) {
    uint64_t entry[1];

    accepted("read", sheet_read(STORE, rank, rank, entry, 1, answer, 2));
    delete(rank);
    insert(rank, (entry[0] & ~(SHEET_TIED | SHEET_RETIRED)) | bits);
}

/* Prints the number of entries and a line for each: place, points and sail number. */
static void display(void) {
    uint64_t output[SHEET_ENTRIES];
    size_t i, n;

    accepted("check", sheet_check(STORE, answer, 2));
    n = (size_t)answer[0];
    printf("%zu boats\n", n);
    accepted("read", sheet_read(STORE, 0, n - 1, output, SHEET_ENTRIES, answer, 2));
    for (i = 0; i < n; i++) {
        accepted("place", sheet_place(STORE, i, answer, 3));
        print_place(answer);
        printf(" %" PRIu64 "\n", output[i] & ~(SHEET_TIED | SHEET_RETIRED));
    }
}

/* A boat that tied retires: the next one ties over her with the boat before her, as long as both bear the bit. */
static void retire(void) {
    mark(1, SHEET_TIED | SHEET_RETIRED);
    mark(2, SHEET_TIED);
    display();
    mark(1, SHEET_RETIRED);
    display();
}

/* A notice board: the boats at some ranks, one of which is there twice. It is printed after boards that are refused, which leave the output as
 * it was. */
static void board(void) {
    static const uint64_t ranks[] = {0, 1, 1, 3}, fall[] = {4, 0}, high[] = {2, 4}, zeros[SHEET_BOARD + 1] = {0};
    uint64_t output[SHEET_BOARD + 1];
    size_t i, n;

    accepted("board", sheet_board(STORE, zeros, SHEET_BOARD, output, SHEET_BOARD, answer, 2));
    accepted("board", sheet_board(STORE, ranks, 4, output, 4, answer, 2));
    n = (size_t)answer[0];
    printf("ranks that fall: %zu\n", sheet_board(STORE, fall, 2, output, 4, answer, 2));
    printf("too many ranks: %zu\n", sheet_board(STORE, zeros, SHEET_BOARD + 1, output, SHEET_BOARD + 1, answer, 2));
    printf("a rank too high: %zu\n", sheet_board(STORE, high, 2, output, 4, answer, 2));
    printf("output too short: %zu\n", sheet_board(STORE, zeros, 4, output, 3, answer, 2));
    printf("%zu boats on the board\n", n);
    for (i = 0; i < n; i++)
        printf("%" PRIu64 "%s\n", output[i] & ~(SHEET_TIED | SHEET_RETIRED), output[i] & SHEET_RETIRED ? " retired" : "");
}

/* Stores that are refused: a tally that is wrong, and tallies of another length. */
static void refusals(void) {
    tallies[1]++;
    printf("a tally wrong: %zu\n", sheet_check(STORE, answer, 2));
    tallies[1]--;
    tallies[0] = counts[0];
    printf("a size parameter in the tallies: %zu\n", sheet_place(STORE, 0, answer, 3));
    tallies[0] = 0;
    printf("tallies too short: %zu\n", sheet_check(slots, SHEET_SLOTS, counts, SHEET_COUNTS, tallies, SHEET_TALLIES - 1, answer, 2));
}

/* Spoils all counts but the size parameter, and all tallies, mends the sheet, and says whether they are as before. */
static void mend(void) {
    uint16_t counts_before[SHEET_COUNTS], tallies_before[SHEET_TALLIES];
    uint16_t m = counts[0];
    int same;

    memcpy(counts_before, counts, sizeof counts);
    memcpy(tallies_before, tallies, sizeof tallies);
    memset(counts, 0x5A, sizeof counts);
    memset(tallies, 0xA5, sizeof tallies);
    counts[0] = m;
    printf("spoiled: %zu", sheet_check(STORE, answer, 2));
    printf(", mended: %zu", sheet_mend(STORE, answer, 2));
    same = memcmp(counts, counts_before, sizeof counts) == 0 && memcmp(tallies, tallies_before, sizeof tallies) == 0;
    printf(", %" PRIu64 " boats, %s\n", answer[0], same ? "as before" : "not as before");
}

/* Stores that cannot be mended: the first boat is lost, which stands in slot 0 of a sheet of few boats, or the size parameter is. */
static void not_mendable(void) {
    uint64_t entry = slots[0];
    uint16_t m = counts[0];

    slots[0] = 0;
    printf("the first boat lost: %zu\n", sheet_mend(STORE, answer, 2));
    slots[0] = entry;
    counts[0] = 0;
    printf("the size parameter lost: %zu\n", sheet_mend(STORE, answer, 2));
    counts[0] = m;
}

/* Enters boats in front until the sheet is full, every second one retired; adds up the places of the others and strikes the first half out; then
 * looks at those that stay. */
static void fill(void) {
    uint64_t output[SHEET_ENTRIES / 2], places = 0;
    size_t i;

    accepted("clear", sheet_clear(STORE, answer, 2));
    for (i = 0; i < SHEET_ENTRIES; i++)
        insert(0, (i + 1) | (i % 2 == 0 ? 0 : SHEET_RETIRED));
    for (i = 0; i < SHEET_ENTRIES; i++) {
        accepted("place", sheet_place(STORE, i, answer, 3));
        places += answer[0];
    }
    printf("%u boats score, their places together: %" PRIu64 "\n", (unsigned)tallies[1], places);
    printf("one boat too many: %zu\n", sheet_insert(STORE, 0, 5, tape, waiting, answer, 2));
    for (i = 0; i < SHEET_ENTRIES / 2; i++)
        delete(0);
    accepted("read", sheet_read(STORE, 0, SHEET_ENTRIES / 2 - 1, output, SHEET_ENTRIES / 2, answer, 2));
    for (i = 0; i < SHEET_ENTRIES / 2; i++)
        if ((output[i] & ~SHEET_RETIRED) != SHEET_ENTRIES / 2 - i) {
            printf("another boat has rank %zu\n", i);
            return;
        }
    printf("the last %" PRIu64 " boats stay, %u of them score\n", answer[0], (unsigned)tallies[1]);
    mend();
}

/* A store from before the tree order and the tallies, in which no boat has retired. Its size parameter is above 64: no call but clear takes it
 * until its counts are converted, and then it gets its tallies, a copy of the counts without the size parameter. */
static void convert(void) {
    size_t i;

    accepted("clear", sheet_clear(STORE, answer, 2));
    for (i = 0; i < SHEET_ENTRIES / 2; i++)
        insert(i, i + 1);
    accepted("to number order", sheet_to_number_order(counts, SHEET_COUNTS, answer, 2));
    printf("in number order: %zu\n", sheet_check(STORE, answer, 2));
    accepted("to tree order", sheet_to_tree_order(counts, SHEET_COUNTS, answer, 2));
    if (answer[0] != counts[0])
        printf("another size parameter: %" PRIu64 "\n", answer[0]);
    memset(tallies, 0, sizeof tallies);
    printf("in tree order, without tallies: %zu\n", sheet_check(STORE, answer, 2));
    memcpy(tallies, counts, sizeof tallies);
    tallies[0] = 0;
    printf("in tree order: %zu", sheet_check(STORE, answer, 2));
    printf(", %" PRIu64 " boats\n", answer[0]);
}

int main(void) {
    static const uint64_t boats[] = {117, 42 | SHEET_TIED, 2024, 7, 311};
    static const char *const frames[] = {"010000000000000000000A", "040000000100000001", "010001800000000000000B", "070000", "070001", "05",
                                         "010001400000000000000C", "070001", "070002"};
    static const char *const lines[] = {"010000000000000000000A", "0400000001", "05", "0a", ""};
    const size_t n = sizeof boats / sizeof boats[0];
    uint64_t frame_waiting[1] = {0};
    size_t i, bytes;

    accepted("clear", sheet_clear(STORE, answer, 2));
    for (i = 0; i < n; i++)
        insert(i, boats[i]);
    delete(2);
    display();
    retire();
    board();
    refusals();
    mend();
    display();
    not_mendable();

    printf("rank too high: %zu\n", sheet_place(STORE, n, answer, 3));
    printf("no tape: %zu\n", sheet_insert(STORE, 0, 5, tape, 0, answer, 2));
    printf("answer too short: %zu", sheet_check(STORE, answer, 1));
    printf(", %zu\n", sheet_place(STORE, 0, answer, 2));

    fill();
    convert();
    if (words_drawn != words_read + waiting)
        printf("a word was lost, or read by two calls\n");
    fprintf(stderr, "size parameter %u, %lu words read\n", counts[0], words_read);

    for (i = 0; i < sizeof lines / sizeof lines[0]; i++)
        printf("%s: %u\n", lines[i], frame_kind((const uint8_t *)lines[i], strlen(lines[i])));

    accepted("clear", sheet_clear(STORE, answer, 2));
    for (i = 0; i < sizeof frames / sizeof frames[0]; i++) {
        bytes = frame_step((const uint8_t *)frames[i], strlen(frames[i]), STORE, frame_words, FRAME_TAPE_WORDS, frame_waiting, 1, answers,
                           FRAME_OUTPUT);
        fwrite(answers, 1, bytes, stdout);
    }
    return 0;
}
