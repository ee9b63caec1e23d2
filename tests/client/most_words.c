/* The most words that a call reads where it passes none over: 65, by an insert into 1,023 entries whose draws all give 0. */
#include "sheet.h"

#include <stdio.h>

static uint64_t slots[SHEET_SLOTS];
static uint16_t counts[SHEET_COUNTS];
static uint16_t tallies[SHEET_TALLIES];
static const uint32_t zeros[SHEET_WORDS];

#define STORE slots, SHEET_SLOTS, counts, SHEET_COUNTS, tallies, SHEET_TALLIES

int main(void) {
    uint64_t answer[2];
    size_t i, number;

    for (i = 0; i < SHEET_ENTRIES - 1; i++)
        if (sheet_insert(STORE, i, 1, zeros, SHEET_WORDS, answer, 2) != SHEET_ACCEPTED || answer[1] > 65)
            return 1;
    number = sheet_insert(STORE, i, 1, zeros, 64, answer, 2);
    printf("64 words: %zu\n", number);
    number = sheet_insert(STORE, i, 1, zeros, 65, answer, 2);
    printf("65 words: %zu, %u read\n", number, (unsigned)answer[1]);
    return 0;
}
