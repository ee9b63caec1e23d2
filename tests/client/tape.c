#include "tape.h"
#include "coins.h"
#include "sheet.h"

#include <stdio.h>
#include <stdlib.h>
#include <string.h>

/* How many words are drawn at once: the sheet does not depend on it. */
#ifndef WORDS_AT_ONCE
#define WORDS_AT_ONCE 16
#endif
#define TAPE_ROOM 1024

uint32_t tape[TAPE_ROOM];
size_t waiting;
unsigned long words_drawn, words_read;

void accepted(const char *call, size_t number) {
    if (number != SHEET_ACCEPTED) {
        fprintf(stderr, "%s: refused, cause %zu\n", call, number);
        exit(1);
    }
}

void extend_tape(void) {
    if (TAPE_ROOM - waiting < WORDS_AT_ONCE) {
        fprintf(stderr, "no room for more words\n");
        exit(1);
    }
    fresh_words(tape + waiting, WORDS_AT_ONCE);
    waiting += WORDS_AT_ONCE;
    words_drawn += WORDS_AT_ONCE;
}

void drop_words(size_t number) {
    memmove(tape, tape + number, (waiting - number) * sizeof tape[0]);
    waiting -= number;
    words_read += number;
}
