/* The same words in every run, for the test alone: what a client does with its words shows in the sheet. */
#include "coins.h"

void fresh_words(uint32_t *words, size_t number) {
    static uint64_t state = 1;
    size_t i;

    for (i = 0; i < number; i++) {
        state = state * 6364136223846793005u + 1442695040888963407u;
        words[i] = (uint32_t)(state >> 32);
    }
}
