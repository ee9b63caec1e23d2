/* Where the words of the tape come from. */
#ifndef COINS_H
#define COINS_H

#include <stddef.h>
#include <stdint.h>

/* Fills the words with fresh ones. */
void fresh_words(uint32_t *words, size_t number);

#endif
