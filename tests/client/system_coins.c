/* Words from the system's generator. */
#include "coins.h"

#include <stdio.h>
#include <stdlib.h>
#include <sys/random.h>

void fresh_words(uint32_t *words, size_t number) {
    unsigned char *bytes = (unsigned char *)words;
    size_t left = number * sizeof *words;

    while (left != 0) {
        ssize_t got = getrandom(bytes, left, 0);
        if (got < 0) {
            perror("getrandom");
            exit(1);
        }
        bytes += got;
        left -= (size_t)got;
    }
}
