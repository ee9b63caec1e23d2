#include "points.h"

#include <inttypes.h>
#include <stdio.h>

void print_place(const uint64_t *place) {
    uint64_t sum = place[1], t = place[2];

    if (place[0] == 0)
        printf("retired");
    else
        printf("%" PRIu64 " %" PRIu64 "%s", place[0], sum / t, sum % t == 0 ? "" : ".5");
}
