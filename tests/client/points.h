/* Places and points of boats. */
#ifndef POINTS_H
#define POINTS_H

#include <stdint.h>

/* Prints the place and the points of a boat by the three values of a place: her place, the sum of the places of her tied group and the number of
 * its boats. The points are the sum over that number: the places follow one another, so that they are a whole or a half number. A retired boat
 * has no place. */
void print_place(const uint64_t *place);

#endif
