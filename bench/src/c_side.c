/* The measured calls in C11 for any x86-64, written for speed for the store of 4,224 slots, 256 counts and 256 tallies. c_check takes and
 * returns what sheet_check of include/sheet.h does, c_timed_check what timed_check of include/timed.h does, and so on. Nothing here is proved:
 * the benchmark compares answers and stores with the other sides.
 *
 * Most of the work of a call is the test whether the store is a sheet. It has no branch for a slot, a count or a tally: faults are joined by
 * "or", and looked at once for the counts and the sums of tallies and once for the slots and the tallies of leaves. Tables say where entries
 * and counts stand; the first call makes them, so no two threads may make it at once.
 *
 * Where the counts are those of a sheet, no leaf has more entries than slots, and of several leaves none is empty (document 01 asks that
 * this be shown): so the slots are looked at after the counts, and the tables have a row for every leaf that comes.
 */
#include "timed.h"

#include <emmintrin.h>
#include <stdbool.h>
#include <string.h>

enum {
    ONE = 64,     /* up to this size parameter a sheet has one leaf, of as many slots */
    HIGHEST = 7,  /* the largest height */
    RUN = 11,     /* a leaf of a sheet with several has three runs of at most this many slots */
    FRONT = 72    /* the slots that are looked at as three leaves of 24 where a sheet has one leaf */
};

/* How n entries stand in a leaf of s slots, for n <= s <= ONE. */
struct spread {
    uint8_t slot[ONE];      /* the slot of entry k, 0 behind the last entry */
    uint8_t entry[ONE];     /* k + 1 for the entry k in slot i, 0 where there is none */
};
static struct spread spreads[(ONE + 1) * (ONE + 2) / 2];
/* For a sheet with one such leaf, the numbers (below) of its first FRONT slots, taken as three leaves. In the order of the spreads. */
static uint64_t front_numbers[(ONE + 1) * (ONE + 2) / 2][3];
/* places[h][k]: where the count of range k stands in a tree of height h. */
static uint8_t places[HIGHEST + 1][SHEET_COUNTS];
/* leaf_numbers[r][n]: the number (below) of a leaf of three runs of r slots with n entries. */
static uint64_t leaf_numbers[RUN + 1][3 * RUN + 1];
static bool tables_made;

/* What the size parameter gives: a leaf's slots, the candidates of the root, and the places of the counts. */
struct size {
    unsigned m, height, leaf, candidates;
    const uint8_t *places;
};

static struct size size_of(unsigned m)
{
    if (m <= ONE)
        return (struct size){m, 0, m, 0, places[0]};
    unsigned g = 7u + (m > 128) + (m > 256) + (m > 512) + (m > 1024);
    unsigned height = 3u + (m >= g << 4) + (m >= g << 5) + (m >= g << 6) + (m >= g << 7);
    return (struct size){m, height, 3 * g, (m + 4 * g - 1) / (4 * g), places[height]};
}

static unsigned half_up(unsigned n)
{
    return n - n / 2;
}

/* The number of a run of slots says which of them are empty. It is made of k and m, both 0 at first. For each pair of slots k grows by 1
 * where the first is empty; then m becomes 4m + 2k, and 1 more where the second is empty. A slot that is left over counts for k.
 * From k and m at the end the slots can be told, the last ones first: the lowest bit of m is the second slot of the last pair; the bit
 * above it says whether k was odd at that pair, and with the k behind it, which is the same or 1 more, gives k there; so m before it is known.
 * A pair costs gcc five instructions in this way, since a comparison with memory and an addition with carry do for a slot. The numbers
 * are signed so that gcc leaves the order of the additions as it is. */
#define PAIR(k, m, slots)               \
    k += (slots)[0] == 0;               \
    m = 4 * m + k;                      \
    m = m + k + ((slots)[1] == 0)

/* k is below 16 and the number below 2^20. */
#define RUN_NUMBER(k, m) ((uint64_t)(16 * (m) + (k)))

/* The number of a leaf: those of its three runs, which are worked out side by side. A run has at most RUN slots. */
#define STEP(run, i)                                  \
    if (i + 1 < run) {                                \
        PAIR(k0, m0, slots + i);                      \
        PAIR(k1, m1, slots + run + i);                \
        PAIR(k2, m2, slots + 2 * run + i);            \
    } else if (i < run) {                             \
        k0 += slots[i] == 0;                          \
        k1 += slots[run + i] == 0;                    \
        k2 += slots[2 * run + i] == 0;                \
    }

#define NUMBER_OF_LEAF(run)                                                                              \
    int64_t k0 = 0, k1 = 0, k2 = 0, m0 = 0, m1 = 0, m2 = 0;                                              \
    STEP(run, 0) STEP(run, 2) STEP(run, 4) STEP(run, 6) STEP(run, 8) STEP(run, 10)                       \
    uint64_t number = RUN_NUMBER(k0, m0) + (RUN_NUMBER(k1, m1) << 20) + (RUN_NUMBER(k2, m2) << 40)

static uint64_t leaf_number(const uint64_t *slots, int run)
{
    NUMBER_OF_LEAF(run);
    return number;
}

/* The spread of n entries in s slots; those for more entries follow it. */
static struct spread *spread_of(unsigned s, unsigned n)
{
    return &spreads[s * (s + 1) / 2 + n];
}

/* Makes the rows of all tables for a leaf of s slots with n entries. */
static void make_spread(unsigned s, unsigned n)
{
    struct spread *spread = spread_of(s, n);
    uint64_t slots[FRONT] = {0};
    for (unsigned k = 0; k < n; k++) {
        unsigned slot = (2 * k + 1) * s / (2 * n);
        spread->slot[k] = (uint8_t)slot;
        spread->entry[slot] = (uint8_t)(k + 1);
        slots[slot] = 1;
    }
    for (unsigned i = 0; i < 3; i++)
        front_numbers[spread - spreads][i] = leaf_number(slots + 24 * i, 8);
    if (s % 3 == 0 && s <= 3 * RUN)
        leaf_numbers[s / 3][n] = leaf_number(slots, (int)(s / 3));
}

/* Van Emde Boas order: puts the tree of `levels` levels under range `root` from `place` on, its upper half of the levels, then each lower
 * subtree. */
static void make_places(uint8_t *of_height, unsigned root, unsigned place, unsigned levels)
{
    if (levels == 1) {
        of_height[root] = (uint8_t)place;
        return;
    }
    unsigned top = levels / 2, upper = (1u << top) - 1, lower = (1u << (levels - top)) - 1;
    make_places(of_height, root, place, top);
    for (unsigned i = 0; i <= upper; i++)
        make_places(of_height, (root << top) + i, place + upper + i * lower, levels - top);
}

static void make_tables(void)
{
    for (unsigned s = 0; s <= ONE; s++)
        for (unsigned n = 0; n <= s; n++)
            make_spread(s, n);
    for (unsigned height = 0; height <= HIGHEST; height++)
        make_places(places[height], 1, 1, height + 1);
    tables_made = true;
}

/* How many of so many slots hold the entry of a retired boat: bit 62 of four of them at a time. To join the slots of a leaf first, and to count
 * only where one has retired, is no faster where none has, and slower where some have. */
static inline __attribute__((always_inline)) unsigned retired_in(const uint64_t *slots, unsigned length)
{
    const __m128i one = _mm_set1_epi32(1);
    __m128i sums = _mm_setzero_si128();
    unsigned i = 0, retired = 0;
    for (; i + 4 <= length; i += 4) {
        __m128 a = _mm_loadu_ps((const float *)(slots + i)), b = _mm_loadu_ps((const float *)(slots + i + 2));
        __m128i upper = _mm_castps_si128(_mm_shuffle_ps(a, b, _MM_SHUFFLE(3, 1, 3, 1)));
        sums = _mm_add_epi32(sums, _mm_and_si128(_mm_srli_epi32(upper, 30), one));
    }
    for (; i < length; i++)
        retired += (unsigned)(slots[i] >> 62) & 1;
    sums = _mm_add_epi32(sums, _mm_shuffle_epi32(sums, _MM_SHUFFLE(1, 0, 3, 2)));
    sums = _mm_add_epi32(sums, _mm_shuffle_epi32(sums, _MM_SHUFFLE(2, 3, 0, 1)));
    return retired + (unsigned)_mm_cvtsi128_si32(sums);
}

/* Whether any leaf has entries in other slots than its count says, or as many scoring ones as its tally does not say. `at` has the places of
 * the leaves' counts, `numbers` what a count gives. */
#define LEAVES(name, run, tally_fault)                                                                         \
    static uint64_t name(const uint64_t *slots, const uint16_t *counts, const uint16_t *tallies,               \
                         const uint8_t *at, unsigned leaves, const uint64_t *numbers)                          \
    {                                                                                                          \
        uint64_t faults = 0;                                                                                   \
        for (const uint8_t *end = at + leaves; at < end; at++, slots += 3 * run) {                             \
            NUMBER_OF_LEAF(run);                                                                               \
            faults |= number ^ numbers[counts[*at]];                                                           \
            faults |= tally_fault(run);                                                                        \
        }                                                                                                      \
        return faults;                                                                                         \
    }

#define TALLY(run) ((counts[*at] - retired_in(slots, 3 * run)) ^ tallies[*at])
#define NO_TALLY(run) ((void)tallies, 0)

LEAVES(leaves_of_7, 7, TALLY)
LEAVES(leaves_of_8, 8, TALLY)
LEAVES(leaves_of_9, 9, TALLY)
LEAVES(leaves_of_10, 10, TALLY)
LEAVES(leaves_of_11, 11, TALLY)
LEAVES(front_of_8, 8, NO_TALLY)

/* So many slots joined, which eight divides. By a constant length and eight at once, gcc -O2 makes vectors of it. */
#define JOIN(length)                                                          \
    static uint64_t join_##length(const uint64_t *slots)                      \
    {                                                                         \
        uint64_t a = 0, b = 0, c = 0, d = 0, e = 0, f = 0, g = 0, h = 0;      \
        for (unsigned i = 0; i < length; i += 8) {                            \
            a |= slots[i];                                                    \
            b |= slots[i + 1];                                                \
            c |= slots[i + 2];                                                \
            d |= slots[i + 3];                                                \
            e |= slots[i + 4];                                                \
            f |= slots[i + 5];                                                \
            g |= slots[i + 6];                                                \
            h |= slots[i + 7];                                                \
        }                                                                     \
        return a | b | c | d | e | f | g | h;                                 \
    }

JOIN(128)
JOIN(8)

/* Whether any slot from `used` on holds something. Eight divides `used`. */
static uint64_t unused_slots(const uint64_t *slots, unsigned used)
{
    uint64_t any = 0;
    unsigned i = used;
    for (; i + 128 <= SHEET_SLOTS; i += 128)
        any |= join_128(slots + i);
    for (; i < SHEET_SLOTS; i += 8)
        any |= join_8(slots + i);
    return any;
}

/* Whether a slot holds what it should not, or a leaf has a wrong tally, where the counts are those of a sheet. */
static uint64_t slot_faults(const uint64_t *slots, const uint16_t *counts, const uint16_t *tallies, const struct size *size)
{
    /* The three leaves of the front, whose "counts" say which of the three numbers is theirs. */
    static const uint16_t front_counts[3] = {0, 1, 2};
    static const uint8_t front_at[3] = {0, 1, 2};
    unsigned leaves = 1u << size->height;
    const uint8_t *at = size->places + leaves;
    uint64_t unused = unused_slots(slots, size->height == 0 ? FRONT : size->leaf << size->height);
    if (size->height == 0) {
        const uint64_t *numbers = front_numbers[spread_of(size->m, counts[1]) - spreads];
        return unused | front_of_8(slots, front_counts, tallies, front_at, 3, numbers) | ((counts[1] - retired_in(slots, FRONT)) ^ tallies[1]);
    }
    const uint64_t *numbers = leaf_numbers[size->leaf / 3];
    switch (size->leaf / 3) {
    case 7: return unused | leaves_of_7(slots, counts, tallies, at, leaves, numbers);
    case 8: return unused | leaves_of_8(slots, counts, tallies, at, leaves, numbers);
    case 9: return unused | leaves_of_9(slots, counts, tallies, at, leaves, numbers);
    case 10: return unused | leaves_of_10(slots, counts, tallies, at, leaves, numbers);
    default: return unused | leaves_of_11(slots, counts, tallies, at, leaves, numbers);
    }
}

/* Whether any count, or tally, behind those of a tree of this height is other than 0. gcc -O2 makes vectors of the inner loop. */
static unsigned unused_counts(const uint16_t *counts, unsigned height)
{
    uint16_t any = 0;
    unsigned i = 2u << height;
    for (; i < 16; i++)
        any |= counts[i];
    for (; i < SHEET_COUNTS; i += 16)
        for (unsigned j = 0; j < 16; j++)
            any |= counts[i + j];
    return any;
}

/* What the ranges of a level with c candidates may be split at: left - right + low is 0 to last, where low is c rounded up to an even
 * number and last is 2c - 1. That is window <= left < window + c with right = n - left. */
struct level {
    unsigned low, last;
};

/* A range with n entries and its halves. What is wrong shows in any bit of `sums` and in the highest bit of `splits`. */
#define SPLIT(n, left, right, level)                                                                      \
    sums |= (unsigned)((left) + (right)) ^ (n);                                                           \
    splits |= ((left) - (right) + (level).low) | ((level).last - ((left) - (right) + (level).low))

/* A range with n scoring entries and its halves. */
#define SUM(n, left, right, level) sums |= (unsigned)((left) + (right)) ^ (n)

/* The ranges above the leaves of a tree of two to four levels, in Van Emde Boas order from `tree` on, each tested by SPLIT or by SUM. */
#define TREE_2(test, tree, level) test((tree)[0], (tree)[1], (tree)[2], (level)[0])
#define TREE_3(test, tree, level)                            \
    test((tree)[0], (tree)[1], (tree)[4], (level)[0]);       \
    TREE_2(test, (tree) + 1, (level) + 1);                   \
    TREE_2(test, (tree) + 4, (level) + 1)
#define TREE_4(test, tree, level)                            \
    TREE_2(test, tree, level);                               \
    test((tree)[1], (tree)[3], (tree)[6], (level)[1]);       \
    test((tree)[2], (tree)[9], (tree)[12], (level)[1]);      \
    TREE_2(test, (tree) + 3, (level) + 2);                   \
    TREE_2(test, (tree) + 6, (level) + 2);                   \
    TREE_2(test, (tree) + 9, (level) + 2);                   \
    TREE_2(test, (tree) + 12, (level) + 2)

/* The trees of so many levels from `tree` to `end`. */
#define TREES(test, tree, end, levels)                       \
    switch (levels) {                                        \
    case 2:                                                  \
        for (; tree < end; tree += 3) {                      \
            TREE_2(test, tree, level);                       \
        }                                                    \
        break;                                               \
    case 3:                                                  \
        for (; tree < end; tree += 7) {                      \
            TREE_3(test, tree, level);                       \
        }                                                    \
        break;                                               \
    default:                                                 \
        for (; tree < end; tree += 15) {                     \
            TREE_4(test, tree, level);                       \
        }                                                    \
    }

static unsigned trees_faults(const uint16_t *tree, const uint16_t *end, const struct level *of, unsigned levels)
{
    const struct level level[3] = {of[0], of[1], of[2]};
    unsigned sums = 0, splits = 0;
    TREES(SPLIT, tree, end, levels)
    return sums | splits >> 31;
}

static unsigned tally_trees_faults(const uint16_t *tree, const uint16_t *end, unsigned levels)
{
    unsigned sums = 0;
    TREES(SUM, tree, end, levels)
    return sums;
}

/* The counts of a sheet with several leaves: the upper tree, the ranges at its lower edge, the lower trees. */
static unsigned tree_faults(const uint16_t *counts, const struct size *size)
{
    struct level levels[HIGHEST + 2];
    unsigned sums = 0, splits = 0, c = size->candidates, top = (size->height + 1) / 2, edge = 1u << (top - 1);
    const uint8_t *at = size->places;
    for (unsigned depth = 0; depth < HIGHEST + 2; depth++, c = half_up(c))
        levels[depth] = (struct level){c + c % 2, 2 * c - 1};
    for (unsigned k = edge; k < 2 * edge; k++) {
        SPLIT(counts[at[k]], counts[at[2 * k]], counts[at[2 * k + 1]], levels[top - 1]);
    }
    return sums | splits >> 31 | trees_faults(counts + 1, counts + 2 * edge, levels, top) |
           trees_faults(counts + 2 * edge, counts + (2u << size->height), levels + top, size->height + 1 - top);
}

/* The tallies in the same way: each range above the leaves has those of its halves. */
static unsigned tally_tree_faults(const uint16_t *tallies, const struct size *size)
{
    unsigned sums = 0, top = (size->height + 1) / 2, edge = 1u << (top - 1);
    const uint8_t *at = size->places;
    for (unsigned k = edge; k < 2 * edge; k++) {
        SUM(tallies[at[k]], tallies[at[2 * k]], tallies[at[2 * k + 1]], 0);
    }
    return sums | tally_trees_faults(tallies + 1, tallies + 2 * edge, top) |
           tally_trees_faults(tallies + 2 * edge, tallies + (2u << size->height), size->height + 1 - top);
}

/* Whether the counts are not those of a sheet, or the tallies above the leaves not the sums of those below. */
static unsigned count_faults(const uint16_t *counts, const uint16_t *tallies, const struct size *size)
{
    unsigned faults = size->height == 0 ? 0 : tree_faults(counts, size) | tally_tree_faults(tallies, size);
    return faults | tallies[0] | unused_counts(counts, size->height) | unused_counts(tallies, size->height);
}

/* The cause 1 or 2, or 0 and what M gives. */
static size_t open(const uint64_t *slots, size_t slots_len, const uint16_t *counts, size_t counts_len, const uint16_t *tallies,
                   size_t tallies_len, struct size *size)
{
    if (slots_len != SHEET_SLOTS || counts_len != SHEET_COUNTS || tallies_len != SHEET_TALLIES)
        return SHEET_LENGTHS;
    if (!tables_made)
        make_tables();
    unsigned m = counts[0], n = counts[1];
    if (n > SHEET_ENTRIES || m < n || m + (n > 0) > 2 * n)
        return SHEET_NOT_A_SHEET;
    *size = size_of(m);
    if (count_faults(counts, tallies, size) != 0 || slot_faults(slots, counts, tallies, size) != 0)
        return SHEET_NOT_A_SHEET;
    return SHEET_ACCEPTED;
}

/* Puts the two values into `answer`, zeros where a cause refuses the call. */
static size_t answered(uint64_t *answer, size_t cause, uint64_t first, uint64_t second)
{
    answer[0] = cause == 0 ? first : 0;
    answer[1] = cause == 0 ? second : 0;
    return cause;
}

size_t c_check(const uint64_t *slots, size_t slots_len, const uint16_t *counts, size_t counts_len, const uint16_t *tallies, size_t tallies_len,
               uint64_t *answer, size_t answer_len)
{
    struct size size;
    if (answer_len < 2)
        return SHEET_ANSWER_SHORT;
    size_t cause = open(slots, slots_len, counts, counts_len, tallies, tallies_len, &size);
    return answered(answer, cause, cause == 0 ? counts[1] : 0, 0);
}

/* The leaf with the entry of a rank; the rank becomes that in the leaf. */
static unsigned find_leaf(const uint16_t *counts, const struct size *size, size_t *rank)
{
    unsigned k = 1;
    while (k < 1u << size->height) {
        unsigned left = counts[size->places[2 * k]];
        bool right = *rank >= left;
        *rank -= right ? left : 0;
        k = 2 * k + right;
    }
    return k - (1u << size->height);
}

/* The same, and the number of scoring entries before that leaf. */
static unsigned find_leaf_scoring(const uint16_t *counts, const uint16_t *tallies, const struct size *size, size_t *rank, size_t *scoring)
{
    unsigned k = 1;
    *scoring = 0;
    while (k < 1u << size->height) {
        unsigned place = size->places[2 * k], left = counts[place];
        bool right = *rank >= left;
        *rank -= right ? left : 0;
        *scoring += right ? tallies[place] : 0;
        k = 2 * k + right;
    }
    return k - (1u << size->height);
}

/* 1 for the entry of a scoring boat, else 0. */
static size_t scores(uint64_t entry)
{
    return (size_t)(~entry >> 62) & 1;
}

/* How many scoring boats stand from an entry back to the first that does not bear SHEET_TIED, both included: the entry has so many before it in
 * its leaf. */
static size_t tied_back(const uint64_t *slots, const uint16_t *counts, const struct size *size, unsigned leaf, size_t rank)
{
    const uint8_t *at = size->places + (1u << size->height);
    size_t tied = 0;
    for (;; rank = counts[at[--leaf]] - 1u) {
        const uint64_t *held = slots + leaf * size->leaf;
        const uint8_t *slot = spread_of(size->leaf, counts[at[leaf]])->slot;
        for (size_t i = rank + 1; i-- > 0;) {
            uint64_t entry = held[slot[i]];
            tied += scores(entry);
            if ((entry & SHEET_TIED) == 0)
                return tied;
        }
        if (leaf == 0)
            return tied;
    }
}

/* How many scoring boats stand from an entry of a leaf on, before the first that does not bear SHEET_TIED; there may be no such entry. */
static size_t tied_on(const uint64_t *slots, const uint16_t *counts, const struct size *size, unsigned leaf, size_t rank)
{
    unsigned leaves = 1u << size->height;
    const uint8_t *at = size->places + leaves;
    size_t tied = 0;
    for (; leaf < leaves; leaf++, rank = 0) {
        const uint64_t *held = slots + leaf * size->leaf;
        size_t n = counts[at[leaf]];
        const uint8_t *slot = spread_of(size->leaf, (unsigned)n)->slot;
        for (; rank < n; rank++) {
            uint64_t entry = held[slot[rank]];
            if ((entry & SHEET_TIED) == 0)
                return tied;
            tied += scores(entry);
        }
    }
    return tied;
}

/* The place of a rank that is there, the sum of the places and the number of boats of its tied group. */
static void place_of(const uint64_t *slots, const uint16_t *counts, const uint16_t *tallies, const struct size *size, size_t rank,
                     uint64_t *answer)
{
    size_t scoring;
    unsigned leaf = find_leaf_scoring(counts, tallies, size, &rank, &scoring);
    const uint64_t *held = slots + leaf * size->leaf;
    const uint8_t *slot = spread_of(size->leaf, counts[size->places[(1u << size->height) + leaf]])->slot;
    if (scores(held[slot[rank]]) == 0) {
        answer[0] = 0;
        answer[1] = 0;
        answer[2] = 1;
        return;
    }
    for (size_t i = 0; i < rank; i++)
        scoring += scores(held[slot[i]]);
    /* The boats of the group before her and herself, then those behind her. */
    size_t back = tied_back(slots, counts, size, leaf, rank), t = back + tied_on(slots, counts, size, leaf, rank + 1);
    size_t place = scoring + 2 - back;
    answer[0] = place;
    answer[1] = t * (2 * place + t - 1) / 2;
    answer[2] = t;
}

size_t c_place(const uint64_t *slots, size_t slots_len, const uint16_t *counts, size_t counts_len, const uint16_t *tallies, size_t tallies_len,
               size_t rank, uint64_t *answer, size_t answer_len)
{
    struct size size;
    if (answer_len < 3)
        return SHEET_ANSWER_SHORT;
    size_t cause = open(slots, slots_len, counts, counts_len, tallies, tallies_len, &size);
    if (cause == 0 && rank >= counts[1])
        cause = SHEET_RANK;
    if (cause == 0)
        place_of(slots, counts, tallies, &size, rank, answer);
    else
        memset(answer, 0, 3 * sizeof *answer);
    return cause;
}

/* Copies entries of a leaf: so many, rounded up to what four divides. */
static void copy_entries(const uint64_t *leaf, const uint8_t *slot, uint64_t *list, size_t count)
{
    for (size_t i = 0; i < count; i += 4) {
        size_t a = slot[i], b = slot[i + 1], c = slot[i + 2], d = slot[i + 3];
        list[i] = leaf[a];
        list[i + 1] = leaf[b];
        list[i + 2] = leaf[c];
        list[i + 3] = leaf[d];
    }
}

/* Copies `count` entries from a rank on. What is copied behind the last entry of a leaf, the next leaf overwrites. */
static void copy_out(const uint64_t *slots, const uint16_t *counts, const struct size *size, size_t rank, uint64_t *output, size_t count)
{
    unsigned leaf = find_leaf(counts, size, &rank);
    const uint8_t *at = size->places + (1u << size->height);
    for (; count > 0; leaf++, rank = 0) {
        unsigned n = counts[at[leaf]];
        size_t taken = n - rank < count ? n - rank : count;
        const uint64_t *from = slots + leaf * size->leaf;
        const uint8_t *slot = spread_of(size->leaf, n)->slot + rank;
        if (taken + 3 <= count) {
            copy_entries(from, slot, output, taken);
        } else {
            for (size_t i = 0; i < taken; i++)
                output[i] = from[slot[i]];
        }
        output += taken;
        count -= taken;
    }
}

size_t c_read(const uint64_t *slots, size_t slots_len, const uint16_t *counts, size_t counts_len, const uint16_t *tallies, size_t tallies_len,
              size_t first, size_t last, uint64_t *output, size_t output_len, uint64_t *answer, size_t answer_len)
{
    struct size size;
    if (answer_len < 2)
        return SHEET_ANSWER_SHORT;
    size_t cause = open(slots, slots_len, counts, counts_len, tallies, tallies_len, &size);
    if (cause == 0 && (last >= counts[1] || first > last))
        cause = SHEET_RANK;
    if (cause == 0 && output_len < last - first + 1)
        cause = SHEET_OUTPUT_SHORT;
    if (cause == 0)
        copy_out(slots, counts, &size, first, output, last - first + 1);
    return answered(answer, cause, last - first + 1, 0);
}

/* A change as it is planned: everything is drawn before anything is written. */
struct plan {
    const uint32_t *tape;
    size_t tape_len, read;
    bool insert, anew;               /* anew: the size parameter is set anew */
    struct size size;                /* after the change */
    unsigned range, levels, rank;    /* the range that is laid out anew, the levels below it, and the rank in it */
    uint16_t counts[SHEET_COUNTS];   /* the new counts of this range and those below it, by their numbers */
    uint16_t tallies[SHEET_TALLIES]; /* their tallies, once the list is changed */
};

/* A draw among m >= 1 faces; false where the tape ends. A word is used if the m words from the last multiple of m on are below 2^32. */
static bool draw(struct plan *plan, uint32_t m, unsigned *face)
{
    *face = 0;
    if (m == 1)
        return true;
    while (plan->read < plan->tape_len) {
        uint32_t word = plan->tape[plan->read++];
        *face = word % m;
        if (word - *face <= -m)
            return true;
    }
    return false;
}

/* The rank of the first of c candidates among n entries. */
static unsigned window(unsigned n, unsigned c)
{
    return half_up(n) - half_up(c);
}

static bool rebuild(struct plan *plan, unsigned k, unsigned levels, unsigned n, unsigned c);

/* The counts below range k, which has so many levels below it, n entries, `left` of them in its left half, and c candidates. False where the
 * tape ends. Leaves need no draw. */
static bool rebuild_halves(struct plan *plan, unsigned k, unsigned levels, unsigned n, unsigned c, unsigned left)
{
    if (levels == 1) {
        plan->counts[2 * k] = (uint16_t)left;
        plan->counts[2 * k + 1] = (uint16_t)(n - left);
        return true;
    }
    return rebuild(plan, 2 * k, levels - 1, left, half_up(c)) && rebuild(plan, 2 * k + 1, levels - 1, n - left, half_up(c));
}

/* The counts of range k and below it, with the balance entry drawn. */
static bool rebuild(struct plan *plan, unsigned k, unsigned levels, unsigned n, unsigned c)
{
    unsigned face;
    plan->counts[k] = (uint16_t)n;
    return levels == 0 || (draw(plan, c, &face) && rebuild_halves(plan, k, levels, n, c, window(n, c) + face));
}

/* The candidates before and after a change: whether they differ, and the ranks of the one that leaves (before) and enters (after). */
struct swap {
    bool made;
    unsigned leaves, enters;
};

/* An insert leads from `fewer` entries to one more, and a delete back. Of the c + 1 ranks first to end of the longer list all but `edge` are
 * those of its candidates, and all but `in` those of the candidates of the shorter list, in which the entry at `edge` has rank edge - odd. */
static struct swap swap_of(bool insert, unsigned rank, unsigned n, unsigned c)
{
    unsigned fewer = insert ? n : n - 1, odd = fewer % 2;
    unsigned first = window(fewer, c), end = first + c, edge = odd ? end : first;
    unsigned in = rank < first ? first : rank > end ? end : rank;
    return (struct swap){in != edge, insert ? edge - odd : in, insert ? in : edge - odd};
}

/* The range that is laid out, the levels below it, the rank in it and its new count. */
static void end_at(struct plan *plan, unsigned k, unsigned levels, unsigned rank, unsigned n)
{
    plan->range = k;
    plan->levels = levels;
    plan->rank = rank;
    plan->counts[k] = (uint16_t)n;
}

/* Goes down from the root to the range where the change ends, and draws what it needs. */
static bool walk(struct plan *plan, const uint16_t *counts, unsigned n)
{
    unsigned k = 1, levels = plan->size.height, c = plan->size.candidates, rank = plan->rank, face;
    for (; levels > 0; levels--, c = half_up(c)) {
        unsigned left = counts[plan->size.places[2 * k]], after = plan->insert ? n + 1 : n - 1;
        struct swap swap = swap_of(plan->insert, rank, n, c);
        if (swap.made) {
            end_at(plan, k, levels, rank, after);
            if (left == swap.leaves)
                return rebuild(plan, k, levels, after, c);
            if (!draw(plan, c, &face))
                return false;
            if (face == 0)
                return rebuild_halves(plan, k, levels, after, c, swap.enters);
        }
        bool right = left < rank;
        n = right ? n - left : left;
        rank -= right ? left : 0;
        k = 2 * k + right;
    }
    end_at(plan, k, 0, rank, plan->insert ? n + 1 : n - 1);
    return true;
}

/* The step of the size parameter: whether it is set anew, and to what. */
static bool size_step(struct plan *plan, unsigned n, unsigned *m)
{
    unsigned face = 0;
    plan->anew = true;
    if (plan->insert) {
        *m = 1;
        if (n == 0)
            return true;
        if (plan->size.m > n && !draw(plan, n + 1, &face))
            return false;
        plan->anew = face == 0;
        if (!plan->anew)
            return true;
        *m = 2 * n;
        return draw(plan, 2, &face) && (*m += face, true);
    }
    *m = 0;
    plan->anew = plan->size.m >= 2 * n - 2;
    if (n == 1 || !plan->anew)
        return true;
    if (!draw(plan, 2 * n - 2, &face))
        return false;
    *m = face < n - 2 ? n + face : n - 1;
    return true;
}

/* Draws everything that the change needs; false where the tape ends. */
static bool make_plan(struct plan *plan, const uint16_t *counts, unsigned n)
{
    unsigned m;
    if (!size_step(plan, n, &m))
        return false;
    if (!plan->anew)
        return walk(plan, counts, n);
    plan->size = size_of(m);
    plan->range = 1;
    plan->levels = plan->size.height;
    return rebuild(plan, 1, plan->levels, plan->insert ? n + 1 : n - 1, plan->size.candidates);
}

/* Copies the entries of leaves to a list; `at` has the places of their counts. Up to three words behind the list are overwritten. */
static void take_up(const uint64_t *leaf, const uint16_t *counts, unsigned step, const uint8_t *at, size_t leaves, uint64_t *list)
{
    const struct spread *spread = spread_of(step, 0);
    for (size_t i = 0; i < leaves; i++, leaf += step) {
        size_t n = counts[at[i]];
        copy_entries(leaf, spread[n].slot, list, n);
        list += n;
    }
}

/* Writes each slot of a leaf once, from left to right. held[0] is 0, the entries of the leaf stand behind it. */
static void lay_leaf(uint64_t *leaf, const uint8_t *entry, const uint64_t *held, size_t length)
{
    size_t i = 0;
    for (; i + 3 <= length; i += 3) {
        leaf[i] = held[entry[i]];
        leaf[i + 1] = held[entry[i + 1]];
        leaf[i + 2] = held[entry[i + 2]];
    }
    for (; i < length; i++)
        leaf[i] = held[entry[i]];
}

/* Writes the leaves with these counts, from left to right. The list stands behind held[0]; it is overwritten. */
static void lay_out(uint64_t *leaf, const uint16_t *counts, unsigned step, size_t leaves, uint64_t *held)
{
    const struct spread *spread = spread_of(step, 0);
    for (size_t i = 0; i < leaves; i++, leaf += step) {
        held[0] = 0;
        lay_leaf(leaf, spread[counts[i]].entry, held, step);
        held += counts[i];
    }
}

/* The tallies of a plan's range and those below it, by the list that its leaves get. */
static void tally(struct plan *plan, const uint64_t *list)
{
    unsigned first = plan->range << plan->levels, end = first + (1u << plan->levels);
    for (unsigned k = first; k < end; k++) {
        unsigned n = plan->counts[k];
        plan->tallies[k] = (uint16_t)(n - retired_in(list, n));
        list += n;
    }
    for (unsigned levels = plan->levels; levels > 0; levels--) {
        first /= 2;
        end /= 2;
        for (unsigned k = first; k < end; k++)
            plan->tallies[k] = (uint16_t)(plan->tallies[2 * k] + plan->tallies[2 * k + 1]);
    }
}

/* Writes the counts and tallies of a plan: those of the ranges above its range change by one, the tallies where the entry scores. */
static void write_counts(uint16_t *counts, uint16_t *tallies, const struct plan *plan, uint64_t entry)
{
    const uint8_t *at = plan->size.places;
    int by = plan->insert ? 1 : -1, scoring = scores(entry) ? by : 0;
    if (plan->anew) {
        memset(counts, 0, SHEET_COUNTS * sizeof *counts);
        memset(tallies, 0, SHEET_TALLIES * sizeof *tallies);
        counts[0] = (uint16_t)plan->size.m;
    }
    for (unsigned k = plan->range / 2; k > 0; k /= 2) {
        counts[at[k]] = (uint16_t)(counts[at[k]] + by);
        tallies[at[k]] = (uint16_t)(tallies[at[k]] + scoring);
    }
    for (unsigned first = plan->range, end = first + 1, levels = 0; levels <= plan->levels; first *= 2, end *= 2, levels++)
        for (unsigned k = first; k < end; k++) {
            counts[at[k]] = plan->counts[k];
            tallies[at[k]] = plan->tallies[k];
        }
}

/* Carries a plan out: the entries of its range are copied to a list, the list is changed and laid out. Then the slots that the sheet no
 * longer has become 0. */
static void carry_out(uint64_t *slots, uint16_t *counts, uint16_t *tallies, const struct size *old, struct plan *plan, uint64_t entry)
{
    uint64_t held[1 + SHEET_ENTRIES + 3], *list = held + 1;
    const struct size *new = &plan->size;
    unsigned n = counts[old->places[plan->range]], rank = plan->rank;
    unsigned levels = plan->range == 1 ? old->height : plan->levels, first = plan->range << levels;
    take_up(slots + (first - (1u << old->height)) * old->leaf, counts, old->leaf, old->places + first, 1u << levels, list);
    if (plan->insert) {
        memmove(list + rank + 1, list + rank, (n - rank) * sizeof *list);
        list[rank] = entry;
    } else {
        entry = list[rank];
        memmove(list + rank, list + rank + 1, (n - rank - 1) * sizeof *list);
    }
    tally(plan, list);
    write_counts(counts, tallies, plan, entry);
    first = plan->range << plan->levels;
    lay_out(slots + (first - (1u << new->height)) * new->leaf, plan->counts + first, new->leaf, 1u << plan->levels, held);
    unsigned before = old->leaf << old->height, after = new->leaf << new->height;
    if (after < before)
        memset(slots + after, 0, (before - after) * sizeof *slots);
}

/* An insert or a delete that no cause before 7 refuses. */
static size_t change(uint64_t *slots, uint16_t *counts, uint16_t *tallies, const struct size *size, bool insert, size_t rank, uint64_t entry,
                     const uint32_t *tape, size_t tape_len, uint64_t *answer)
{
    unsigned n = counts[1];
    struct plan plan;
    plan.tape = tape;
    plan.tape_len = tape_len;
    plan.read = 0;
    plan.insert = insert;
    plan.size = *size;
    plan.rank = (unsigned)rank;
    if (!make_plan(&plan, counts, n))
        return answered(answer, SHEET_TAPE_ENDED, 0, 0);
    carry_out(slots, counts, tallies, size, &plan, entry);
    return answered(answer, 0, insert ? n + 1 : n - 1, plan.read);
}

size_t c_insert(uint64_t *slots, size_t slots_len, uint16_t *counts, size_t counts_len, uint16_t *tallies, size_t tallies_len, size_t rank,
                uint64_t entry, const uint32_t *tape, size_t tape_len, uint64_t *answer, size_t answer_len)
{
    struct size size;
    if (answer_len < 2)
        return SHEET_ANSWER_SHORT;
    size_t cause = open(slots, slots_len, counts, counts_len, tallies, tallies_len, &size);
    if (cause == 0)
        cause = entry == 0 ? SHEET_ENTRY_ZERO : rank > counts[1] ? SHEET_RANK : counts[1] == SHEET_ENTRIES ? SHEET_FULL : 0;
    if (cause != 0)
        return answered(answer, cause, 0, 0);
    return change(slots, counts, tallies, &size, true, rank, entry, tape, tape_len, answer);
}

size_t c_delete(uint64_t *slots, size_t slots_len, uint16_t *counts, size_t counts_len, uint16_t *tallies, size_t tallies_len, size_t rank,
                const uint32_t *tape, size_t tape_len, uint64_t *answer, size_t answer_len)
{
    struct size size;
    if (answer_len < 2)
        return SHEET_ANSWER_SHORT;
    size_t cause = open(slots, slots_len, counts, counts_len, tallies, tallies_len, &size);
    if (cause == 0 && rank >= counts[1])
        cause = SHEET_RANK;
    if (cause != 0)
        return answered(answer, cause, 0, 0);
    return change(slots, counts, tallies, &size, false, rank, 0, tape, tape_len, answer);
}

/* Where the words of the third slice come from: balance[k] for range k is the first entry of the leaf that its right half begins with. From
 * level to level these leaves are twice as near to each other, so that k rises by one from leaf to leaf. */
#define EACH_RANGE(k, leaf, leaves)                                                \
    for (unsigned step = (leaves) / 2, k = 1; step > 0; step /= 2)                 \
        for (unsigned leaf = step; leaf < (leaves); leaf += 2 * step, k++)

/* What the entries of a timed sheet are compared by. */
static uint64_t key(uint64_t entry)
{
    return entry & ~(SHEET_TIED | SHEET_RETIRED);
}

/* Puts the first entry of each leaf into `firsts`; whether some key is not above the one before it, or the first is 0. */
static bool falls(const uint64_t *slots, const uint16_t *counts, const struct size *size, uint64_t *firsts)
{
    unsigned leaves = 1u << size->height;
    const uint8_t *at = size->places + leaves;
    bool fall = false;
    uint64_t last = 0;
    for (unsigned leaf = 0; leaf < leaves; leaf++, slots += size->leaf) {
        unsigned n = counts[at[leaf]];
        const uint8_t *slot = spread_of(size->leaf, n)->slot;
        firsts[leaf] = slots[slot[0]];
        for (unsigned i = 0; i < n; i++) {
            fall |= key(slots[slot[i]]) <= last;
            last = key(slots[slot[i]]);
        }
    }
    return fall;
}

/* The causes 1, 2 and 11, or 0 and what M gives. */
static size_t open_timed(const uint64_t *slots, size_t slots_len, const uint16_t *counts, size_t counts_len, const uint16_t *tallies,
                         size_t tallies_len, const uint64_t *balance, size_t balance_len, struct size *size)
{
    uint64_t firsts[1 << HIGHEST], faults;
    if (balance_len != TIMED_BALANCE)
        return SHEET_LENGTHS;
    size_t cause = open(slots, slots_len, counts, counts_len, tallies, tallies_len, size);
    if (cause != 0)
        return cause;
    unsigned leaves = 1u << size->height;
    faults = falls(slots, counts, size, firsts) | balance[0];
    EACH_RANGE(k, leaf, leaves)
        faults |= balance[k] ^ firsts[leaf];
    for (unsigned k = leaves; k < TIMED_BALANCE; k++)
        faults |= balance[k];
    return faults == 0 ? SHEET_ACCEPTED : TIMED_NOT_TIMED;
}

/* Writes the third slice of the sheet that a change has left. */
static void write_balance(const uint64_t *slots, const uint16_t *counts, uint64_t *balance)
{
    struct size size = size_of(counts[0]);
    unsigned leaves = 1u << size.height;
    const uint8_t *at = size.places + leaves;
    EACH_RANGE(k, leaf, leaves)
        balance[k] = slots[leaf * size.leaf + spread_of(size.leaf, counts[at[leaf]])->slot[0]];
    memset(balance + leaves, 0, (TIMED_BALANCE - leaves) * sizeof *balance);
}

/* The number of keys below that of this entry, and whether it is there. */
static size_t search(const uint64_t *slots, const uint16_t *counts, const uint64_t *balance, const struct size *size, uint64_t entry,
                     bool *there)
{
    uint64_t wanted = key(entry);
    unsigned k = 1, leaves = 1u << size->height;
    size_t before = 0;
    while (k < leaves) {
        bool right = key(balance[k]) <= wanted;
        before += right ? counts[size->places[2 * k]] : 0;
        k = 2 * k + right;
    }
    unsigned n = counts[size->places[k]], i = 0;
    const uint64_t *leaf = slots + (k - leaves) * size->leaf;
    const uint8_t *slot = spread_of(size->leaf, n)->slot;
    while (i < n && key(leaf[slot[i]]) < wanted)
        i++;
    *there = i < n && key(leaf[slot[i]]) == wanted;
    return before + i;
}

size_t c_timed_check(const uint64_t *slots, size_t slots_len, const uint16_t *counts, size_t counts_len, const uint16_t *tallies,
                     size_t tallies_len, const uint64_t *balance, size_t balance_len, uint64_t *answer, size_t answer_len)
{
    struct size size;
    if (answer_len < 2)
        return SHEET_ANSWER_SHORT;
    size_t cause = open_timed(slots, slots_len, counts, counts_len, tallies, tallies_len, balance, balance_len, &size);
    return answered(answer, cause, cause == 0 ? counts[1] : 0, 0);
}

size_t c_timed_find(const uint64_t *slots, size_t slots_len, const uint16_t *counts, size_t counts_len, const uint16_t *tallies,
                    size_t tallies_len, const uint64_t *balance, size_t balance_len, uint64_t entry, uint64_t *answer, size_t answer_len)
{
    struct size size;
    bool there = false;
    size_t rank = 0;
    if (answer_len < 2)
        return SHEET_ANSWER_SHORT;
    size_t cause = open_timed(slots, slots_len, counts, counts_len, tallies, tallies_len, balance, balance_len, &size);
    if (cause == 0 && key(entry) == 0)
        cause = SHEET_ENTRY_ZERO;
    if (cause == 0)
        rank = search(slots, counts, balance, &size, entry, &there);
    return answered(answer, cause, there, rank);
}

size_t c_timed_insert(uint64_t *slots, size_t slots_len, uint16_t *counts, size_t counts_len, uint16_t *tallies, size_t tallies_len,
                      uint64_t *balance, size_t balance_len, uint64_t entry, const uint32_t *tape, size_t tape_len, uint64_t *answer,
                      size_t answer_len)
{
    struct size size;
    bool there = false;
    size_t rank = 0;
    if (answer_len < 2)
        return SHEET_ANSWER_SHORT;
    size_t cause = open_timed(slots, slots_len, counts, counts_len, tallies, tallies_len, balance, balance_len, &size);
    if (cause == 0 && key(entry) == 0)
        cause = SHEET_ENTRY_ZERO;
    if (cause == 0)
        rank = search(slots, counts, balance, &size, entry, &there);
    if (cause == 0)
        cause = there ? TIMED_PRESENT : counts[1] == SHEET_ENTRIES ? SHEET_FULL : 0;
    if (cause != 0)
        return answered(answer, cause, 0, 0);
    cause = change(slots, counts, tallies, &size, true, rank, entry, tape, tape_len, answer);
    if (cause == 0)
        write_balance(slots, counts, balance);
    return cause;
}

size_t c_timed_delete(uint64_t *slots, size_t slots_len, uint16_t *counts, size_t counts_len, uint16_t *tallies, size_t tallies_len,
                      uint64_t *balance, size_t balance_len, size_t rank, const uint32_t *tape, size_t tape_len, uint64_t *answer,
                      size_t answer_len)
{
    struct size size;
    if (answer_len < 2)
        return SHEET_ANSWER_SHORT;
    size_t cause = open_timed(slots, slots_len, counts, counts_len, tallies, tallies_len, balance, balance_len, &size);
    if (cause == 0 && rank >= counts[1])
        cause = SHEET_RANK;
    if (cause != 0)
        return answered(answer, cause, 0, 0);
    cause = change(slots, counts, tallies, &size, false, rank, 0, tape, tape_len, answer);
    if (cause == 0)
        write_balance(slots, counts, balance);
    return cause;
}
