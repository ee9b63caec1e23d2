/* Watches the writes of inserts and deletes to the slots. The slots lie in memory that may only be read. Each write faults: its place is
 * recorded, the one instruction runs with the memory writable, and the memory is closed again. A write of more than one slot counts for its
 * first slot alone, so that the others are missed. Every slot of a leaf that is laid out has to be written once, from left to right; slots
 * that no leaf of the new size uses are zeroed apart. For x86-64 Linux. */
#define _GNU_SOURCE
#include <signal.h>
#include <stdio.h>
#include <stdlib.h>
#include <string.h>
#include <sys/mman.h>
#include <ucontext.h>

#include "sheet.h"

#define TRAP_FLAG 0x100
#define BYTES (SHEET_SLOTS * sizeof(uint64_t))
#define MAPPED 36864 /* BYTES in whole pages */
#define MOST (2 * BYTES) /* what is zeroed may be written byte by byte */
#define STORE slots, SHEET_SLOTS, counts, SHEET_COUNTS, tallies, SHEET_TALLIES

static uint64_t *slots;
static uint16_t counts[SHEET_COUNTS];
static uint16_t tallies[SHEET_TALLIES];
static volatile size_t offset[MOST]; /* in bytes, of each write of a call, in order */
static volatile size_t writes;
static size_t watched_seen, leaves_seen, sizes_seen, zeroed_seen;

static void on_fault(int number, siginfo_t *info, void *context) {
  ucontext_t *at = context;
  char *start = (char *)slots, *here = info->si_addr;
  (void)number;
  if (here < start || start + BYTES <= here || writes == MOST)
    abort();
  offset[writes++] = (size_t)(here - start);
  mprotect(slots, MAPPED, PROT_READ | PROT_WRITE);
  at->uc_mcontext.gregs[REG_EFL] |= TRAP_FLAG;
}

static void on_trap(int number, siginfo_t *info, void *context) {
  ucontext_t *at = context;
  (void)number;
  (void)info;
  mprotect(slots, MAPPED, PROT_READ);
  at->uc_mcontext.gregs[REG_EFL] &= ~(greg_t)TRAP_FLAG;
}

static void watch(int number, void (*handler)(int, siginfo_t *, void *)) {
  struct sigaction action;
  memset(&action, 0, sizeof action);
  action.sa_sigaction = handler;
  action.sa_flags = SA_SIGINFO;
  if (sigaction(number, &action, NULL) != 0)
    abort();
}

/* The slots of a leaf, and of all leaves, for the size parameter m (document 01, "Size rules"). */
static void sizes(size_t m, size_t *leaf, size_t *all) {
  size_t g = 0, leaves = 1;
  if (m <= 64) {
    *leaf = m;
    *all = m;
    return;
  }
  while ((m - 1) >> g != 0)
    g++;
  while (g * 2 * leaves <= m)
    leaves *= 2;
  *leaf = 3 * g;
  *all = 3 * g * leaves;
}

/* Whether the writes that were recorded are one pass over whole leaves, from left to right, after what is zeroed apart. */
static int one_pass(size_t m) {
  const size_t slot = sizeof(uint64_t);
  size_t leaf, all, first = 0, i;
  sizes(m, &leaf, &all);
  while (first < writes && all * slot <= offset[first])
    first++;
  zeroed_seen += first;
  if (first == writes)
    return m == 0;
  for (i = first + 1; i < writes; i++)
    if (offset[i] != offset[i - 1] + slot)
      return 0;
  if (all * slot <= offset[writes - 1] || offset[first] % (leaf * slot) != 0 || (writes - first) % leaf != 0)
    return 0;
  leaves_seen += (writes - first) / leaf;
  return 1;
}

/* The next random word: a multiplicative congruential generator, its upper half. */
static uint32_t word(void) {
  static uint64_t state = 20261115;
  state = state * 6364136223846793005u + 1442695040888963407u;
  return (uint32_t)(state >> 32);
}

/* An entry; every second one is that of a retired boat. */
static uint64_t entry(void) {
  return (uint64_t)word() << 31 | 1;
}

/* An insert or a delete at a random rank, watched up to N = 200 and at times from there on. Returns the new N. */
static size_t change(size_t n, int insert) {
  int watched = n < 200 || word() % 16 == 0;
  uint32_t tape[SHEET_WORDS];
  uint64_t answer[2];
  size_t i, number, m = counts[0];
  for (i = 0; i < SHEET_WORDS; i++)
    tape[i] = word();
  writes = 0;
  mprotect(slots, MAPPED, watched ? PROT_READ : PROT_READ | PROT_WRITE);
  if (insert)
    number = sheet_insert(STORE, word() % (n + 1), entry(), tape, SHEET_WORDS, answer, 2);
  else
    number = sheet_delete(STORE, word() % n, tape, SHEET_WORDS, answer, 2);
  if (number != SHEET_ACCEPTED || answer[0] != (insert ? n + 1 : n - 1) || (watched && !one_pass(counts[0]))) {
    printf("watch: N %zu, M %zu to %u: returned %zu, %zu writes from byte %zu on\n", n, m, (unsigned)counts[0], number, writes, offset[0]);
    exit(1);
  }
  watched_seen += watched;
  sizes_seen += watched && m != counts[0];
  return answer[0];
}

/* The watch sees writes that are no such pass: from right to left, a slot left out, a slot written twice. */
static int sees(void) {
  static const size_t wrong[3][4] = {{2, 1, 0, 0}, {0, 2, 3, 3}, {0, 1, 1, 2}};
  volatile uint64_t *out = slots;
  size_t row, i;
  for (row = 0; row < 3; row++) {
    writes = 0;
    for (i = 0; i < (row == 2 ? 4 : 3); i++)
      out[wrong[row][i]] = 0;
    if (writes != (row == 2 ? 4 : 3) || one_pass(3))
      return 0;
  }
  writes = 0;
  for (i = 0; i < 3; i++)
    out[i] = 0;
  return one_pass(3);
}

int main(void) {
  size_t n = 0;
  slots = mmap(NULL, MAPPED, PROT_READ, MAP_PRIVATE | MAP_ANONYMOUS, -1, 0);
  if (slots == MAP_FAILED)
    return 2;
  watch(SIGSEGV, on_fault);
  watch(SIGTRAP, on_trap);
  if (!sees()) {
    printf("watch: the writes are not seen as they are made\n");
    return 1;
  }
  leaves_seen = sizes_seen = zeroed_seen = 0;
  while (n < SHEET_ENTRIES)
    n = change(n, n == 0 || word() % 8 != 0);
  while (0 < n)
    n = change(n, n < SHEET_ENTRIES && word() % 8 == 0);
  printf("watch: %zu calls, %zu leaves written, %zu sizes set, %zu writes of slots that no leaf uses\n", watched_seen, leaves_seen, sizes_seen, zeroed_seen);
  return leaves_seen == 0 || sizes_seen == 0 || zeroed_seen == 0;
}
