// Tests heap.c on this machine: random calls of malloc, realloc and free, after each of which the whole heap is walked. The last
// line is `N passed, M failed`.
// usage: heap-test [ROUNDS [SEED]]

#define _DEFAULT_SOURCE
#include <stdint.h>
#include <stdio.h>
#include <stdlib.h>
#include <string.h>
#include <sys/mman.h>

#define HEAP_TEST
#define malloc heap_malloc
#define calloc heap_calloc
#define realloc heap_realloc
#define free heap_free
#include "heap.c"

// ---- the memory: what was not given yet can be neither read nor written

#define ROOM ((word)1 << 28)
byte *test_memory;
word test_size, test_most;

int test_grow(word bytes) {
  if (bytes > test_most || test_size > test_most - bytes) return 0;
  if (mprotect(test_memory + test_size, bytes, PROT_READ | PROT_WRITE)) abort();
  test_size += bytes;
  return 1;
}

static void renew(word size, word most) {
  if (!test_memory) test_memory = mmap(0, ROOM, PROT_NONE, MAP_PRIVATE | MAP_ANONYMOUS | MAP_NORESERVE, -1, 0);
  if (test_memory == MAP_FAILED) abort();
  if (mprotect(test_memory, ROOM, PROT_NONE)) abort();
  memset(lists, 0, sizeof lists);
  memset(filled, 0, sizeof filled);
  memset(kept, 0, sizeof kept);
  memset(counts, 0, sizeof counts);
  used = limit = test_size = 0;
  last = 0;
  test_most = most;
  if (!test_grow(size)) abort();
}

// ---- what is judged

static int passed, failed;

static void judge(int is_well, const char *what) {
  if (is_well) passed++;
  else {
    failed++;
    printf("heap: %s\n", what);
  }
}

static int is_listed(Block *wanted) {
  for (Block *b = lists[list_of(size_of(wanted))]; b; b = b->next)
    if (b == wanted) return 1;
  return 0;
}

static int count_listed(void) {
  int count = 0;
  for (int k = 0; k < LISTS; k++) {
    if ((lists[k] != 0) != (filled[k / 64] >> k % 64 & 1)) return -1;
    for (Block *b = lists[k]; b; b = b->next) {
      count++;
      if (list_of(size_of(b)) != k || (b->next && b->next->before != b)) return -1;
    }
  }
  return count;
}

// The bytes of the blocks that are kept, which are marked as in use.
static word size_of_kept(void) {
  word size = 0;
  for (word k = 0; k < KEPT_BELOW / ALIGN; k++) {
    unsigned count = 0;
    for (Block *b = kept[k]; b; b = b->next, count++) {
      if (!(b->head & USED) || size_of(b) != k * ALIGN) return ~(word)0;
      size += size_of(b);
    }
    if (count != counts[k] || count > KEPT_MOST) return ~(word)0;
  }
  return size;
}

// Whether the blocks lie without gaps, no two free ones beside each other, with right marks, and the free ones in their lists. Gives
// how many are free and the size of the largest.
static int is_whole(int *frees, word *largest) {
  *frees = 0;
  *largest = 0;
  if (!last) return used == 0;
  word in_use = 0, was_used = AFTER_USED;
  Block *b = (Block *)(test_memory + 24);
  for (; b < last; b = after(b)) {
    if (size_of(b) < LEAST || (b->head & AFTER_USED) != was_used) return 0;
    if (b->head & USED) in_use += size_of(b);
    else {
      if (!was_used || !is_listed(b) || *(word *)((byte *)after(b) - HEAD) != size_of(b)) return 0;
      ++*frees;
      if (size_of(b) > *largest) *largest = size_of(b);
    }
    was_used = b->head & USED ? AFTER_USED : 0;
  }
  return b == last && last->head == (USED | was_used) && in_use == used + size_of_kept() && count_listed() == *frees
    && (byte *)last + HEAD == test_memory + test_size;
}

// ---- random calls

static uint64_t state;
static word below(word n) {
  state = state * 6364136223846793005u + 1442695040888963407u;
  return (state >> 33) % n;
}

static word some_size(void) {
  switch (below(8)) {
    case 0: return below(4);
    case 1: return 1 + below(100000);
    case 2: return 1 + below(4000);
    default: return 1 + below(200);
  }
}

enum { PLACES = 400 };
typedef struct Place {
  byte *at;
  word size;
  byte sign;
} Place;
static Place places[PLACES];

static int keeps_sign(const Place *p) {
  for (word i = 0; i < p->size; i++)
    if (p->at[i] != p->sign) return 0;
  return 1;
}

// One call, and whether it did what it is to do. Where a call is refused, no free block has the size and memory is at its limit.
static int act(void) {
  Place *p = &places[below(PLACES)];
  word n = some_size(), largest;
  int frees, is_well = 1;
  if (p->at && !keeps_sign(p)) return 0;
  if (p->at && below(2)) {
    free(p->at);
    p->at = 0;
    return is_whole(&frees, &largest);
  }
  word kept = p->at ? (n < p->size ? n : p->size) : 0;
  byte *at = p->at ? realloc(p->at, n) : malloc(n);
  is_well = is_whole(&frees, &largest);
  if (!at) return is_well && largest < size_for(n) && (!p->at || keeps_sign(p)) && test_size + 2 * PAGE + n > test_most;
  for (word i = 0; i < kept; i++) is_well = is_well && at[i] == p->sign;
  *p = (Place){at, n, (byte)below(256)};
  memset(at, p->sign, n);
  return is_well && (word)at % ALIGN == 0 && at >= test_memory && at + n <= (byte *)last;
}

static void release_all(void) {
  for (int i = 0; i < PLACES; i++) {
    free(places[i].at);
    places[i] = (Place){0};
  }
}

static int is_empty(void) {
  int frees;
  word largest;
  release_kept();
  return is_whole(&frees, &largest) && used == 0 && frees == 1;
}

static void random_calls(word rounds, word most, const char *what) {
  renew(PAGE, most);
  int is_well = 1;
  for (word i = 0; i < rounds && is_well; i++) is_well = act();
  judge(is_well, what);
  release_all();
  judge(is_empty(), "what was given back is not one free block");
}

// ---- single rules

static void limits(void) {
  renew(PAGE, ROOM);
  judge(!malloc(HEAP_MOST) && !malloc(~(word)0) && !malloc((word)1 << 63) && !malloc((word)1 << 32), "more than all memory");
  heap_limit(16 * PAGE);
  judge(!malloc(16 * PAGE) && malloc(12 * PAGE) && !malloc(4 * PAGE) && test_size <= 16 * PAGE, "past the limit");
  heap_limit(0);
  judge(malloc(16 * PAGE) != 0, "no limit any more");
  renew(8 * PAGE, ROOM);
  heap_limit(PAGE);
  judge(malloc(7 * PAGE) && !malloc(PAGE), "a limit below what is there");
  renew(PAGE, PAGE);
  judge(malloc(PAGE - 64) && !malloc(64) && !malloc(16), "a memory that does not grow");
}

// A list that grows at the end of memory does not move, and what is given back serves another size.
static void same_place(void) {
  renew(PAGE, ROOM);
  byte *p = malloc(100), *first = p;
  int stays = 1;
  for (word n = 200; n < 8000000; n *= 2) stays = stays && (p = realloc(p, n)) == first;
  judge(stays, "a block at the end moves where it grows");
  word size = test_size;
  judge(realloc(p, 10) == p && used == LEAST, "a block that shrinks keeps its bytes");
  byte *parts[1000];
  for (int i = 0; i < 1000; i++) parts[i] = malloc(6000);
  for (int i = 0; i < 1000; i++) free(parts[i]);
  judge(malloc(6200000) && test_size == size, "small blocks that were given back serve no large one");
}

static void same_size(void) {
  renew(PAGE, ROOM);
  word size = 0;
  for (int round = 0; round < 100; round++) {
    for (int i = 0; i < PLACES; i++) places[i].at = malloc(some_size());
    release_all();
    if (round == 50) size = test_size;
  }
  judge(is_empty() && test_size <= 2 * size, "memory grows though all is given back");
}

static void zeros(void) {
  renew(PAGE, PAGE);
  byte *p = malloc(1000);
  memset(p, 1, 1000);
  free(p);
  byte *q = calloc(50, 20);
  int is_zero = q == p;
  for (int i = 0; i < 1000; i++) is_zero = is_zero && q[i] == 0;
  judge(is_zero, "a block of zeros");
  judge(!calloc((word)1 << 32, (word)1 << 32) && !calloc(~(word)0, 2) && !calloc(PAGE, 2), "too many zeros");
}

static void rattle_calls(void) {
  renew(PAGE, PAGE);
  Tried none = rattle_alloc(0, 8), other = rattle_alloc(0, 1);
  judge(none.ok && other.ok && none.p != other.p && (word)none.p % 8 == 0, "a block of no bytes");
  Tried more = rattle_realloc(none.p, 0, 5000, 8), all = rattle_realloc(more.p, 5000, PAGE, 8);
  judge(more.ok && !all.ok && all.p, "a refusal");
  rattle_dealloc(more.p);
  rattle_dealloc(other.p);
  judge(is_empty(), "what the library's calls gave back");
}

int main(int count, char **words) {
  word rounds = count > 1 ? strtoul(words[1], 0, 10) : 100000;
  state = count > 2 ? strtoul(words[2], 0, 10) : 1;
  random_calls(rounds, ROOM, "a call with ample memory");
  random_calls(rounds, 40 * PAGE, "a call near the end of memory");
  random_calls(rounds, 6 * PAGE, "a call with little memory");
  limits();
  same_place();
  same_size();
  zeros();
  rattle_calls();
  printf("%d passed, %d failed\n", passed, failed);
  return failed > 0;
}
