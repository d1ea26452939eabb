// malloc for a WebAssembly module: a heap in one memory that grows and never shrinks. A block that is freed is joined with the free
// blocks beside it, so that what was given back serves blocks of any size. Free blocks lie in lists by size. Some small blocks that
// were freed last stay as they are, and serve the next of their size at once; before memory grows they are joined as all others.
// Nothing proves this file; heap-test.c tests it.
//
// A block is a head of one word and its bytes; blocks lie one after another without gaps, from the first byte after the module's
// data to a last head, of size 0, at the end of memory. A size counts the head and is a multiple of 16. The bytes of a block in use
// go up to the next head; the last word of a free block repeats its size, so that the block after it finds where it begins.

#include "heap.h"

typedef struct Block {
  word head;            // the size, and the two marks below
  struct Block *next;   // of a free block: its neighbours in its list
  struct Block *before;
} Block;

enum { USED = 1, AFTER_USED = 2, MARKS = 15, LEAST = 32, ALIGN = 16, HEAD = sizeof(word) };
enum { SMALL = 1024, EACH = 8, LISTS = SMALL / ALIGN + EACH * 24 };
// Blocks of a size below this stay as they are when they are freed, of each size so many.
enum { KEPT_BELOW = 512, KEPT_MOST = 32 };

static Block *lists[LISTS];
static word filled[(LISTS + 63) / 64];  // which lists are not empty
static Block *kept[KEPT_BELOW / ALIGN]; // blocks that were freed and are marked as in use, by size
static unsigned counts[KEPT_BELOW / ALIGN];
static word used, limit;
static Block *last;                     // the head at the end of memory; none before the first call

static word size_of(const Block *b) { return b->head & ~(word)MARKS; }
static Block *after(Block *b) { return (Block *)((byte *)b + size_of(b)); }
static void *bytes_of(Block *b) { return (byte *)b + HEAD; }
static Block *block_of(void *p) { return (Block *)((byte *)p - HEAD); }

// ---- the lists

// The list of a size: up to SMALL each size has its own, and then there are EACH for every power of two.
static int list_of(word size) {
  if (size < SMALL) return (int)(size / ALIGN);
  int power = 63 - __builtin_clzll(size);
  return SMALL / ALIGN + (power - 10) * EACH + (int)(size >> (power - 3) & (EACH - 1));
}

static void put(Block *b) {
  int k = list_of(size_of(b));
  b->before = 0;
  b->next = lists[k];
  if (b->next) b->next->before = b;
  lists[k] = b;
  filled[k / 64] |= (word)1 << k % 64;
}

static void take(Block *b) {
  int k = list_of(size_of(b));
  if (b->next) b->next->before = b->before;
  if (b->before) b->before->next = b->next;
  else lists[k] = b->next;
  if (!lists[k]) filled[k / 64] &= ~((word)1 << k % 64);
}

// The first list from the k-th on that is not empty, or LISTS.
static int next_filled(int k) {
  for (; k < LISTS; k = (k | 63) + 1) {
    word found = filled[k / 64] >> k % 64;
    if (found) return k + __builtin_ctzll(found);
  }
  return LISTS;
}

// A free block of at least so many bytes, or none. Those of its own list may be too small, and those of later lists are not.
static Block *find(word size) {
  int k = list_of(size);
  for (Block *b = lists[k]; b; b = b->next)
    if (size_of(b) >= size) return b;
  k = next_filled(k + 1);
  return k < LISTS ? lists[k] : 0;
}

// ---- blocks

// Makes a range of bytes a free block, joined with the free blocks beside it. `is_after_used` tells of the block before it.
static void release(Block *b, word size, word is_after_used) {
  if (!is_after_used) {
    word before = *(word *)((byte *)b - HEAD);
    b = (Block *)((byte *)b - before);
    take(b);
    size += before;
  }
  Block *n = (Block *)((byte *)b + size);
  if (!(n->head & USED)) {
    take(n);
    size += size_of(n);
    n = (Block *)((byte *)b + size);
  }
  b->head = size | AFTER_USED;
  *(word *)((byte *)n - HEAD) = size;
  n->head &= ~(word)AFTER_USED;
  put(b);
}

// Cuts what a block in use has beyond `size`, where that is enough for a block.
static void cut(Block *b, word size) {
  word rest = size_of(b) - size;
  if (rest < LEAST) return;
  used -= rest;
  b->head -= rest;
  release(after(b), rest, USED);
}

// Puts a free block, which is in no list any more, to use.
static void occupy(Block *b) {
  used += size_of(b);
  b->head |= USED;
  after(b)->head |= AFTER_USED;
}

// ---- blocks that stay as they are

// Keeps a block that is freed. False where it is to be released.
static int keep(Block *b, word size) {
  word k = size / ALIGN;
  if (size >= KEPT_BELOW || counts[k] == KEPT_MOST) return 0;
  b->next = kept[k];
  kept[k] = b;
  counts[k]++;
  return 1;
}

// A block of this size that was kept, or none.
static Block *kept_of(word size) {
  word k = size / ALIGN;
  if (size >= KEPT_BELOW || !kept[k]) return 0;
  Block *b = kept[k];
  kept[k] = b->next;
  counts[k]--;
  return b;
}

// Releases all that is kept.
static void release_kept(void) {
  for (word k = 0; k < KEPT_BELOW / ALIGN; k++) {
    for (Block *b = kept[k], *next; b; b = next) {
      next = b->next;
      release(b, size_of(b), b->head & AFTER_USED);
    }
    kept[k] = 0;
    counts[k] = 0;
  }
}

// ---- memory

// Makes what lies after the module's data one free block. False where that is too little, and no more is given.
static int begin(void) {
  Block *first = (Block *)(((word)heap_first() + HEAD + MARKS) / ALIGN * ALIGN - HEAD);
  if (heap_end() < (byte *)first + LEAST + HEAD && !heap_grow(PAGE)) return 0;
  last = (Block *)(heap_end() - HEAD);
  last->head = USED;
  release(first, (word)last - (word)first, AFTER_USED);
  return 1;
}

// Makes the free block at the end of memory one of at least `size` bytes. False where memory is refused; then nothing changes.
static int grow(word size) {
  word have = (word)last + HEAD - heap_start();
  word free = last->head & AFTER_USED ? 0 : *(word *)((byte *)last - HEAD);
  word least = (size - free + PAGE - 1) / PAGE * PAGE, more = have / 8 / PAGE * PAGE;
  word most = limit && limit < HEAP_MOST ? limit : HEAP_MOST;
  if (have > most || least > most - have) return 0;
  if (more > most - have) more = (most - have) / PAGE * PAGE;
  if (more <= least || !heap_grow(more)) {
    more = least;
    if (!heap_grow(more)) return 0;
  }
  Block *old = last;
  last = (Block *)((byte *)old + more);
  last->head = USED;
  release(old, more, old->head & AFTER_USED);
  return 1;
}

// The size of a block for n bytes, or 0 where no memory has so many.
static word size_for(word n) {
  if (n > HEAP_MOST - LEAST) return 0;
  word size = (n + HEAD + MARKS) & ~(word)MARKS;
  return size < LEAST ? LEAST : size;
}

// ---- what programs call

// A free block of at least so many bytes, or none where memory is refused.
static Block *found(word size) {
  if (!last && !begin()) return 0;
  Block *b = find(size);
  if (b) return b;
  release_kept();
  b = find(size);
  return b || !grow(size) ? b : find(size);
}

void *malloc(word n) {
  word size = size_for(n);
  if (!size) return 0;
  Block *b = kept_of(size);
  if (b) {
    used += size;
    return bytes_of(b);
  }
  b = found(size);
  if (!b) return 0;
  take(b);
  occupy(b);
  cut(b, size);
  return bytes_of(b);
}

void *calloc(word count, word n) {
  word all;
  if (__builtin_mul_overflow(count, n, &all)) return 0;
  void *p = malloc(all);
  if (p) __builtin_memset(p, 0, all);
  return p;
}

void free(void *p) {
  if (!p) return;
  Block *b = block_of(p);
  word size = size_of(b);
  used -= size;
  if (!keep(b, size)) release(b, size, b->head & AFTER_USED);
}

// Joins a block in use with the free one after it, where both have `size` bytes. At the end of memory, memory is asked for.
static int extend(Block *b, word size) {
  Block *n = after(b);
  word have = size_of(b) + (n->head & USED ? 0 : size_of(n));
  if (have < size && (byte *)b + have == (byte *)last && grow(size - size_of(b))) {
    n = after(b);
    have = size_of(b) + size_of(n);
  }
  if (have < size) return 0;
  take(n);
  occupy(n);
  b->head += size_of(n);
  return 1;
}

void *realloc(void *p, word n) {
  if (!p) return malloc(n);
  Block *b = block_of(p);
  word size = size_for(n), had = size_of(b);
  if (!size) return 0;
  if (size <= had || extend(b, size)) {
    cut(b, size);
    return p;
  }
  void *q = malloc(n);
  if (!q) return 0;
  __builtin_memcpy(q, p, had - HEAD);
  free(p);
  return q;
}

// The bytes of all blocks in use, with their heads.
word heap_used(void) { return used; }

// From now on memory grows to at most so many bytes; 0 for no such limit.
void heap_limit(word bytes) { limit = bytes; }

// ---- what Rattle's library calls: a block of no bytes is one of `align` bytes, and each `align` divides 16

static byte nothing;

static Tried told(void *p) { return (Tried){p != 0, p ? p : &nothing}; }
Tried rattle_alloc(word n, word align) { return told(malloc(n ? n : align)); }
Tried rattle_realloc(void *p, word kept, word n, word align) { return (void)kept, told(realloc(p, n ? n : align)); }
void rattle_dealloc(void *p) { free(p); }
