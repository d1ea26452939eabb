// What heap.c has, and where its memory comes from: the module's own, or one that a test makes.
#ifndef GEZHUFET_HEAP_H
#define GEZHUFET_HEAP_H

typedef unsigned long word;
typedef unsigned char byte;
// What rattle_alloc and rattle_realloc give: two words, of which the first is whether there is memory.
typedef struct Tried {
  word ok;
  void *p;
} Tried;

#define PAGE ((word)65536)
// The most that a memory of 32 bits has, less a page, so that no address is past it.
#define HEAP_MOST (((word)1 << 32) - PAGE)

void *malloc(word n);
void *calloc(word count, word n);
void *realloc(void *p, word n);
void free(void *p);
word heap_used(void);
void heap_limit(word bytes);
Tried rattle_alloc(word n, word align);
Tried rattle_realloc(void *p, word kept, word n, word align);
void rattle_dealloc(void *p);

#ifdef HEAP_TEST
// A test gives the memory, and the heap's own names in place of the C library's.
extern byte *test_memory;
extern word test_size;
int test_grow(word bytes);
static inline word heap_start(void) { return (word)test_memory; }
static inline byte *heap_first(void) { return test_memory + 24; }
static inline byte *heap_end(void) { return test_memory + test_size; }
static inline int heap_grow(word bytes) { return test_grow(bytes); }
#else
extern byte __heap_base;
static inline word heap_start(void) { return 0; }
static inline byte *heap_first(void) { return &__heap_base; }
static inline byte *heap_end(void) { return (byte *)(__builtin_wasm_memory_size(0) * PAGE); }
// Whether memory grew is read from its size: lowered to 32 bits, the answer of a refusal is another number.
static inline int heap_grow(word bytes) {
  word had = __builtin_wasm_memory_size(0);
  __builtin_wasm_memory_grow(0, bytes / PAGE);
  return __builtin_wasm_memory_size(0) == had + bytes / PAGE;
}
#endif
#endif
