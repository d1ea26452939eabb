/* A library to put before the C library's calls by LD_PRELOAD: it counts the allocations, the reads of standard input
 * and the writes to standard output, and lets one of each fail, or be short.
 *
 * Variables, each a number counted from 1 (absent or 0: none):
 *   REFUSE_ALLOC=N   allocation N answers that there is no memory; with REFUSE_REST=1 all later ones too
 *   REFUSE_TURN=N    the same of allocation N of every other turn; a turn ends with a write, and the first is not among them
 *   FAIL_READ=N      read N fails; SHORT_READ=N: it gives one byte; HALF_READ=N: half of what was asked for
 *   FIRST_READ=N     the first read gives N bytes at most
 *   FAIL_WRITE=N     write N fails; SHORT_WRITE=N: it takes one byte; HALF_WRITE=N: half of the piece
 *   SHORT_READS=1, SHORT_WRITES=1   each read gives, and each write takes, one byte
 *   COUNTS=FILE      at the end the three counts are written there, and the most allocations of one turn after the first, in
 *                    decimal, with blanks between
 *
 * What fails with EINTR in place of EIO is told by INTERRUPT=1. */
#define _GNU_SOURCE
#include <dlfcn.h>
#include <errno.h>
#include <fcntl.h>
#include <stdlib.h>
#include <sys/uio.h>
#include <unistd.h>

static long allocs, reads, writes, refused, failed_read, failed_write;
static long short_read, half_read, first_read, short_write, half_write, all_reads, all_writes, rest, interrupt;
static long refused_in_turn, in_turn, most_in_turn;
static const char *counts;

static void *(*next_malloc)(size_t);
static void *(*next_calloc)(size_t, size_t);
static void *(*next_realloc)(void *, size_t);
static void *(*next_aligned)(size_t, size_t);
static int (*next_posix)(void **, size_t, size_t);
static ssize_t (*next_read)(int, void *, size_t);
static ssize_t (*next_write)(int, const void *, size_t);

static long number(const char *name) {
  const char *text = getenv(name);
  return text ? atol(text) : 0;
}

/* What dlsym asks for while the calls are looked up comes from here. */
static char early[65536];
static size_t early_used;
static int is_ready;

static void *from_early(size_t size) {
  size_t at = (early_used + 15) & ~(size_t)15;
  if (at + size > sizeof early) return NULL;
  early_used = at + size;
  return early + at;
}

static int is_early(const void *piece) {
  return (const char *)piece >= early && (const char *)piece < early + sizeof early;
}

__attribute__((constructor)) static void start(void) {
  if (is_ready) return;
  next_malloc = dlsym(RTLD_NEXT, "malloc");
  next_calloc = dlsym(RTLD_NEXT, "calloc");
  next_realloc = dlsym(RTLD_NEXT, "realloc");
  next_aligned = dlsym(RTLD_NEXT, "aligned_alloc");
  next_posix = dlsym(RTLD_NEXT, "posix_memalign");
  next_read = dlsym(RTLD_NEXT, "read");
  next_write = dlsym(RTLD_NEXT, "write");
  refused = number("REFUSE_ALLOC");
  rest = number("REFUSE_REST");
  refused_in_turn = number("REFUSE_TURN");
  failed_read = number("FAIL_READ");
  short_read = number("SHORT_READ");
  half_read = number("HALF_READ");
  first_read = number("FIRST_READ");
  all_reads = number("SHORT_READS");
  failed_write = number("FAIL_WRITE");
  short_write = number("SHORT_WRITE");
  half_write = number("HALF_WRITE");
  all_writes = number("SHORT_WRITES");
  interrupt = number("INTERRUPT");
  counts = getenv("COUNTS");
  is_ready = 1;
}

static char *decimal(char *end, long n) {
  do *--end = (char)('0' + n % 10); while (n /= 10);
  return end;
}

static void tell(void) {
  char text[80], *at = text + sizeof text;
  int file = counts ? open(counts, O_WRONLY | O_CREAT | O_TRUNC, 0600) : -1;
  if (file < 0) return;
  counts = NULL;
  *--at = '\n';
  at = decimal(at, most_in_turn);
  *--at = ' ';
  at = decimal(at, writes);
  *--at = ' ';
  at = decimal(at, reads);
  *--at = ' ';
  at = decimal(at, allocs);
  next_write(file, at, (size_t)(text + sizeof text - at));
  close(file);
}

__attribute__((destructor)) static void end(void) { tell(); }

void _exit(int status) {
  tell();
  void (*next)(int) = (void (*)(int))dlsym(RTLD_NEXT, "_exit");
  next(status);
  __builtin_unreachable();
}

/* The next number of a count, which threads may share. */
static long next_of(long *count) { return __atomic_add_fetch(count, 1, __ATOMIC_SEQ_CST); }

/* Counts an allocation in its turn, and says whether it is refused there. */
static int refuses_in_turn(void) {
  long n = next_of(&in_turn);
  if (writes && n > most_in_turn) most_in_turn = n;
  return n == refused_in_turn && writes % 2;
}

/* Whether this allocation is refused. */
static int refuses(void) {
  long n = next_of(&allocs);
  if (!refuses_in_turn() && n != refused && !(rest && refused && n > refused)) return 0;
  errno = ENOMEM;
  return 1;
}

void *malloc(size_t size) {
  if (!next_malloc) return from_early(size);
  return refuses() ? NULL : next_malloc(size);
}

void *calloc(size_t n, size_t size) {
  if (!next_calloc) return from_early(n * size);
  return refuses() ? NULL : next_calloc(n, size);
}

void *realloc(void *piece, size_t size) {
  if (is_early(piece)) return NULL;
  return refuses() ? NULL : next_realloc(piece, size);
}

void *aligned_alloc(size_t align, size_t size) { return refuses() ? NULL : next_aligned(align, size); }

int posix_memalign(void **into, size_t align, size_t size) {
  return refuses() ? ENOMEM : next_posix(into, align, size);
}

void free(void *piece) {
  static void (*next_free)(void *);
  if (!piece || is_early(piece)) return;
  if (!next_free) next_free = (void (*)(void *))dlsym(RTLD_NEXT, "free");
  next_free(piece);
}

/* How many bytes a call may move, or -1 where it fails. */
static ssize_t allowed(long n, size_t size, long fails, long one, long half, long all) {
  if (n == fails) {
    errno = interrupt ? EINTR : EIO;
    return -1;
  }
  if ((n == one || all) && size > 1) return 1;
  if (n == half && size > 1) return (ssize_t)(size / 2);
  return (ssize_t)size;
}

ssize_t read(int file, void *into, size_t size) {
  if (file != 0) return next_read(file, into, size);
  long n = next_of(&reads);
  ssize_t most = allowed(n, size, failed_read, short_read, half_read, all_reads);
  if (n == 1 && first_read && most > first_read) most = first_read;
  return most < 0 ? most : next_read(file, into, (size_t)most);
}

ssize_t write(int file, const void *from, size_t size) {
  if (file != 1) return next_write(file, from, size);
  ssize_t most = allowed(next_of(&writes), size, failed_write, short_write, half_write, all_writes);
  in_turn = 0;
  return most < 0 ? most : next_write(file, from, (size_t)most);
}

/* A program that gathers its pieces gets the first of them alone, as a write that is short. */
ssize_t writev(int file, const struct iovec *pieces, int count) {
  for (int i = 0; i < count; i++)
    if (pieces[i].iov_len) return write(file, pieces[i].iov_base, pieces[i].iov_len);
  return 0;
}
