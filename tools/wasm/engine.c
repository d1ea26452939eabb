// What the module exports to JavaScript, over the C library's calls (bindings/c). One buffer carries lines in and answers out, so that a
// call passes numbers alone. Nothing proves this file.

#include "gezhufet.h"
#include "heap.h"

// ---- the guard: after a trap memory may be half written, so each later call traps too

static bool in_call;

static void enter(void) {
  if (in_call) __builtin_trap();
  in_call = true;
}

static unsigned leave(word result) {
  in_call = false;
  return (unsigned)result;
}

static gezhufet_talk *talk_at(unsigned talk) { return (gezhufet_talk *)(word)talk; }

// ---- the buffer

// It has this room at least, so that a short answer, which may tell of a change, is never lost for a lack of memory.
enum { LEAST_ROOM = 4096, MOST_KEPT = 16 * LEAST_ROOM };
static char *buffer;
static word has;

static bool provide(word bytes) {
  if (bytes < LEAST_ROOM) bytes = LEAST_ROOM;
  if (bytes <= has) return true;
  char *more = malloc(bytes);
  if (!more) return false;
  free(buffer);
  buffer = more;
  has = bytes;
  return true;
}

// Lets a buffer go that one long line or answer made. A block that shrinks stays where it is.
static void shrink(void) {
  if (has <= MOST_KEPT) return;
  char *less = realloc(buffer, LEAST_ROOM);
  if (!less) return;
  buffer = less;
  has = LEAST_ROOM;
}

// ---- what JavaScript calls

static word last;

// The place for so many bytes of lines, or 0 where there is no memory for them.
unsigned room(unsigned bytes) {
  enter();
  return leave(provide(bytes) ? (word)buffer : 0);
}

// A talk by its two lines, which lie in the buffer one after the other, or 0 where there is no memory for it. It has an answer.
unsigned open(unsigned schema, unsigned document) {
  enter();
  gezhufet_talk *talk = NULL;
  last = provide(schema + document) ? gezhufet_open_authority(buffer, schema, buffer + schema, document, &talk) : 0;
  return leave((word)talk);
}

// A client's talk by its three lines, as `open` has an authority's.
unsigned open_client(unsigned schema, unsigned document, unsigned client) {
  enter();
  gezhufet_talk *talk = NULL;
  last = 0;
  if (provide(schema + document + client)) {
    const char *second = buffer + schema;
    last = gezhufet_open_client(buffer, schema, second, document, second + document, client, &talk);
  }
  return leave((word)talk);
}

// Whether the talk was opened, so that lines are answered.
unsigned is_open(unsigned talk) {
  enter();
  return leave(gezhufet_is_open(talk_at(talk)));
}

// Tells a talk the line of so many bytes that lies in the buffer, and puts the answer's first bytes there, as many as the least room
// takes. Gives the bytes of the answer, its LF too.
unsigned ask(unsigned talk, unsigned bytes) {
  enter();
  last = gezhufet_tell(talk_at(talk), buffer, bytes);
  shrink();
  gezhufet_answer(talk_at(talk), buffer, LEAST_ROOM);
  return leave(last);
}

// The bytes of the answer to the last call of `open`, `open_client` or `ask`, its LF too.
unsigned length(void) {
  enter();
  return leave(last);
}

// Where the whole of that answer lies, of the talk that was called, or 0 where there is no memory to hand it out.
unsigned answer(unsigned talk) {
  enter();
  shrink();
  if (!provide(last)) return leave(0);
  gezhufet_answer(talk_at(talk), buffer, last);
  return leave((word)buffer);
}

// Lets a talk go.
void close(unsigned talk) {
  enter();
  shrink();
  gezhufet_close(talk_at(talk));
  leave(0);
}

// The bytes in use, the buffer's too.
unsigned used(void) {
  enter();
  return leave(heap_used());
}

// Holds memory to so many bytes from now on; 0 for no limit.
void limit(unsigned bytes) {
  enter();
  heap_limit(bytes);
  leave(0);
}
