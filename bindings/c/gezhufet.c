/* The library's calls over the exports of the crate pm_c. Nothing proves this file: it sees to it that each export gets what it
 * requires, which is a handle that holds a talk, and its storage. */
#include "gezhufet.h"

#include <stdint.h>
#include <stdlib.h>

/* What pm_c::handle::Handle is: a pointer, zero where it holds nothing. */
typedef struct {
  void *at;
} handle;

extern uint32_t pm_c_version(void);
extern bool pm_c_open_authority(handle *to);
extern bool pm_c_open_client(handle *to);
extern bool pm_c_open_house(handle *to);
extern size_t pm_c_tell(handle of, handle *to, const uint8_t *line, size_t size);
extern size_t pm_c_answer(handle of, handle *to, uint8_t *into, size_t room);
extern bool pm_c_is_open(handle of, handle *to);
extern void pm_c_close(handle of);

struct gezhufet_talk {
  handle held;
};

/* A slice of no bytes has a pointer too. */
static const uint8_t nothing[1];

static const uint8_t *bytes_of(const char *line, size_t size) { return size ? (const uint8_t *)line : nothing; }

static size_t told(gezhufet_talk *talk, const char *line, size_t size) {
  return pm_c_tell(talk->held, &talk->held, bytes_of(line, size), size);
}

unsigned gezhufet_version(void) { return pm_c_version(); }

/* A line as the caller hands it. */
typedef struct {
  const char *text;
  size_t size;
} given;

static bool is_line(given it) { return it.text || !it.size; }

/* A talk of which no line came, or NULL where there is no memory for it. */
static gezhufet_talk *made_by(bool (*open)(handle *to)) {
  gezhufet_talk *made = calloc(1, sizeof *made);
  if (made && !open(&made->held)) {
    free(made);
    return NULL;
  }
  return made;
}

/* Opens a talk by its lines, and gives the number of bytes of the answer. A line before the last has an answer of its own only where
 * it has a fault or there is no memory for it, and then no further line is told. */
static size_t opened_by(bool (*open)(handle *to), const given *lines, size_t count, gezhufet_talk **talk) {
  gezhufet_talk *made;
  size_t size = 0, at;
  if (!talk) return 0;
  *talk = NULL;
  for (at = 0; at < count; at++)
    if (!is_line(lines[at])) return 0;
  made = made_by(open);
  if (!made) return 0;
  for (at = 0; at < count && !size; at++) size = told(made, lines[at].text, lines[at].size);
  *talk = made;
  return size;
}

size_t gezhufet_open_authority(const char *schema, size_t schema_size, const char *document, size_t document_size,
                               gezhufet_talk **talk) {
  const given lines[] = {{schema, schema_size}, {document, document_size}};
  return opened_by(pm_c_open_authority, lines, 2, talk);
}

size_t gezhufet_open_client(const char *schema, size_t schema_size, const char *document, size_t document_size, const char *client,
                            size_t client_size, gezhufet_talk **talk) {
  const given lines[] = {{schema, schema_size}, {document, document_size}, {client, client_size}};
  return opened_by(pm_c_open_client, lines, 3, talk);
}

bool gezhufet_open_house(gezhufet_talk **talk) {
  if (!talk) return false;
  *talk = made_by(pm_c_open_house);
  return *talk != NULL;
}

bool gezhufet_is_open(gezhufet_talk *talk) { return talk && pm_c_is_open(talk->held, &talk->held); }

size_t gezhufet_tell(gezhufet_talk *talk, const char *line, size_t size) {
  return gezhufet_is_open(talk) && is_line((given){line, size}) ? told(talk, line, size) : 0;
}

size_t gezhufet_answer(gezhufet_talk *talk, char *buffer, size_t room) {
  if (!talk || !buffer) return 0;
  return pm_c_answer(talk->held, &talk->held, (uint8_t *)buffer, room);
}

size_t gezhufet_ask(gezhufet_talk *talk, const char *line, size_t size, char *buffer, size_t room) {
  size_t told_size = gezhufet_tell(talk, line, size);
  if (told_size) gezhufet_answer(talk, buffer, room);
  return told_size;
}

void gezhufet_close(gezhufet_talk *talk) {
  if (!talk) return;
  pm_c_close(talk->held);
  free(talk);
}
