// The engine as a node addon: the talks of the C library (bindings/c), by node's interface for C. It has `open`, which gives an
// authority's talk of two lines and the answer to both; `openClient`, a client's of three; `openHouse`, which gives a house; `tell`,
// which gives the answer to a line, without LF; and `close`. Each gives null where there is no memory. A talk that nothing holds any
// more is closed too. src/addon.js alone calls it. Nothing proves this file.

#define NAPI_VERSION 8
#include <node_api.h>
#include <stdbool.h>
#include <stdlib.h>

#include "gezhufet.h"

// The bytes of a line that the engine reads, its LF not counted. Of a longer one, which has a fault, one byte more is told.
enum { LINE_LIMIT = 1048576 };
// A line, or an answer, of fewer bytes takes no memory: it lies on the stack. A character has four bytes at most.
enum { FEW = 4096, CHARACTER = 4 };

// What JavaScript holds: the library's talk, or NULL where it was closed.
typedef struct {
  gezhufet_talk *talk;
} Held;

static napi_value failed(napi_env env, const char *what) {
  napi_throw_error(env, NULL, what);
  return NULL;
}

static napi_value null(napi_env env) {
  napi_value value = NULL;
  napi_get_null(env, &value);
  return value;
}

static void let_go(napi_env env, void *data, void *hint) {
  Held *held = data;
  (void)env;
  (void)hint;
  gezhufet_close(held->talk);
  free(held);
}

// The arguments of a call, of which the first is a talk that was not closed; NULL and an exception where it is none.
static Held *held_of(napi_env env, napi_callback_info info, size_t count, napi_value *arguments) {
  size_t given = count;
  napi_valuetype type;
  Held *held;
  if (napi_get_cb_info(env, info, &given, arguments, NULL, NULL) == napi_ok && given >= count &&
      napi_typeof(env, arguments[0], &type) == napi_ok && type == napi_external &&
      napi_get_value_external(env, arguments[0], (void **)&held) == napi_ok && held->talk)
    return held;
  failed(env, "gezhufet: no open talk");
  return NULL;
}

// An answer as a text without its LF. One of ASCII alone, as most are, is taken as it is.
static napi_value text_of(napi_env env, const char *bytes, size_t length) {
  napi_value text = NULL;
  unsigned char all = 0;
  if (length > 0 && bytes[length - 1] == '\n') length--;
  for (size_t i = 0; i < length; i++) all |= (unsigned char)bytes[i];
  napi_status status = (all < 0x80 ? napi_create_string_latin1 : napi_create_string_utf8)(env, bytes, length, &text);
  return status == napi_ok ? text : failed(env, "gezhufet: the answer is too long for a text");
}

// The answer that the talk keeps, or null where there is no memory for it. A short one, which may tell of a change, takes none.
static napi_value answer_of(napi_env env, gezhufet_talk *talk, size_t length) {
  char few[FEW], *bytes = length <= sizeof few ? few : malloc(length);
  if (!bytes) return null(env);
  napi_value text = text_of(env, bytes, gezhufet_answer(talk, bytes, length));
  if (bytes != few) free(bytes);
  return text;
}

// The bytes of a line and how many they are; NULL where it is no text, or there is no memory. A text may be cut within a character, so a
// line that is too long is told by its length alone.
static char *line_of(napi_env env, napi_value text, size_t *bytes) {
  if (napi_get_value_string_utf8(env, text, NULL, 0, bytes) != napi_ok) return NULL;
  if (*bytes > LINE_LIMIT) *bytes = LINE_LIMIT + 1;
  char *line = calloc(*bytes + 1, 1);
  if (line) napi_get_value_string_utf8(env, text, line, *bytes + 1, NULL);
  return line;
}

// A talk as JavaScript holds it, or NULL where there is no memory for that; then it is closed.
static napi_value value_of(napi_env env, gezhufet_talk *talk) {
  Held *held = malloc(sizeof *held);
  napi_value value;
  if (!held) {
    gezhufet_close(talk);
    return NULL;
  }
  held->talk = talk;
  if (napi_create_external(env, held, let_go, NULL, &value) == napi_ok) return value;
  let_go(env, held, NULL);
  return NULL;
}

// A talk and its first answer, as a list of two.
static napi_value opened(napi_env env, gezhufet_talk *talk, size_t length) {
  napi_value pair, value = value_of(env, talk);
  if (!value) return null(env);
  if (napi_create_array_with_length(env, 2, &pair) != napi_ok || napi_set_element(env, pair, 0, value) != napi_ok ||
      napi_set_element(env, pair, 1, answer_of(env, talk, length)) != napi_ok)
    return failed(env, "gezhufet: no list");
  return pair;
}

// A talk of so many lines, an authority's of two or a client's of three.
static napi_value open_by(napi_env env, napi_callback_info info, size_t needed) {
  size_t count = needed, length = 0, sizes[3] = {0};
  napi_value arguments[3];
  char *lines[3] = {NULL};
  gezhufet_talk *talk = NULL;
  if (napi_get_cb_info(env, info, &count, arguments, NULL, NULL) != napi_ok || count < needed)
    return failed(env, "gezhufet: too few lines");
  bool all = true;
  for (size_t i = 0; i < needed; i++) all = (lines[i] = line_of(env, arguments[i], &sizes[i])) && all;
  if (all && needed == 2) length = gezhufet_open_authority(lines[0], sizes[0], lines[1], sizes[1], &talk);
  if (all && needed == 3) length = gezhufet_open_client(lines[0], sizes[0], lines[1], sizes[1], lines[2], sizes[2], &talk);
  for (size_t i = 0; i < needed; i++) free(lines[i]);
  return talk ? opened(env, talk, length) : null(env);
}

static napi_value open_talk(napi_env env, napi_callback_info info) { return open_by(env, info, 2); }

static napi_value open_client(napi_env env, napi_callback_info info) { return open_by(env, info, 3); }

static napi_value open_house(napi_env env, napi_callback_info info) {
  gezhufet_talk *house;
  (void)info;
  napi_value value = gezhufet_open_house(&house) ? value_of(env, house) : NULL;
  return value ? value : null(env);
}

// The answer to a line that may be long.
static napi_value tell_long(napi_env env, gezhufet_talk *talk, napi_value text) {
  size_t bytes;
  char *line = line_of(env, text, &bytes);
  if (!line) return null(env);
  size_t length = gezhufet_tell(talk, line, bytes);
  free(line);
  return answer_of(env, talk, length);
}

static napi_value tell(napi_env env, napi_callback_info info) {
  napi_value arguments[2];
  Held *held = held_of(env, info, 2, arguments);
  char line[FEW], answer[FEW];
  size_t bytes;
  if (!held) return NULL;
  // One that fills the room may have been cut.
  if (napi_get_value_string_utf8(env, arguments[1], line, sizeof line, &bytes) != napi_ok || bytes >= sizeof line - CHARACTER)
    return tell_long(env, held->talk, arguments[1]);
  size_t length = gezhufet_ask(held->talk, line, bytes, answer, sizeof answer);
  return length <= sizeof answer ? text_of(env, answer, length) : answer_of(env, held->talk, length);
}

static napi_value close_talk(napi_env env, napi_callback_info info) {
  napi_value argument;
  Held *held = held_of(env, info, 1, &argument);
  if (held) {
    gezhufet_close(held->talk);
    held->talk = NULL;
  }
  return NULL;
}

NAPI_MODULE_INIT() {
  napi_property_descriptor calls[] = {
    {"open", NULL, open_talk, NULL, NULL, NULL, napi_enumerable, NULL},
    {"openClient", NULL, open_client, NULL, NULL, NULL, napi_enumerable, NULL},
    {"openHouse", NULL, open_house, NULL, NULL, NULL, napi_enumerable, NULL},
    {"tell", NULL, tell, NULL, NULL, NULL, napi_enumerable, NULL},
    {"close", NULL, close_talk, NULL, NULL, NULL, napi_enumerable, NULL},
  };
  if (napi_define_properties(env, exports, sizeof calls / sizeof *calls, calls) != napi_ok) return failed(env, "gezhufet: no exports");
  return exports;
}
