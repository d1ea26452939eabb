/* A client types a letter, and an authority in the same program accepts it.
 * build: cc example.c $(pkg-config --cflags --libs gezhufet) */
#include "gezhufet.h"

#include <stdio.h>
#include <stdlib.h>
#include <string.h>

#define SCHEMA \
  "{\"nodes\":[{\"name\":\"doc\",\"content\":\"paragraph+\"},{\"name\":\"paragraph\",\"content\":\"text*\"},{\"name\":\"text\"}]}"
#define LINE(text) text, strlen(text)

/* The answer of so many bytes, with a zero in place of its LF. The caller frees it. */
static char *answer(gezhufet_talk *talk, size_t size) {
  char *text = malloc(size + 1);
  if (!text || !size) exit(1);
  text[gezhufet_answer(talk, text, size) - 1] = 0;
  return text;
}

static char *ask(gezhufet_talk *talk, const char *line) { return answer(talk, gezhufet_tell(talk, line, strlen(line))); }

/* Asks, and writes the answer. */
static void show(gezhufet_talk *talk, const char *line) {
  char *text = ask(talk, line);
  puts(text);
  free(text);
}

int main(void) {
  gezhufet_talk *authority, *ann;
  char *composed, *message, *accepted, taking[256];
  gezhufet_open_authority(LINE(SCHEMA), LINE("null"), &authority);
  gezhufet_open_client(LINE(SCHEMA), LINE("null"), LINE("{\"clientID\":\"ann\"}"), &ann);
  if (!gezhufet_is_open(authority) || !gezhufet_is_open(ann)) return 1;

  show(ann, "{\"op\":\"text\",\"from\":1,\"to\":1,\"text\":\"A\"}");

  /* The answer is {"message":MESSAGE}, and MESSAGE is a line for the authority. Here the two are in one program. */
  composed = ask(ann, "{\"op\":\"compose\"}");
  message = composed + strlen("{\"message\":");
  message[strlen(message) - 1] = 0;
  accepted = ask(authority, message);
  snprintf(taking, sizeof taking, "{\"op\":\"take\",\"answer\":%s}", accepted);
  show(ann, taking);
  show(authority, "{\"op\":\"doc\"}");

  free(accepted);
  free(composed);
  gezhufet_close(ann);
  gezhufet_close(authority);
  return 0;
}
