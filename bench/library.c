/* Times the answer to a letter that one editor submits: by the library in this process, or by the live authority over pipes. The editor
 * types ten letters and takes them back, in the middle of a document of paragraphs of 200 tokens. Writes the microseconds of an
 * answer, those of the processor for both ends, and the document at the end.
 * usage: library inside|PROGRAM TOKENS WARM LETTERS       PROGRAM is the live authority's; WARM letters are not timed */
#define _GNU_SOURCE
#include "gezhufet.h"

#include <stdio.h>
#include <stdlib.h>
#include <string.h>
#include <time.h>
#include <unistd.h>

enum { PARAGRAPH = 200, LETTERS = PARAGRAPH - 2, IN_A_ROW = 10, AROUND = 64, LINE = 512 };
#define SCHEMA \
  "{\"nodes\":[{\"name\":\"doc\",\"content\":\"paragraph+\"},{\"name\":\"paragraph\",\"content\":\"text*\"},{\"name\":\"text\"}]," \
  "\"version\":2}"

static gezhufet_talk *talk;
static FILE *to;
static int from;
/* The processor's time of the authority's process. */
static clockid_t busy;
/* The tokens of the document, and the room for its line. */
static unsigned tokens;
static size_t room;
static char *answer;

static void fail(const char *what) {
  fprintf(stderr, "library: %s\n", what);
  exit(1);
}

/* The answer to a line, whose last byte is an LF. */
static size_t ask(const char *line, size_t size) {
  size_t count = 0;
  if (talk) {
    return gezhufet_ask(talk, line, size - 1, answer, room);
  }
  fwrite(line, 1, size, to);
  fflush(to);
  do {
    ssize_t more = read(from, answer + count, room - count);
    if (more < 1) fail("the authority gives no answer");
    count += (size_t)more;
  } while (answer[count - 1] != '\n');
  return count;
}

static void begin(const char *program, const char *doc) {
  int down[2], up[2];
  pid_t child;
  if (!strcmp(program, "inside")) {
    gezhufet_open_authority(SCHEMA, strlen(SCHEMA), doc, strlen(doc), &talk);
    if (!gezhufet_is_open(talk)) fail("no talk is opened");
    return;
  }
  if (pipe(down) || pipe(up)) fail("there are no pipes");
  child = fork();
  if (child < 0) fail("there is no process");
  if (!child) {
    dup2(down[0], 0);
    dup2(up[1], 1);
    close(down[1]);
    close(up[0]);
    execl(program, program, NULL);
    _exit(127);
  }
  close(down[0]);
  close(up[1]);
  to = fdopen(down[1], "w");
  from = up[0];
  fprintf(to, "%s\n", SCHEMA);
  ask(doc, strlen(doc));
  if (clock_getcpuclockid(child, &busy)) fail("the process has no clock");
}

static double micros(clockid_t clock) {
  struct timespec now;
  clock_gettime(clock, &now);
  return (double)now.tv_sec * 1e6 + (double)now.tv_nsec / 1e3;
}

static double worked(void) { return micros(CLOCK_PROCESS_CPUTIME_ID) + (talk ? 0 : micros(busy)); }

/* The letter of this number is typed, or the last one of ten is taken back. */
static void submit(unsigned number) {
  char line[LINE];
  unsigned within = number % (2 * IN_A_ROW), typed = within < IN_A_ROW;
  unsigned at = tokens / 2 + 101 + (typed ? within : 2 * IN_A_ROW - 1 - within);
  const char *slice = typed ? "\"slice\":{\"content\":[{\"type\":\"text\",\"text\":\"x\"}]}," : "";
  int size = snprintf(line, sizeof line,
                      "{\"clientID\":0,\"op\":\"submit\",\"steps\":[{\"stepType\":\"replace\",%s\"from\":%u,\"to\":%u}],\"version\":%u}\n",
                      slice, at, at + !typed, number);
  if (ask(line, (size_t)size) < 10 || memcmp(answer, "{\"accepted", 10)) fail("a letter is not accepted");
}

static char *document(void) {
  char *doc = malloc(room), *end = doc + sprintf(doc, "{\"type\":\"doc\",\"content\":[");
  for (unsigned at = 0; at < tokens / PARAGRAPH; at++) {
    end += sprintf(end, "%s{\"type\":\"paragraph\",\"content\":[{\"type\":\"text\",\"text\":\"", at ? "," : "");
    for (int it = 0; it < LETTERS; it++) *end++ = "abcdefghi "[it % 10];
    end += sprintf(end, "\"}]}");
  }
  sprintf(end, "]}\n");
  return doc;
}

int main(int count, char **words) {
  double start, work;
  char *doc;
  unsigned warm, letters, number = 0;
  if (count != 5) return 2;
  tokens = (unsigned)atoi(words[2]);
  warm = (unsigned)atoi(words[3]);
  letters = (unsigned)atoi(words[4]);
  room = LINE + tokens / PARAGRAPH * (PARAGRAPH + AROUND);
  answer = malloc(room);
  doc = document();
  begin(words[1], doc);
  while (number < warm) submit(number++);
  start = micros(CLOCK_MONOTONIC);
  work = worked();
  while (number < warm + letters) submit(number++);
  printf("%.3f %.3f\n", (micros(CLOCK_MONOTONIC) - start) / letters, (worked() - work) / letters);
  fwrite(answer, 1, ask("{\"op\":\"doc\"}\n", 13), stdout);
  gezhufet_close(talk);
  free(doc);
  free(answer);
  return 0;
}
