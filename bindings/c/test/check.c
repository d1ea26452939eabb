/* Tests of the library's calls: each with each bad argument, an answer copied in parts, threads that hand a talk on, and memory
 * refused at each allocation in turn. The last line is `N passed, M failed`.
 * usage: check                        the tests
 *        check play authority|client|house  opens such a talk by the first lines of standard input, of which a house has none, tells it
 *                                           the others, and writes the answers */
#define _GNU_SOURCE
#include "gezhufet.h"

#include <pthread.h>
#include <stdio.h>
#include <stdlib.h>
#include <string.h>

#define SCHEMA \
  "{\"nodes\":[{\"name\":\"doc\",\"content\":\"paragraph+\"},{\"name\":\"paragraph\",\"content\":\"text*\"},{\"name\":\"text\"}]}"
#define DOC "{\"type\":\"doc\",\"content\":[{\"type\":\"paragraph\",\"content\":[{\"type\":\"text\",\"text\":\"ab\"}]}]}"
#define SUBMIT \
  "{\"op\":\"submit\",\"version\":0,\"clientID\":\"ann\"," \
  "\"steps\":[{\"stepType\":\"replace\",\"from\":1,\"to\":1,\"slice\":{\"content\":[{\"type\":\"text\",\"text\":\"x\"}]}}]}"
#define SINCE "{\"op\":\"since\",\"version\":0}"
#define ASK_DOC "{\"op\":\"doc\"}"
#define OPENED "{\"size\":4,\"version\":0}\n"
#define ACCEPTED "{\"accepted\":{\"count\":1,\"from\":0}}\n"
#define EMPTY "{\"clientIDs\":[],\"steps\":[],\"version\":0}\n"
#define ENTRIES_THEN \
  "{\"clientIDs\":[\"ann\"]," \
  "\"steps\":[{\"from\":1,\"slice\":{\"content\":[{\"text\":\"x\",\"type\":\"text\"}]},\"stepType\":\"replace\",\"to\":1}],\"version\":1}"
#define ENTRIES ENTRIES_THEN "\n"
#define DOC_THEN \
  "{\"doc\":{\"content\":[{\"content\":[{\"text\":\"xab\",\"type\":\"text\"}],\"type\":\"paragraph\"}],\"type\":\"doc\"},\"version\":1}\n"
#define NO_MEMORY "{\"fault\":\"memory\"}\n"
#define ANN "{\"clientID\":\"ann\",\"version\":0}"
#define BOB "{\"clientID\":7}"
#define X_AT(from) \
  "{\"from\":" from ",\"slice\":{\"content\":[{\"text\":\"x\",\"type\":\"text\"}]},\"stepType\":\"replace\",\"to\":" from "}"
#define GONE(from, to) "{\"from\":" from ",\"stepType\":\"replace\",\"to\":" to "}"
#define TYPE_AT(at) "{\"op\":\"text\",\"from\":" at ",\"to\":" at ",\"text\":\"x\"}"
#define MADE_AT(at) "{\"made\":1,\"serial\":1,\"steps\":[" X_AT(at) "]}\n"
#define COMPOSE "{\"op\":\"compose\"}"
#define COMPOSED "{\"message\":{\"clientID\":\"ann\",\"op\":\"submit\",\"steps\":[" X_AT("1") "],\"version\":0}}\n"
#define TAKE(answer) "{\"op\":\"take\",\"answer\":" answer "}"
#define CONFIRMED "{\"confirmed\":1,\"version\":1}\n"
#define STALE "{\"stale\":1}\n"
#define REBASED \
  "{\"back\":1,\"confirmed\":0,\"cursors\":[],\"dropped\":[],\"foreign\":1,\"pairs\":[[0,2]]," \
  "\"steps\":[" GONE("3", "4") "," X_AT("1") "," X_AT("4") "],\"version\":1}\n"
#define UNDO "{\"op\":\"undo\"}"
#define UNDONE "{\"made\":1,\"serials\":[2],\"steps\":[" GONE("4", "5") "]}\n"
#define NAME_SCHEMA "{\"op\":\"schema\",\"name\":\"plain\",\"schema\":" SCHEMA "}"
#define NAMED "{\"schema\":\"plain\"}\n"
#define OPEN_OF(schema, doc) "{\"op\":\"open\",\"schema\":\"" schema "\",\"doc\":" doc "}"
#define OPEN OPEN_OF("plain", DOC)
#define LISTED(in) "{\"from\":0,\"in\":\"" in "\",\"schema\":\"plain\",\"size\":5,\"version\":1}"
#define NO_DOCUMENT "{\"none\":\"document\"}\n"
#define ALL 4096

/* ---- allocations, of which one is refused where the program is linked with --wrap for these names */

#ifdef WRAPPED
static long until = -1; /* how many allocations go by before one is refused; none is below 0 */

extern void *__real_malloc(size_t size);
extern void *__real_calloc(size_t count, size_t size);
extern void *__real_realloc(void *old, size_t size);

static bool refused(void) {
  if (until < 0) return false;
  return until-- == 0;
}

void *__wrap_malloc(size_t size) { return refused() ? NULL : __real_malloc(size); }
void *__wrap_calloc(size_t count, size_t size) { return refused() ? NULL : __real_calloc(count, size); }
void *__wrap_realloc(void *old, size_t size) { return refused() ? NULL : __real_realloc(old, size); }
#endif

/* ---- what is compared */

static int passed, failed;

static void expect(const char *name, bool holds) {
  if (holds) {
    passed++;
  } else {
    failed++;
    printf("library: %s\n", name);
  }
}

static bool answers(gezhufet_talk *talk, size_t size, const char *wanted) {
  char text[ALL];
  size_t count = gezhufet_answer(talk, text, sizeof text);
  return count == size && count == strlen(wanted) && !memcmp(text, wanted, count);
}

static bool told(gezhufet_talk *talk, const char *line, const char *wanted) {
  return answers(talk, gezhufet_tell(talk, line, strlen(line)), wanted);
}

/* The same by one call, with room for all, for some and for none of the answer. */
static bool asked(gezhufet_talk *talk, const char *line, const char *wanted) {
  char text[ALL], some[3] = "abc";
  size_t size = strlen(wanted);
  bool all = gezhufet_ask(talk, line, strlen(line), text, sizeof text) == size && !memcmp(text, wanted, size);
  bool first = gezhufet_ask(talk, line, strlen(line), some, 2) == size && !memcmp(some, wanted, 2) && some[2] == 'c';
  return all && first && gezhufet_ask(talk, line, strlen(line), NULL, 0) == size && answers(talk, size, wanted);
}

static gezhufet_talk *opened(void) {
  gezhufet_talk *talk;
  size_t size = gezhufet_open_authority(SCHEMA, strlen(SCHEMA), DOC, strlen(DOC), &talk);
  expect("a schema and a document open a talk", talk && gezhufet_is_open(talk) && answers(talk, size, OPENED));
  return talk;
}

static gezhufet_talk *joined(const char *who) {
  gezhufet_talk *talk;
  size_t size = gezhufet_open_client(SCHEMA, strlen(SCHEMA), DOC, strlen(DOC), who, strlen(who), &talk);
  expect("a schema, a document and an ID open a client", talk && gezhufet_is_open(talk) && answers(talk, size, OPENED));
  return talk;
}

static void lines_have_their_answers(void) {
  gezhufet_talk *talk = opened();
  expect("steps are accepted", told(talk, SUBMIT, ACCEPTED));
  expect("another version is told the length", told(talk, SUBMIT, "{\"version\":1}\n"));
  expect("the log is told", told(talk, SINCE, ENTRIES));
  expect("the document is told", told(talk, ASK_DOC, DOC_THEN));
  expect("a line with an LF is read", told(talk, ASK_DOC "\n", DOC_THEN));
  expect("no JSON is a fault", told(talk, "{", "{\"fault\":5}\n"));
  expect("a line is told and answered in one call", asked(talk, ASK_DOC, DOC_THEN) && asked(talk, "{", "{\"fault\":5}\n"));
  gezhufet_close(talk);
}

/* Hands the message that the client composed to the authority. */
static bool submitted(gezhufet_talk *client, gezhufet_talk *authority, const char *wanted) {
  static const char before[] = "{\"message\":", after[] = "}\n";
  char text[ALL];
  size_t count;
  gezhufet_tell(client, COMPOSE, strlen(COMPOSE));
  count = gezhufet_answer(client, text, sizeof text);
  if (count < sizeof before + sizeof after || memcmp(text, before, sizeof before - 1)) return false;
  return answers(authority, gezhufet_tell(authority, text + sizeof before - 1, count - (sizeof before - 1) - (sizeof after - 1)), wanted);
}

/* What the authority told last, without its LF, as a line that has a client take it. */
static bool taken(gezhufet_talk *client, gezhufet_talk *authority, const char *wanted) {
  char text[ALL], line[ALL + 32];
  size_t count = gezhufet_answer(authority, text, sizeof text);
  int size = snprintf(line, sizeof line, TAKE("%.*s"), (int)(count - 1), text);
  return answers(client, gezhufet_tell(client, line, (size_t)size), wanted);
}

static bool exchanged(gezhufet_talk *client, gezhufet_talk *authority) {
  return submitted(client, authority, ACCEPTED) && taken(client, authority, CONFIRMED);
}

static void two_clients_come_together(void) {
  gezhufet_talk *authority = opened(), *ann = joined(ANN), *bob = joined(BOB);
  expect("ann's edit makes a step", told(ann, TYPE_AT("1"), MADE_AT("1")));
  expect("bob's too", told(bob, TYPE_AT("3"), MADE_AT("3")));
  expect("a client composes what is pending", told(ann, COMPOSE, COMPOSED));
  expect("ann's step is accepted and confirmed", exchanged(ann, authority));
  expect("an answer that is taken twice is stale", taken(ann, authority, STALE));
  expect("bob's version is no longer the log's length", submitted(bob, authority, "{\"version\":1}\n"));
  expect("his step stays pending", taken(bob, authority, "{\"kept\":1}\n"));
  expect("the log is told", told(authority, SINCE, ENTRIES));
  expect("bob's step is carried past ann's", taken(bob, authority, REBASED));
  expect("bob undoes his own", told(bob, UNDO, UNDONE));
  expect("and both hold the document", told(bob, ASK_DOC, DOC_THEN) && told(ann, ASK_DOC, DOC_THEN) && told(authority, ASK_DOC, DOC_THEN));
  expect("a line with a fault changes nothing", told(bob, "{\"op\":\"none\"}", "{\"fault\":7}\n") && told(bob, ASK_DOC, DOC_THEN));
  gezhufet_close(bob);
  gezhufet_close(ann);
  gezhufet_close(authority);
}

/* ---- a house */

/* A line of an authority's as one that names the document. It stands until the next call. */
static const char *in(const char *name, const char *line) {
  static char text[ALL];
  snprintf(text, sizeof text, "{\"in\":\"%s\",%s", name, line + 1);
  return text;
}

static gezhufet_talk *housed(void) {
  gezhufet_talk *house = (gezhufet_talk *)&passed;
  expect("a house is opened by no line", gezhufet_open_house(&house) && gezhufet_is_open(house) && answers(house, 0, ""));
  expect("a schema gets a name", told(house, NAME_SCHEMA, NAMED));
  return house;
}

static void a_house_has_many_documents(void) {
  gezhufet_talk *house = housed();
  expect("documents are opened", told(house, in("a", OPEN), OPENED) && told(house, in("b", OPEN), OPENED));
  expect("one that is open is not opened again", told(house, in("a", OPEN), "{\"none\":\"closed\"}\n"));
  expect("steps of the one are accepted", told(house, in("a", SUBMIT), ACCEPTED));
  expect("the other has its own log", told(house, in("b", SINCE), EMPTY) && told(house, in("a", SINCE), ENTRIES));
  expect("and takes steps too", told(house, in("b", SUBMIT), ACCEPTED) && told(house, in("b", SUBMIT), "{\"version\":1}\n"));
  expect("each document is told", told(house, in("a", ASK_DOC), DOC_THEN) && told(house, in("b", ASK_DOC), DOC_THEN));
  expect("all are listed", told(house, "{\"op\":\"documents\"}", "{\"documents\":[" LISTED("a") "," LISTED("b") "]}\n"));
  expect("one is closed", told(house, in("a", "{\"op\":\"close\"}"), "{\"closed\":\"a\"}\n"));
  expect("and is gone", told(house, in("a", ASK_DOC), NO_DOCUMENT));
  expect("the other stays", told(house, in("b", ASK_DOC), DOC_THEN));
  expect("a closed one is opened anew", told(house, in("a", OPEN), OPENED) && told(house, in("a", SINCE), EMPTY));
  gezhufet_close(house);
}

static void bad_arguments_of_a_house_do_no_harm(void) {
  gezhufet_talk *house;
  expect("no place for the house", !gezhufet_open_house(NULL));
  house = housed();
  expect("a house is told no line", gezhufet_tell(house, NULL, 1) == 0 && answers(house, strlen(NAMED), NAMED));
  expect("a house is told an empty line", answers(house, gezhufet_tell(house, NULL, 0), "{\"fault\":5}\n"));
  expect("a document that is not open", told(house, in("a", ASK_DOC), NO_DOCUMENT));
  expect("a schema that has no name", told(house, in("a", OPEN_OF("other", DOC)), "{\"none\":\"schema\"}\n"));
  expect("a house's document of another type", told(house, in("a", OPEN_OF("plain", "{\"type\":\"paragraph\"}")), "{\"fault\":16}\n"));
  expect("a name of another form", told(house, in("no name", OPEN), "{\"fault\":23}\n"));
  expect("nothing has changed", told(house, "{\"op\":\"documents\"}", "{\"documents\":[]}\n"));
  gezhufet_close(house);
}

static void bad_arguments_do_no_harm(void) {
  gezhufet_talk *talk = (gezhufet_talk *)&passed;
  char text[4] = "abc";
  size_t size;
  expect("no place for the talk", gezhufet_open_authority(SCHEMA, strlen(SCHEMA), DOC, strlen(DOC), NULL) == 0);
  expect("no schema", gezhufet_open_authority(NULL, 1, DOC, strlen(DOC), &talk) == 0 && !talk);
  talk = (gezhufet_talk *)&passed;
  expect("no document", gezhufet_open_authority(SCHEMA, strlen(SCHEMA), NULL, 1, &talk) == 0 && !talk);
  size = gezhufet_open_authority(NULL, 0, DOC, strlen(DOC), &talk);
  expect("an empty schema", talk && !gezhufet_is_open(talk) && answers(talk, size, "{\"fault\":5,\"line\":1}\n"));
  expect("a talk that is not open is told nothing", gezhufet_tell(talk, ASK_DOC, strlen(ASK_DOC)) == 0);
  expect("its answer stays", answers(talk, size, "{\"fault\":5,\"line\":1}\n"));
  gezhufet_close(talk);
  size = gezhufet_open_authority(SCHEMA, strlen(SCHEMA), "{\"type\":\"paragraph\"}", 20, &talk);
  expect("a document of another type", talk && !gezhufet_is_open(talk) && answers(talk, size, "{\"fault\":16,\"line\":2}\n"));
  gezhufet_close(talk);
  size = gezhufet_open_authority(SCHEMA, strlen(SCHEMA), NULL, 0, &talk);
  expect("an empty document", talk && !gezhufet_is_open(talk) && answers(talk, size, "{\"fault\":5,\"line\":2}\n"));
  gezhufet_close(talk);

  talk = opened();
  expect("no talk is told", gezhufet_tell(NULL, ASK_DOC, strlen(ASK_DOC)) == 0);
  expect("no line is told", gezhufet_tell(talk, NULL, 1) == 0);
  expect("the answer stays", answers(talk, strlen(OPENED), OPENED));
  expect("no talk is asked", gezhufet_ask(NULL, ASK_DOC, strlen(ASK_DOC), text, sizeof text) == 0 && !memcmp(text, "abc", 4));
  expect("nothing is asked", gezhufet_ask(talk, NULL, 1, text, sizeof text) == 0 && !memcmp(text, "abc", 4));
  expect("the answer stays again", answers(talk, strlen(OPENED), OPENED));
  expect("no talk answers", gezhufet_answer(NULL, text, sizeof text) == 0);
  expect("no buffer", gezhufet_answer(talk, NULL, 4) == 0);
  expect("no room", gezhufet_answer(talk, text, 0) == 0 && !memcmp(text, "abc", 4));
  expect("some room", gezhufet_answer(talk, text, 2) == 2 && !memcmp(text, "{\"c", 4));
  expect("an empty line", answers(talk, gezhufet_tell(talk, NULL, 0), "{\"fault\":5}\n"));
  expect("no talk is open", !gezhufet_is_open(NULL));
  gezhufet_close(talk);
  gezhufet_close(NULL);
}

/* Opening a client by these lines gives this fault. */
static bool faulty(const char *schema, const char *document, const char *who, const char *wanted) {
  gezhufet_talk *talk;
  size_t size = gezhufet_open_client(schema, strlen(schema), document, strlen(document), who, strlen(who), &talk);
  bool well = talk && !gezhufet_is_open(talk) && answers(talk, size, wanted) && gezhufet_tell(talk, COMPOSE, strlen(COMPOSE)) == 0 &&
              answers(talk, size, wanted);
  gezhufet_close(talk);
  return well;
}

static void bad_arguments_of_a_client_do_no_harm(void) {
  gezhufet_talk *talk = (gezhufet_talk *)&passed;
  size_t schema = strlen(SCHEMA), doc = strlen(DOC), ann = strlen(ANN), size;
  expect("no place for the client", gezhufet_open_client(SCHEMA, schema, DOC, doc, ANN, ann, NULL) == 0);
  expect("no schema for a client", gezhufet_open_client(NULL, 1, DOC, doc, ANN, ann, &talk) == 0 && !talk);
  talk = (gezhufet_talk *)&passed;
  expect("no document for a client", gezhufet_open_client(SCHEMA, schema, NULL, 1, ANN, ann, &talk) == 0 && !talk);
  talk = (gezhufet_talk *)&passed;
  expect("no client", gezhufet_open_client(SCHEMA, schema, DOC, doc, NULL, 1, &talk) == 0 && !talk);
  size = gezhufet_open_client(SCHEMA, schema, DOC, doc, NULL, 0, &talk);
  expect("an empty client", talk && !gezhufet_is_open(talk) && answers(talk, size, "{\"fault\":5,\"line\":3}\n"));
  gezhufet_close(talk);
  expect("an empty schema of a client", faulty("", DOC, ANN, "{\"fault\":5,\"line\":1}\n"));
  expect("a client's document of another type", faulty(SCHEMA, "{\"type\":\"paragraph\"}", ANN, "{\"fault\":16,\"line\":2}\n"));
  expect("an empty document of a client", faulty(SCHEMA, "", ANN, "{\"fault\":5,\"line\":2}\n"));
  expect("a client without an ID", faulty(SCHEMA, DOC, "{\"version\":0}", "{\"fault\":6,\"line\":3}\n"));
  expect("an ID of another kind", faulty(SCHEMA, DOC, "{\"clientID\":1.5}", "{\"fault\":6,\"line\":3}\n"));
  expect("a version of another kind", faulty(SCHEMA, DOC, "{\"clientID\":1,\"version\":-1}", "{\"fault\":6,\"line\":3}\n"));
  talk = joined(ANN);
  expect("a client is told no line", gezhufet_tell(talk, NULL, 1) == 0 && answers(talk, strlen(OPENED), OPENED));
  expect("a client is told an empty line", answers(talk, gezhufet_tell(talk, NULL, 0), "{\"fault\":5}\n"));
  gezhufet_close(talk);
}

static void room_past_the_answer_is_unchanged(void) {
  gezhufet_talk *talk = opened();
  char text[ALL], untouched[ALL];
  size_t count;
  memset(text, 7, sizeof text);
  memset(untouched, 7, sizeof untouched);
  count = gezhufet_answer(talk, text, sizeof text);
  expect("bytes past the answer stay", count == strlen(OPENED) && !memcmp(text + count, untouched, sizeof text - count));
  gezhufet_close(talk);
}

static void long_lines_are_a_fault(void) {
  size_t most = 1048576;
  char *line = malloc(most + 1);
  gezhufet_talk *talk = opened();
  memset(line, ' ', most + 1);
  memcpy(line, SINCE, strlen(SINCE));
  expect("a line as long as may be", answers(talk, gezhufet_tell(talk, line, most), EMPTY));
  expect("a line that is longer by a byte", answers(talk, gezhufet_tell(talk, line, most + 1), "{\"fault\":3}\n"));
  gezhufet_close(talk);
  free(line);
}

/* ---- threads */

static void *submits(void *talk) { return told(talk, SUBMIT, ACCEPTED) ? talk : NULL; }

static void *edits(void *talk) { return told(talk, TYPE_AT("1"), MADE_AT("1")) ? talk : NULL; }

static void *opens(void *house) { return told(house, in("a", OPEN), OPENED) ? house : NULL; }

static void *plays(void *nothing) {
  gezhufet_talk *talk, *client;
  bool all = true;
  (void)nothing;
  for (int i = 0; i < 100; i++) {
    gezhufet_open_authority(SCHEMA, strlen(SCHEMA), DOC, strlen(DOC), &talk);
    gezhufet_open_client(SCHEMA, strlen(SCHEMA), DOC, strlen(DOC), ANN, strlen(ANN), &client);
    all = talk && client && edits(client) && exchanged(client, talk) && all;
    all = told(talk, ASK_DOC, DOC_THEN) && told(client, ASK_DOC, DOC_THEN) && all;
    gezhufet_close(talk);
    gezhufet_close(client);
  }
  return all ? &passed : NULL;
}

static void threads_hand_a_talk_on(void) {
  gezhufet_talk *talk = opened(), *client = joined(ANN), *house = housed();
  pthread_t other, more[4];
  void *got;
  if (pthread_create(&other, NULL, submits, talk)) exit(2);
  pthread_join(other, &got);
  expect("another thread goes on with a talk", got && told(talk, ASK_DOC, DOC_THEN));
  if (pthread_create(&other, NULL, edits, client)) exit(2);
  pthread_join(other, &got);
  expect("another thread goes on with a client", got && told(client, COMPOSE, COMPOSED));
  if (pthread_create(&other, NULL, opens, house)) exit(2);
  pthread_join(other, &got);
  expect("another thread goes on with a house", got && told(house, in("a", SUBMIT), ACCEPTED));
  gezhufet_close(house);
  gezhufet_close(client);
  gezhufet_close(talk);
  for (int i = 0; i < 4; i++)
    if (pthread_create(&more[i], NULL, plays, NULL)) exit(2);
  for (int i = 0; i < 4; i++) {
    pthread_join(more[i], &got);
    expect("talks in several threads", got);
  }
}

/* ---- memory */

#ifdef WRAPPED
/* Tells the line with the n-th allocation refused, for each n, until none is; then it has its answer. */
static void refuse_each(gezhufet_talk *talk, const char *line, const char *wanted, const char *name) {
  for (long n = 0; n < 100000; n++) {
    size_t size;
    bool whole;
    until = n;
    size = gezhufet_tell(talk, line, strlen(line));
    whole = until >= 0;
    until = -1;
    if (whole) {
      expect(name, n > 0 && answers(talk, size, wanted));
      return;
    }
    /* Memory that was refused to something that could do without changes nothing. */
    if (answers(talk, size, wanted)) return expect(name, true);
    if (!answers(talk, size, NO_MEMORY)) return expect(name, false);
  }
  expect(name, false);
}

/* Opens a talk with the n-th allocation refused, for each n, until none is. With no line it is an authority's. */
static gezhufet_talk *opened_amid_refusals(const char *who) {
  gezhufet_talk *talk;
  for (long n = 0;; n++) {
    size_t size;
    bool whole;
    until = n;
    size = who ? gezhufet_open_client(SCHEMA, strlen(SCHEMA), DOC, strlen(DOC), who, strlen(who), &talk)
               : gezhufet_open_authority(SCHEMA, strlen(SCHEMA), DOC, strlen(DOC), &talk);
    whole = until >= 0;
    until = -1;
    if (whole) break;
    if (talk && !gezhufet_is_open(talk) && !answers(talk, size, NO_MEMORY)) expect("an opening without memory", false);
    gezhufet_close(talk);
  }
  expect("a talk is opened once there is memory", talk && gezhufet_is_open(talk));
  return talk;
}

static gezhufet_talk *housed_amid_refusals(void) {
  gezhufet_talk *house;
  for (long n = 0;; n++) {
    bool given, whole;
    until = n;
    given = gezhufet_open_house(&house);
    whole = until >= 0;
    until = -1;
    if (whole) break;
    if (given || house) expect("a house without memory", false);
    gezhufet_close(house);
  }
  expect("a house is opened once there is memory", house && gezhufet_is_open(house));
  return house;
}

static void refused_memory_changes_no_house(void) {
  gezhufet_talk *house = housed_amid_refusals();
  refuse_each(house, NAME_SCHEMA, NAMED, "a schema's name, with memory refused");
  refuse_each(house, in("a", OPEN), OPENED, "a document of a house, with memory refused");
  refuse_each(house, in("a", SUBMIT), ACCEPTED, "its steps, with memory refused");
  refuse_each(house, in("a", SINCE), ENTRIES, "its log, with memory refused");
  refuse_each(house, in("a", ASK_DOC), DOC_THEN, "the document then, with memory refused");
  refuse_each(house, in("a", "{\"op\":\"close\"}"), "{\"closed\":\"a\"}\n", "its end, with memory refused");
  gezhufet_close(house);
}

static void refused_memory_changes_nothing(void) {
  gezhufet_talk *talk = opened_amid_refusals(NULL), *ann = opened_amid_refusals(ANN), *bob = opened_amid_refusals(BOB);
  refuse_each(talk, SINCE, EMPTY, "the log, with memory refused");
  refuse_each(ann, TYPE_AT("1"), MADE_AT("1"), "an edit, with memory refused");
  refuse_each(ann, COMPOSE, COMPOSED, "a message, with memory refused");
  refuse_each(talk, SUBMIT, ACCEPTED, "a submission, with memory refused");
  refuse_each(ann, TAKE("{\"accepted\":{\"count\":1,\"from\":0}}"), CONFIRMED, "a confirmation, with memory refused");
  refuse_each(talk, SINCE, ENTRIES, "its entries, with memory refused");
  refuse_each(bob, TYPE_AT("3"), MADE_AT("3"), "another's edit, with memory refused");
  refuse_each(bob, TAKE(ENTRIES_THEN), REBASED, "a step carried past others', with memory refused");
  refuse_each(bob, UNDO, UNDONE, "an undo, with memory refused");
  refuse_each(talk, ASK_DOC, DOC_THEN, "the document, with memory refused");
  refuse_each(ann, ASK_DOC, DOC_THEN, "a client's document, with memory refused");
  refuse_each(bob, ASK_DOC, DOC_THEN, "another client's document, with memory refused");
  gezhufet_close(bob);
  gezhufet_close(ann);
  gezhufet_close(talk);
}
#endif

/* ---- play */

static void write_answer(gezhufet_talk *talk, size_t size) {
  char *text = malloc(size ? size : 1);
  if (!text) exit(2);
  fwrite(text, 1, gezhufet_answer(talk, text, size), stdout);
  free(text);
}

/* `first` is the number of lines that open the talk. */
static int play(size_t first) {
  char *opening[3] = {NULL}, *line = NULL;
  size_t sizes[3] = {0}, rooms[3] = {0}, room = 0, told_size = 0;
  ssize_t size;
  gezhufet_talk *talk;
  /* A line that is missing is an empty one: the library has no end of input. */
  for (size_t at = 0; at < first && (size = getline(&opening[at], &rooms[at], stdin)) > 0; at++)
    sizes[at] = (size_t)size - (opening[at][size - 1] == '\n');
  if (first == 0) gezhufet_open_house(&talk);
  else if (first == 2) told_size = gezhufet_open_authority(opening[0], sizes[0], opening[1], sizes[1], &talk);
  else told_size = gezhufet_open_client(opening[0], sizes[0], opening[1], sizes[1], opening[2], sizes[2], &talk);
  write_answer(talk, told_size);
  while (gezhufet_is_open(talk) && (size = getline(&line, &room, stdin)) > 0)
    write_answer(talk, gezhufet_tell(talk, line, (size_t)size - (line[size - 1] == '\n')));
  gezhufet_close(talk);
  for (size_t at = 0; at < first; at++) free(opening[at]);
  free(line);
  return 0;
}

int main(int count, char **words) {
  if (count == 3 && !strcmp(words[1], "play")) return play(!strcmp(words[2], "house") ? 0 : !strcmp(words[2], "client") ? 3 : 2);
  expect("the header's version", gezhufet_version() == GEZHUFET_VERSION);
  lines_have_their_answers();
  two_clients_come_together();
  a_house_has_many_documents();
  bad_arguments_do_no_harm();
  bad_arguments_of_a_client_do_no_harm();
  bad_arguments_of_a_house_do_no_harm();
  room_past_the_answer_is_unchanged();
  long_lines_are_a_fault();
  threads_hand_a_talk_on();
#ifdef WRAPPED
  refused_memory_changes_nothing();
  refused_memory_changes_no_house();
#endif
  printf("%d passed, %d failed\n", passed, failed);
  return failed > 0;
}
