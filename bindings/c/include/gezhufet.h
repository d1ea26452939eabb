/* The document engine of ProseMirror as a library: a line in, an answer out. There are three kinds of talks, and all calls but those
 * that open them are the same for each.
 *
 * An authority is a document with the log of its steps. It is opened by two lines of JSON, a schema and a document, and each later
 * line asks it something: to append steps, for the log, or for the document. The lines and their answers are those of the
 * live authority (docs: the live authority).
 *
 * A client is the document of one editor, whose authority is elsewhere: in this process, or behind a server. It is opened by three
 * lines, a schema, a document, and who it is. Each later line edits its document, undoes or makes again, sets a cursor, composes a
 * message for the authority, takes an authority's answer, or asks how the client stands (docs: the client's talk). The caller
 * carries the messages and the answers.
 *
 * A house is an authority of many documents, for a server. It awaits no lines: the first one is answered like any other. Lines give
 * schemas names, open documents of them and close these again; each other line asks something of one document, which it names, or of
 * all (docs: a house of many documents). The answers to the lines of one document are those of that document alone.
 *
 * Who owns what. A talk owns its memory until gezhufet_close. Lines and buffers are the caller's: no call keeps a pointer to
 * them. An answer stays with its talk until the next line is told, and the caller copies it.
 *
 * Threads. Each talk is used by one call at a time, and calls from several threads need a lock, or another order, between
 * them; so of a house all documents wait for one another. Two talks have nothing in common and may be used at once.
 *
 * Memory comes from malloc. A line for which there was none is answered {"fault":"memory"} and changes nothing; the same line
 * may be told again.
 */
#ifndef GEZHUFET_H
#define GEZHUFET_H

#include <stdbool.h>
#include <stddef.h>

#ifdef __cplusplus
extern "C" {
#endif

/* The version of this header: 10,000 times the major number, 100 times the minor one, and the patch. */
#define GEZHUFET_VERSION 100

typedef struct gezhufet_talk gezhufet_talk;

/* The version of the library that runs, counted as GEZHUFET_VERSION is. */
unsigned gezhufet_version(void);

/* Opens an authority's talk by its two lines, of which the second may be `null` for the schema's top type filled. The lines are
 * UTF-8 and have no zero at their end; an LF at the end of one does no harm.
 *
 * Gives the number of bytes of the answer, which gezhufet_answer copies: {"size":N,"version":0} where the talk is open, and
 * {"fault":CODE,"line":1 or 2} or {"fault":"memory"} where it is not. gezhufet_is_open tells which. `*talk` is the talk in both
 * cases, and has to be closed.
 *
 * Gives 0, and sets `*talk` to NULL, where there is no memory for a talk, or a line is NULL and not empty. Where `talk` is NULL
 * it does nothing and gives 0. */
size_t gezhufet_open_authority(const char *schema, size_t schema_size, const char *document, size_t document_size,
                               gezhufet_talk **talk);

/* Opens a client's talk by its three lines: a schema; a document, or `null` for the schema's top type filled; and
 * {"clientID":ID,"version":V}. ID is a text or a whole number, and V says that the document is the one after the first V steps of
 * the authority's log; 0 where it is absent. That it is so is the caller's to see to. No two clients of an authority may have one ID,
 * and a client that is opened anew takes a new one: steps of the log that have the client's ID confirm its pending steps.
 *
 * Gives the number of bytes of the answer, which gezhufet_answer copies: {"size":N,"version":V} where the talk is open, N the number
 * of tokens in the document's content, and {"fault":CODE,"line":1, 2 or 3} or {"fault":"memory"} where it is not. gezhufet_is_open
 * tells which. `*talk` is the talk in both cases, and has to be closed.
 *
 * Gives 0, and sets `*talk` to NULL, where there is no memory for a talk, or a line is NULL and not empty. Where `talk` is NULL
 * it does nothing and gives 0. */
size_t gezhufet_open_client(const char *schema, size_t schema_size, const char *document, size_t document_size, const char *client,
                            size_t client_size, gezhufet_talk **talk);

/* Opens a house, which has no schemas and no documents yet, and gives true. `*talk` is the house, which has to be closed. It is open
 * from the first, and its answer is empty until it is told a line.
 *
 * Gives false, and sets `*talk` to NULL, where there is no memory for a talk. Where `talk` is NULL it does nothing and gives false. */
bool gezhufet_open_house(gezhufet_talk **talk);

/* Whether the talk was opened, so that lines are answered. False for NULL. */
bool gezhufet_is_open(gezhufet_talk *talk);

/* Tells the talk a line, without its LF, and gives the number of bytes of the answer: a line of compact JSON with an LF at its
 * end, in UTF-8. A line of more than 1,048,576 bytes is answered {"fault":3}.
 *
 * Gives 0, and leaves the last answer as it was, where `talk` is NULL or is not open, or `line` is NULL and not empty. */
size_t gezhufet_tell(gezhufet_talk *talk, const char *line, size_t size);

/* Copies the last answer's first bytes into the buffer, at most `room`, and gives how many they are. Bytes of the buffer past them
 * are unchanged, and no zero is put at the end. The answer stays, so it may be copied again into a larger buffer.
 *
 * Gives 0 where `talk` or `buffer` is NULL. */
size_t gezhufet_answer(gezhufet_talk *talk, char *buffer, size_t room);

/* Both in one call: tells the talk a line, and copies the answer's first bytes into the buffer, at most `room`. Gives the number of bytes
 * of the answer. Where they are more than `room`, gezhufet_answer copies all of them into a larger buffer.
 *
 * Gives 0, and leaves the last answer and the buffer as they were, where gezhufet_tell gives 0. Where `buffer` is NULL nothing is
 * copied. */
size_t gezhufet_ask(gezhufet_talk *talk, const char *line, size_t size, char *buffer, size_t room);

/* Lets the talk and its memory go. The pointer must not be used again. Does nothing for NULL. */
void gezhufet_close(gezhufet_talk *talk);

#ifdef __cplusplus
}
#endif

#endif
