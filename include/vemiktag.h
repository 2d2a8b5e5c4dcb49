/* Vemiktag for C.
 *
 * Link libvemiktag_c.a and, for memory, the kit's c/liblibc_c.a, which calls malloc, realloc and free of your program:
 * docs/CALLING.md. There is nothing to initialise, and no state between calls but what you hold.
 *
 * What you owe, and nothing checks:
 * - no null pointer, also where no bytes are at it;
 * - what a call writes to overlaps nothing else that it is given;
 * - a session or a client begins as zeroed memory, which is a closed one; you change no field of it, and use no copy of it once the
 *   other was used: move it, and forget where it was;
 * - one call at a time uses a session or a client, from the thread that opened it; others may be used meanwhile;
 * - malloc and realloc align blocks as the C standard asks; no call comes from a signal handler, nor from the forked child of a
 *   process with threads.
 */
#ifndef VEMIKTAG_H
#define VEMIKTAG_H

#include <stdbool.h>
#include <stddef.h>
#include <stdint.h>

#ifdef __cplusplus
extern "C" {
#endif

/* What a call answers. */
enum {
    VEMIKTAG_DONE = 0,          /* done; nothing was refused, no sub-operation skipped */
    VEMIKTAG_SOME_REFUSED = 1,  /* a line was refused, or a sub-operation skipped; of a client: the call was refused */
    VEMIKTAG_UNTOLD = 2,        /* of a client: the call was refused, and there was no memory for the line that tells why */
    VEMIKTAG_TOO_SMALL = 4,     /* there are more bytes to write than there is room for */
    VEMIKTAG_OUT_OF_MEMORY = 5, /* there was no memory */
    VEMIKTAG_TOO_LONG = 6,      /* the input has more than 16,777,216 bytes, or the session has heard more lines, or a client is full */
    VEMIKTAG_CLOSED = 7,        /* the session or the client isn't open, or takes nothing more */
    VEMIKTAG_NOTHING = 8        /* a client has nothing to send, or nobody is told of its changes */
};

/* What the library is, and what was proved of it: a line. libvemiktag.so has it, and so has the libvemiktag_c.a of a release; that of
 * `rt lib` alone has not. */
extern const char vemiktag_version[];

/* Puts the report of a session, whose events are the lines of the input, into the first bytes of `report`, which has
 * `room` bytes, and into `count` how many bytes it has: what `vemiktag session` writes for that input.
 *
 * VEMIKTAG_TOO_SMALL: nothing is written to `report`, and `count` is how many bytes it takes; call again with as many.
 * VEMIKTAG_OUT_OF_MEMORY, VEMIKTAG_TOO_LONG: nothing is written to `report`, and `count` is 0. */
uint32_t vemiktag_report(const uint8_t *input, size_t length, uint8_t *report, size_t room, size_t *count);

/* A session that you hold, whose events come one after another. Change no field of it. */
typedef struct {
    void *at;
    bool open;
} vemiktag_session;

/* Opens a session before its first line. One that was open is freed first.
 *
 * VEMIKTAG_OUT_OF_MEMORY: it is closed. */
uint32_t vemiktag_session_new(vemiktag_session *session);

/* Gives the session a line, without its LF, and puts into `count` how many bytes of its report wait then to be read. An LF
 * within the line ends nothing: it counts as white space.
 *
 * VEMIKTAG_DONE: the line was taken. VEMIKTAG_SOME_REFUSED: it was refused, which the report says.
 * VEMIKTAG_OUT_OF_MEMORY: the session takes no more lines; what waits can still be read, and the last bytes of it may be the first
 * of what the line writes.
 * VEMIKTAG_TOO_LONG: it has heard more than 16,777,216 lines, and this one wasn't heard.
 * VEMIKTAG_CLOSED: it takes no more lines, or isn't open; nothing changed. */
uint32_t vemiktag_session_line(vemiktag_session *session, const uint8_t *line, size_t length, size_t *count);

/* Puts the last lines of the report behind what waits, and into `count` how many bytes wait then. The session takes no more
 * lines. What was read of it all in all, and what waits, is what `vemiktag_report` puts for these lines.
 *
 * VEMIKTAG_DONE, VEMIKTAG_SOME_REFUSED: as of vemiktag_report. VEMIKTAG_OUT_OF_MEMORY, VEMIKTAG_CLOSED: as above. */
uint32_t vemiktag_session_close(vemiktag_session *session, size_t *count);

/* Reads the next bytes of the report into the first of `report`, which has `room` bytes, and puts into `count` how many: as
 * many as wait, or as there is room for.
 *
 * VEMIKTAG_CLOSED: it isn't open, and `count` is 0. */
uint32_t vemiktag_session_read(vemiktag_session *session, uint8_t *report, size_t room, size_t *count);

/* Frees what the session holds. It may be opened again.
 *
 * VEMIKTAG_CLOSED: it wasn't open. */
uint32_t vemiktag_session_free(vemiktag_session *session);

/* A client that you hold: one editor's copy of the document, whose messages go over your own network. Change no field of it. */
typedef struct {
    void *at;
    bool open;
} vemiktag_client;

/* Opens a client: an empty document, no connection, nothing processed. One that was open is freed first.
 *
 * VEMIKTAG_OUT_OF_MEMORY: it is closed. */
uint32_t vemiktag_client_new(vemiktag_client *client);

/* Each of the next five does something with a client that is open.
 *
 * VEMIKTAG_DONE: it was done.
 * VEMIKTAG_SOME_REFUSED: it was refused, and nothing changed; a line that waits to be read then tells why.
 * VEMIKTAG_UNTOLD: it was refused, and nothing changed; there was no memory for that line.
 * VEMIKTAG_OUT_OF_MEMORY: the client takes nothing more; what waits can still be read.
 * VEMIKTAG_TOO_LONG: a count would pass its greatest number (docs/CALLING.md), and nothing changed.
 * VEMIKTAG_CLOSED: it takes nothing more, or isn't open; nothing changed. */

/* It starts anew, offline, from a summary, which is the text of one. What it had is gone. */
uint32_t vemiktag_client_load(vemiktag_client *client, const uint8_t *summary, size_t length);

/* It waits for the join of the connection of this name, which is one that nobody had before. The join is a message that your server puts into
 * the log; once the client has processed it, it is online, and has its pending edits to send. Refused where it has a connection or waits for
 * one. */
uint32_t vemiktag_client_connect(vemiktag_client *client, const uint8_t *name, size_t length);

/* Its connection is gone: what it had to send is gone too, and its edits stay pending. Refused where it has none and waits for none. */
uint32_t vemiktag_client_drop(vemiktag_client *client);

/* It takes an edit of its own, which shows at once: the text of an event `edit`, whose `client` is passed over. */
uint32_t vemiktag_client_edit(vemiktag_client *client, const uint8_t *edit, size_t length);

/* It takes the next message of the log, which is the text of one: each message, its own too.
 *
 * `refused 9 OutOfOrder` where it isn't the next one; `refused 18 BadNumbers` where its numbers contradict those before; `refused 10 Foreign N`
 * where message N is an operation under a connection of the client's own, and isn't its oldest pending edit as it was sent: then two clients share
 * a connection, or the log isn't the one that it processed so far. */
uint32_t vemiktag_client_process(vemiktag_client *client, const uint8_t *message, size_t length);

/* Puts its oldest draft that isn't sent behind what waits to be read, as a line; it counts as sent then.
 *
 * VEMIKTAG_NOTHING: there is none. VEMIKTAG_OUT_OF_MEMORY: nothing changed. VEMIKTAG_CLOSED: as above. */
uint32_t vemiktag_client_outgoing(vemiktag_client *client);

/* Puts the lines of what it shows behind what waits to be read: those of a client in a session's report, under the name of its connection.
 *
 * VEMIKTAG_OUT_OF_MEMORY: nothing changed. VEMIKTAG_CLOSED: as above. */
uint32_t vemiktag_client_view(vemiktag_client *client);

/* Where `listens`, you are told from now on what changes in what the client shows: it keeps the changes until you ask for them. The first ones
 * lead from nothing to what it shows now, and after each load they begin so again: then empty what you keep. Where not, it keeps none; a client
 * begins so.
 *
 * VEMIKTAG_OUT_OF_MEMORY: nothing changed. VEMIKTAG_CLOSED: as above. */
uint32_t vemiktag_client_tell(vemiktag_client *client, bool listens);

/* Puts the changes since you last asked behind what waits to be read, in order, a JSON object each on a line: who applies them to what was
 * shown shows what the client shows (docs/CALLING.md says what to do with each).
 *
 * VEMIKTAG_NOTHING: you aren't told. VEMIKTAG_OUT_OF_MEMORY: nothing changed, and they go on waiting. VEMIKTAG_CLOSED: as above. */
uint32_t vemiktag_client_changes(vemiktag_client *client);

/* Puts into `count` how many bytes wait to be read.
 *
 * VEMIKTAG_CLOSED: it isn't open, and `count` is 0. */
uint32_t vemiktag_client_waiting(vemiktag_client *client, size_t *count);

/* Reads the next bytes that wait into the first of `told`, which has `room` bytes, and puts into `count` how many: as many as wait, or as there is
 * room for.
 *
 * VEMIKTAG_CLOSED: it isn't open, and `count` is 0. */
uint32_t vemiktag_client_read(vemiktag_client *client, uint8_t *told, size_t room, size_t *count);

/* Frees what the client holds. It may be opened again.
 *
 * VEMIKTAG_CLOSED: it wasn't open. */
uint32_t vemiktag_client_free(vemiktag_client *client);

#ifdef __cplusplus
}
#endif

#endif
