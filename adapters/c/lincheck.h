/*
 * lincheck as a library: whether the history in some bytes is linearizable (Herlihy and Wing 1990), and why.
 *
 * `lincheck_check` and `lincheck_explain` take a whole history; a session takes one in pieces, and is asked in between.
 *
 * A call gives what the command of the same name exits with: 0 yes, 1 no, 2 undecided, 3 ill-formed, 4 refused. Then its text stands at the
 * beginning of `room`, and its length in `*needed`; what stood behind it in `room` is as it was. Else:
 *
 *   5  the options, or the key, say nothing, or no event of the history has the key
 *   6  memory was refused, or the history has more than 1,099,511,627,776 bytes
 *   7  the handle holds no session
 *   8  the text has more bytes than `room`, and `*needed` is how many; `room` is as it was. A second call finds the answer anew.
 *
 * With 5, 6 and 7 all that is passed to be written is as it was.
 *
 * That the text is a right report or explanation of the very bytes that were passed, with that number, is proved of the first two functions for
 * all bytes, options, keys and rooms; and of a session, for any calls in any order, that it answers for just the bytes that it was fed
 * (crates/lincheck_c and crates/lin_embedded). This header is trusted, as nothing compares it with them; and the caller is
 * trusted with what follows.
 *
 * Ownership: all memory that is passed is the caller's, and is read or written during the call alone. But for what a session holds, a call frees
 * what it allocates before it returns. Each pointer points to as many bytes as are said, also where these are none: no pointer is NULL. What is
 * written, `room`, `needed`, `events`, `at` and a handle, overlaps nothing else that is passed.
 *
 * A handle of a session begins as {0}, and holds none. It is the caller's, and its one word is written by these calls alone. It may be moved, but
 * of two copies only one is used. `lincheck_session_free` frees what it holds, if anything.
 *
 * Threads: calls may run in any threads at once, where no other writes what they read or write. A session stays on the thread that began it, up to
 * its `lincheck_session_free`, since parts of it count who shares them by plain counters; each thread may have sessions of its own, which share
 * nothing. There is no other state between calls, nothing is printed, and no call ends the process. Not from a signal handler, nor from the child
 * that a process with threads forked.
 *
 * Also trusted: that malloc, realloc and free are of one allocator, and align a block to each power of two up to 16 that divides its size; that
 * the stack has room (Rattle's own compiler counts 75,856 bytes, and what functions that call themselves take beside, as built/library.sh tells;
 * 128 KiB were enough in all that was tried); and that the processor has the instructions of x86-64-v2, of 2009: a program of this repository
 * looks for them as it starts, a library doesn't.
 */
#ifndef LINCHECK_H
#define LINCHECK_H

#include <stddef.h>
#include <stdint.h>

#ifdef __cplusplus
extern "C" {
#endif

enum { LINCHECK_REGISTER, LINCHECK_CAS_REGISTER, LINCHECK_FIFO, LINCHECK_SET, LINCHECK_MUTEX, LINCHECK_UNORDERED_QUEUE };

enum { LINCHECK_YES, LINCHECK_NO, LINCHECK_UNDECIDED, LINCHECK_ILL_FORMED, LINCHECK_REFUSED, LINCHECK_BAD_OPTIONS, LINCHECK_NO_MEMORY,
       LINCHECK_NO_SESSION, LINCHECK_TOO_LITTLE_ROOM, LINCHECK_DONE = 0 };

typedef struct {
    uint32_t kind;    /* what each object is: one of the first enumeration */
    uint32_t keyed;   /* 1 where values are pairs [KEY VALUE], with one object for each key; else 0 */
    uint32_t budget;  /* how many configurations are kept for one object, 1 to 1,000,000 */
    uint32_t order;   /* 1 where an explanation of a yes ends with its order; else 0 */
    uint32_t json;    /* 1 for one line of JSON; 0 for text */
} lincheck_options;

/* As the command has them: a register, no keys, a budget of 65,536, a text. */
#define LINCHECK_OPTIONS { LINCHECK_REGISTER, 0, 65536, 0, 0 }

/* Whether the history is linearizable: the report of `lincheck check`. */
uint32_t lincheck_check(const lincheck_options *options, const uint8_t *history, size_t history_length,
                        uint8_t *room, size_t room_length, size_t *needed);

/* Why it is or isn't, or isn't decided: what `lincheck explain` tells, for the object of the key that a text names, as `3`, `:x` or `"a"`, and for
   the whole where `key_length` is 0. A key that no event has, which the command refuses, is told of as an object without events. */
uint32_t lincheck_explain(const lincheck_options *options, const uint8_t *history, size_t history_length, const uint8_t *key, size_t key_length,
                          uint8_t *room, size_t room_length, size_t *needed);

/* What holds a session, or none. */
typedef struct {
    void *at;
} lincheck_session;

#define LINCHECK_SESSION { 0 }

/* Begins a session with no bytes: 0, 5 or 6. What the handle held is freed, but not with 5; with 6 it holds none. `order` and `json` of the
   options are not used. */
uint32_t lincheck_session_new(const lincheck_options *options, lincheck_session *session);

/* Takes in the next piece of a history, cut anywhere, as `pull` does in `lincheck edit`: all pieces so far are read as one text, which may stop
   in the middle of an element. 0, or 4 where no more will count: for a fault of form, which `lincheck_check` tells, or since there are more than
   1,000,000 events. With both the piece was taken in, and *events is how many events of all pieces count. With 6 nothing of it was. */
uint32_t lincheck_session_feed(lincheck_session *session, const uint8_t *piece, size_t piece_length, uint64_t *events);

/* Whether the history of the events that count so far is linearizable: 0 to 3, 6 or 7. *at is how many events the shortest prefix has that is not
   (1); the place, counted from 0, of the event with which too many configurations are left (2), or that makes the history ill-formed (3). With 0 it
   is as it was. With 6 the session is as it was. */
uint32_t lincheck_session_ask(lincheck_session *session, uint64_t *at);

/* The same, with a legal order for a yes: its text as `lincheck verify` reads it. With 1, 2 and 3 there is no text, and *needed is 0. */
uint32_t lincheck_session_order(lincheck_session *session, uint8_t *room, size_t room_length, size_t *needed);

/* Frees the session, if the handle holds one; then it holds none. */
void lincheck_session_free(lincheck_session *session);

#ifdef __cplusplus
}
#endif

#endif
