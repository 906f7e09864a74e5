/*
 * Calls of the library, told on standard output: for each history that the words name, `check` and `explain` with rooms of several lengths, and
 * sessions that are fed it whole, in pieces, and byte by byte.
 *
 * usage: library KIND KEYED BUDGET ORDER JSON KEY FILE..
 *
 * What a call wrote is told once, behind its name and its status. What it may not do is told too, and ends the program with status 1: to write
 * behind its text, or into a room that is too short; or to answer otherwise because the room has another length, or the history came in pieces.
 */
#include <stdio.h>
#include <stdlib.h>
#include <string.h>

#include "lincheck.h"

static const uint8_t MARK = 0xa5;

static void fail(const char *what) {
    printf("wrong: %s\n", what);
    exit(1);
}

static uint32_t call(int explains, const lincheck_options *options, const uint8_t *history, size_t length, const char *key,
                     uint8_t *room, size_t room_length, size_t *needed) {
    if (explains)
        return lincheck_explain(options, history, length, (const uint8_t *)key, strlen(key), room, room_length, needed);
    return lincheck_check(options, history, length, room, room_length, needed);
}

/* A room of its own length, so that a sanitizer sees each byte beyond it. */
static void try_room(int explains, const lincheck_options *options, const uint8_t *history, size_t length, const char *key,
                     size_t room_length, uint32_t wanted, const uint8_t *text, size_t text_length) {
    uint8_t *room = malloc(room_length + 1); /* no pointer is NULL */
    size_t needed = (size_t)-1;
    memset(room, MARK, room_length + 1);
    uint32_t status = call(explains, options, history, length, key, room, room_length, &needed);
    if (needed != text_length)
        fail("another length");
    if (status != (room_length < text_length ? LINCHECK_TOO_LITTLE_ROOM : wanted))
        fail("another status");
    size_t written = room_length < text_length ? 0 : text_length;
    if (memcmp(room, text, written))
        fail("another text");
    for (size_t at = written; at <= room_length; at++)
        if (room[at] != MARK)
            fail("a byte behind the text, or of a room that is too short");
    free(room);
}

static void try_call(int explains, const lincheck_options *options, const uint8_t *history, size_t length, const char *key) {
    static uint8_t room[1 << 20];
    size_t needed = 12345;
    uint32_t status = call(explains, options, history, length, key, room, sizeof room, &needed);
    printf("%s: status %u, needed %zu\n", explains ? "explain" : "check", status, needed);
    if (status > LINCHECK_REFUSED)
        return;
    fwrite(room, 1, needed, stdout);
    uint8_t *text = malloc(needed + 1);
    memcpy(text, room, needed);
    size_t lengths[] = {0, 1, needed - 1, needed, needed + 1, needed + 4096};
    for (size_t at = 0; at < sizeof lengths / sizeof *lengths; at++)
        try_room(explains, options, history, length, key, lengths[at], status, text, needed);
    free(text);
}

/* Feeds a session the history in pieces, each a block of its own, and asks now and then; it tells how far the history went. */
static uint32_t feed(lincheck_session *session, const uint8_t *history, size_t length, size_t size, uint64_t *events) {
    uint32_t status = lincheck_session_feed(session, history, 0, events);
    for (size_t at = 0, turn = 0; at < length; at += size, turn++) {
        size_t taken = length - at < size ? length - at : size;
        uint8_t *piece = malloc(taken);
        memcpy(piece, history + at, taken);
        status = lincheck_session_feed(session, piece, taken, events);
        free(piece);
        uint64_t place = 77;
        if (turn % 50 == 10 && lincheck_session_ask(session, &place) > LINCHECK_ILL_FORMED)
            fail("nothing is known of a beginning");
    }
    return status;
}

static void try_session(const lincheck_options *options, const uint8_t *history, size_t length) {
    static uint8_t room[1 << 20];
    lincheck_session session = LINCHECK_SESSION;
    uint64_t events = 77, at = 77;
    size_t needed = 12345;
    lincheck_session_free(&session);
    if (lincheck_session_feed(&session, history, length, &events) != LINCHECK_NO_SESSION ||
        lincheck_session_ask(&session, &at) != LINCHECK_NO_SESSION ||
        lincheck_session_order(&session, room, sizeof room, &needed) != LINCHECK_NO_SESSION || events != 77 || at != 77 || needed != 12345)
        fail("a session where there is none");
    uint32_t status = lincheck_session_new(options, &session);
    if (status != LINCHECK_DONE) {
        printf("session: status %u, %s\n", status, session.at ? "one" : "none");
        return;
    }
    uint32_t fed = feed(&session, history, length, length ? length : 1, &events);
    status = lincheck_session_ask(&session, &at);
    printf("session: fed %u, events %llu, status %u, at %llu\n", fed, (unsigned long long)events, status, (unsigned long long)at);
    uint32_t short_of = lincheck_session_order(&session, room, 0, &needed);
    if (short_of != (needed ? LINCHECK_TOO_LITTLE_ROOM : status) || lincheck_session_order(&session, room, sizeof room, &needed) != status)
        fail("another status with an order");
    fwrite(room, 1, needed, stdout);
    printf("\n");
    lincheck_options bad = *options;
    bad.kind = 6;
    if (lincheck_session_new(&bad, &session) != LINCHECK_BAD_OPTIONS || lincheck_session_ask(&session, &at) != status)
        fail("a session that bad options changed");
    for (size_t size = 1; size < 8; size += 6) { /* byte by byte, and 7 at a time */
        uint64_t count = 0, place = 77;
        if (lincheck_session_new(options, &session) != LINCHECK_DONE) /* what the handle holds is freed */
            fail("no session");
        if (feed(&session, history, length, size, &count) != fed || count != events)
            fail("other events in pieces");
        if (lincheck_session_ask(&session, &place) != status || place != at)
            fail("another verdict in pieces");
    }
    lincheck_session_free(&session);
    if (session.at)
        fail("a handle that is freed holds something");
    lincheck_session_free(&session);
}

int main(int count, char **words) {
    if (count < 8)
        return 2;
    lincheck_options options = LINCHECK_OPTIONS;
    options.kind = (uint32_t)strtoul(words[1], NULL, 10);
    options.keyed = (uint32_t)strtoul(words[2], NULL, 10);
    options.budget = (uint32_t)strtoul(words[3], NULL, 10);
    options.order = (uint32_t)strtoul(words[4], NULL, 10);
    options.json = (uint32_t)strtoul(words[5], NULL, 10);
    for (int at = 7; at < count; at++) {
        FILE *file = fopen(words[at], "rb");
        if (!file)
            return 2;
        fseek(file, 0, SEEK_END);
        size_t length = (size_t)ftell(file);
        rewind(file);
        uint8_t *history = malloc(length + 1);
        if (fread(history, 1, length, file) != length)
            return 2;
        fclose(file);
        history = realloc(history, length ? length : 1); /* so that a read behind it is seen */
        try_call(0, &options, history, length, words[6]);
        try_call(1, &options, history, length, words[6]);
        try_session(&options, history, length);
        free(history);
    }
    return 0;
}
