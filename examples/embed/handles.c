/* handles: sessions that are held, where something is wanting: memory, an open handle, a line that isn't refused. Reads a
 * session from standard input, and ends with 0 where each call answers as include/vemiktag.h says. Link it with
 * --wrap=malloc,--wrap=realloc. */
#include "failing.h"
#include "vemiktag.h"
#include <string.h>

static uint8_t input[1 << 20];
static uint8_t whole[1 << 20];
static uint8_t told[1 << 20];

/* Puts what waits behind the first `done` bytes of what was told, and answers how many there are then. */
static size_t read_on(vemiktag_session *session, size_t done, size_t waiting) {
    size_t count = 0;
    expect(vemiktag_session_read(session, told + done, sizeof told - done, &count) == VEMIKTAG_DONE, "an open session is read");
    expect(count == waiting, "and gives what waits");
    return done + count;
}

/* A whole session, line by line; answers its status at the end or where there was no memory, and puts how much was told. */
static uint32_t play(size_t length, size_t *done) {
    vemiktag_session session = {0};
    size_t count = 0;
    *done = 0;
    uint32_t status = vemiktag_session_new(&session);
    for (size_t at = 0; at < length && status <= VEMIKTAG_SOME_REFUSED;) {
        const uint8_t *end = memchr(input + at, '\n', length - at);
        size_t next = end == NULL ? length : (size_t)(end - input);
        status = vemiktag_session_line(&session, input + at, next - at, &count);
        *done = read_on(&session, *done, count);
        at = next + 1;
    }
    if (status <= VEMIKTAG_SOME_REFUSED) {
        status = vemiktag_session_close(&session, &count);
        *done = read_on(&session, *done, count);
    }
    uint32_t freed = vemiktag_session_free(&session);
    expect(freed == VEMIKTAG_DONE || status == VEMIKTAG_OUT_OF_MEMORY, "an open session is freed");
    expect(vemiktag_session_free(&session) == VEMIKTAG_CLOSED, "and no harm comes of freeing it again");
    return status;
}

/* Each call of a session that isn't open. */
static void try_closed(vemiktag_session *session) {
    size_t count = 12345;
    expect(vemiktag_session_line(session, input, 1, &count) == VEMIKTAG_CLOSED && count == 0, "a closed session takes no line");
    count = 12345;
    expect(vemiktag_session_close(session, &count) == VEMIKTAG_CLOSED && count == 0, "and isn't closed again");
    count = 12345;
    expect(vemiktag_session_read(session, told, sizeof told, &count) == VEMIKTAG_CLOSED && count == 0, "and has nothing to read");
}

/* A session that is opened anew, closed before its first line, and asked for more. */
static void try_handles(void) {
    static const char counts[] = "refused 0\nskipped 0\nother 0\n";
    vemiktag_session session = {0};
    size_t count = 0;
    try_closed(&session);
    expect(vemiktag_session_new(&session) == VEMIKTAG_DONE, "a session opens");
    expect(vemiktag_session_new(&session) == VEMIKTAG_DONE, "and opens anew, with what it held freed");
    expect(vemiktag_session_close(&session, &count) == VEMIKTAG_DONE && count == sizeof counts - 1, "it has its last lines");
    expect(vemiktag_session_line(&session, input, 1, &count) == VEMIKTAG_CLOSED, "it takes no more lines");
    expect(count == sizeof counts - 1, "and what waits goes on waiting");
    expect(vemiktag_session_read(&session, told, 7, &count) == VEMIKTAG_DONE && count == 7, "it is read in pieces");
    read_on(&session, 7, sizeof counts - 8);
    expect(memcmp(told, counts, sizeof counts - 1) == 0, "which are its counts");
    expect(vemiktag_session_free(&session) == VEMIKTAG_DONE, "it is freed");
    try_closed(&session);
}

int main(void) {
    size_t length = fread(input, 1, sizeof input, stdin);
    size_t needed = 0;
    size_t done = 0;
    uint32_t status = vemiktag_report(input, length, whole, sizeof whole, &needed);
    expect(status <= VEMIKTAG_SOME_REFUSED, "there is a report");
    expect(play(length, &done) == status && done == needed && memcmp(told, whole, needed) == 0, "line by line it is the same");
    try_handles();
    long turn = 0;
    for (bool failed = true; failed; turn++) {
        left = turn;
        uint32_t ended = play(length, &done);
        failed = left < 0;
        left = -1;
        if (ended == VEMIKTAG_OUT_OF_MEMORY) {
            expect(failed && done <= needed && memcmp(told, whole, done) == 0, "want of memory has its cause, and what was told begins the report");
        } else {
            expect(ended == status && done == needed && memcmp(told, whole, needed) == 0, "without it the report is whole");
        }
    }
    printf("%ld allocations, line by line\n", turn - 1);
    return 0;
}
