/* session: reads the events of a session from standard input, gives them to it line by line, and writes what each of them
 * writes as soon as it is heard. Ends with the status of the report, and with 3 where a read failed. */
#define _POSIX_C_SOURCE 200809L

#include "vemiktag.h"
#include <stdio.h>
#include <stdlib.h>
#include <sys/types.h>

#define READ_FAILED 3

/* Writes what waits, `count` bytes. */
static void show(vemiktag_session *session, size_t count) {
    uint8_t piece[4096];
    while (count > 0) {
        size_t read = 0;
        if (vemiktag_session_read(session, piece, sizeof piece, &read) != VEMIKTAG_DONE || read == 0) {
            return;
        }
        fwrite(piece, 1, read, stdout);
        count -= read;
    }
}

/* The length of a line of so many bytes without its LF, which the last one may lack. */
static size_t length_of(const char *line, ssize_t bytes) {
    size_t length = (size_t)bytes;
    return length > 0 && line[length - 1] == '\n' ? length - 1 : length;
}

int main(void) {
    char *line = NULL;
    size_t room = 0;
    size_t count = 0;
    vemiktag_session session = {0};
    uint32_t status = vemiktag_session_new(&session);
    while (status <= VEMIKTAG_SOME_REFUSED) {
        ssize_t bytes = getline(&line, &room, stdin);
        if (bytes < 0) {
            break;
        }
        status = vemiktag_session_line(&session, (const uint8_t *)line, length_of(line, bytes), &count);
        show(&session, count);
    }
    free(line);
    if (status <= VEMIKTAG_SOME_REFUSED && !feof(stdin)) {
        status = READ_FAILED;
    }
    if (status <= VEMIKTAG_SOME_REFUSED) {
        status = vemiktag_session_close(&session, &count);
        show(&session, count);
    }
    vemiktag_session_free(&session);
    return (int)status;
}
