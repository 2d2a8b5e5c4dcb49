/* report: reads a session from standard input, and writes its report. Ends with the status of the report. */
#include "vemiktag.h"
#include <stdio.h>
#include <stdlib.h>

/* The bytes of standard input, at most as many as an input may have and one more. */
static uint8_t *read_input(size_t *length) {
    size_t room = 16777217;
    uint8_t *input = malloc(room);
    if (input != NULL) {
        *length = fread(input, 1, room, stdin);
    }
    return input;
}

int main(void) {
    size_t length = 0;
    size_t count = 0;
    size_t room = 16;
    uint8_t *input = read_input(&length);
    uint8_t *report = malloc(room);
    uint32_t status = VEMIKTAG_OUT_OF_MEMORY;
    if (input != NULL && report != NULL) {
        status = vemiktag_report(input, length, report, room, &count);
    }
    if (status == VEMIKTAG_TOO_SMALL) {
        room = count;
        free(report);
        report = malloc(room);
        status = report == NULL ? VEMIKTAG_OUT_OF_MEMORY : vemiktag_report(input, length, report, room, &count);
    }
    if (status <= VEMIKTAG_SOME_REFUSED && fwrite(report, 1, count, stdout) != count) {
        status = 4;
    }
    free(input);
    free(report);
    return (int)status;
}
