/* edges: a report where something is wanting: room, memory, an input that isn't too long. Reads a session from standard
 * input, and ends with 0 where each call answers as include/vemiktag.h says. Link it with --wrap=malloc,--wrap=realloc. */
#include "failing.h"
#include "vemiktag.h"
#include <string.h>

#define INPUT_LIMIT 16777216

static uint8_t input[INPUT_LIMIT + 1];
static uint8_t whole[1 << 20];
static uint8_t report[1 << 20];

/* Whether the first bytes of the report are all as they were before the call. */
static bool is_untouched(size_t count) {
    for (size_t i = 0; i < count; i++) {
        if (report[i] != 0x55) {
            return false;
        }
    }
    return true;
}

static uint32_t call(size_t length, size_t room, size_t *count) {
    *count = 12345;
    memset(report, 0x55, sizeof report);
    return vemiktag_report(input, length, report, room, count);
}

static bool is_whole(uint32_t status, size_t count, size_t needed) {
    return status <= VEMIKTAG_SOME_REFUSED && count == needed && memcmp(report, whole, needed) == 0;
}

/* A report with each size of room up to what it takes. */
static void try_rooms(size_t length, size_t needed) {
    size_t count;
    for (size_t room = 0; room < needed; room++) {
        expect(call(length, room, &count) == VEMIKTAG_TOO_SMALL && count == needed, "too small a room tells what is needed");
        expect(is_untouched(sizeof report), "and nothing is written");
    }
    uint32_t status = call(length, needed, &count);
    expect(is_whole(status, count, needed), "as much room as needed is enough");
}

/* A report where each allocation fails in its turn; answers how many there are. Some may fail without harm: then the report
 * is whole. */
static long try_allocations(size_t length, size_t needed) {
    size_t count;
    for (long turn = 0;; turn++) {
        left = turn;
        uint32_t status = call(length, sizeof report, &count);
        bool failed = left < 0;
        left = -1;
        if (status == VEMIKTAG_OUT_OF_MEMORY) {
            expect(failed && count == 0 && is_untouched(sizeof report), "want of memory has its cause, and nothing is written");
        } else {
            expect(is_whole(status, count, needed), "without it the report is whole");
        }
        if (!failed) {
            return turn;
        }
    }
}

int main(void) {
    size_t length = fread(input, 1, sizeof input, stdin);
    size_t needed;
    uint32_t status = call(length, sizeof report, &needed);
    expect(status <= VEMIKTAG_SOME_REFUSED && needed <= sizeof whole, "there is a report");
    memcpy(whole, report, needed);
    try_rooms(length, needed);
    long turns = try_allocations(length, needed);

    size_t count;
    static const char counts[] = "refused 0\nskipped 0\nother 0\n";
    expect(call(0, sizeof report, &count) == VEMIKTAG_DONE && count == sizeof counts - 1, "no input has three lines");
    expect(memcmp(report, counts, count) == 0, "its counts are 0");
    memset(input, '\n', sizeof input);
    expect(call(INPUT_LIMIT, sizeof report, &count) == VEMIKTAG_DONE, "an input may have 16,777,216 bytes");
    expect(call(INPUT_LIMIT + 1, sizeof report, &count) == VEMIKTAG_TOO_LONG && count == 0, "and no more");
    expect(is_untouched(sizeof report), "and nothing is written");
    printf("%zu rooms, %ld allocations\n", needed + 1, turns);
    return 0;
}
