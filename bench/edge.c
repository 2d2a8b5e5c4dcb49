// Gives and takes little of a program's standard input and output, for bench/edge.sh, which loads it before the C library.
//
// EDGE_READ and EDGE_WRITE say how many bytes a read of the input gives and a write of the output takes at most, and EDGE_READ_FAILS and
// EDGE_WRITE_FAILS which read and which write fails, counted from 1; 0 stands for no bound, and for none. One more read or write behind one
// that failed ends the program with status 99.
#define _GNU_SOURCE
#include <errno.h>
#include <stdint.h>
#include <stdlib.h>
#include <sys/syscall.h>
#include <unistd.h>

struct end {
    const char *most, *fails;
    uint64_t calls;
};

static struct end input = {"EDGE_READ", "EDGE_READ_FAILS", 0}, output = {"EDGE_WRITE", "EDGE_WRITE_FAILS", 0};
static int failed;

static uint64_t number(const char *name) {
    const char *said = getenv(name);
    return said ? strtoull(said, NULL, 10) : 0;
}

// How many bytes the next call moves at most, or -1 where it fails.
static ssize_t most(struct end *end, size_t size) {
    uint64_t bound = number(end->most), fails = number(end->fails);
    if (failed)
        _exit(99);
    end->calls++;
    if (end->calls == fails) {
        failed = 1;
        errno = EIO;
        return -1;
    }
    return bound != 0 && bound < size ? bound : size;
}

ssize_t read(int file, void *into, size_t size) {
    ssize_t count = file == STDIN_FILENO ? most(&input, size) : (ssize_t)size;
    return count < 0 ? -1 : syscall(SYS_read, file, into, (size_t)count);
}

ssize_t write(int file, const void *from, size_t size) {
    ssize_t count = file == STDOUT_FILENO ? most(&output, size) : (ssize_t)size;
    return count < 0 ? -1 : syscall(SYS_write, file, from, (size_t)count);
}
