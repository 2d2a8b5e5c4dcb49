/* heap_test.c: heap.c and wide.c against a model, for a target that has an address sanitizer.
 *
 *     cc -fsanitize=address,undefined heap_test.c && ./a.out [SEED]
 *
 * The memory is a stretch of bytes of which the heap has the first ones: the sanitizer ends the program where the heap touches another one. The
 * model is a list of rooms, each full of bytes that only it has: a room that overlaps another one, or moves without its bytes, is told. */
#include <stdint.h>
#include <stdio.h>
#include <stdlib.h>
#include <string.h>

#include "heap.c"
#include "wide.c"

#if defined(__SANITIZE_ADDRESS__)
#include <sanitizer/asan_interface.h>
#else
#define ASAN_POISON_MEMORY_REGION(at, count) ((void)(at))
#define ASAN_UNPOISON_MEMORY_REGION(at, count) ((void)(at))
#endif

enum { MOST_PAGES = 2048, ROOMS = 600, STEPS = 200000 };

static unsigned char memory[(size_t)MOST_PAGES * PAGE];
static word had; /* pages that the heap has */
static word obtainable = MOST_PAGES;

word first_byte(void) { return (word)memory + 40; }
word pages(void) { return (word)memory / PAGE + had; }

bool add_pages(word count) {
    if (count > obtainable - had) {
        return false;
    }
    ASAN_UNPOISON_MEMORY_REGION(memory + had * PAGE, count * PAGE);
    had += count;
    return true;
}

/* Ends the program where it doesn't hold. */
static void expect(bool holds, const char *what) {
    if (!holds) {
        fprintf(stderr, "not so: %s\n", what);
        exit(1);
    }
}

/* A heap that has nothing yet, in a memory that may have so many pages. */
static void begin(word may_have) {
    memset(waiting, 0, sizeof waiting);
    end = 0;
    limit = ~(word)0;
    had = 1;
    obtainable = may_have;
    ASAN_POISON_MEMORY_REGION(memory + PAGE, sizeof memory - PAGE);
}

/* Draws, as `vemiktag gen` makes them. */
static uint64_t state;

static word below(word bound) {
    state = state * 6364136223846793005u + 1442695040888963407u;
    return (state >> 33) % bound;
}

/* A size: mostly a small one, as a tree's nodes have, now and then one of up to a megabyte. */
static word drawn_size(void) {
    word kind = below(100);
    return kind < 80 ? below(200) : kind < 98 ? below(5000) : below(1000000);
}

/* A room that the model knows: it is full of this byte. */
typedef struct {
    unsigned char *at;
    word count;
    unsigned char byte;
} room;

static room rooms[ROOMS];

static bool is_full(const unsigned char *at, word count, unsigned char byte) {
    return count == 0 || (at[0] == byte && memcmp(at, at + 1, count - 1) == 0);
}

/* What was answered is a room of so many bytes, within what the heap has, beside all others. */
static void expect_room(tried told, word count, const room *own) {
    unsigned char *at = told.room;
    expect(told.done == 1, "there is memory");
    expect((word)at % ALIGNMENT == 0, "a room is aligned");
    expect(at >= memory + 40 && at + count <= memory + had * PAGE, "a room is within what the heap has");
    for (const room *it = rooms; it < rooms + ROOMS; it++) {
        expect(it == own || it->at == NULL || at + count <= it->at || it->at + it->count <= at, "rooms don't overlap");
    }
}

static void fill(room *it, unsigned char *at, word count) {
    *it = (room){at, count, (unsigned char)below(256)};
    memset(at, it->byte, count);
}

static void give(room *it) {
    expect(is_full(it->at, it->count, it->byte), "a room keeps its bytes");
    rattle_dealloc(it->at);
    it->at = NULL;
}

static void resize(room *it) {
    word count = drawn_size();
    word kept = below((it->count < count ? it->count : count) + 1);
    tried told = rattle_realloc(it->at, kept, count, (word)1 << below(5));
    expect_room(told, count, it);
    expect(is_full(told.room, kept, it->byte), "a room that is resized keeps its first bytes");
    fill(it, told.room, count);
}

/* Rooms come, change and go at random. */
static void test_random_rooms(void) {
    begin(MOST_PAGES);
    for (int step = 0; step < STEPS; step++) {
        room *it = &rooms[below(ROOMS)];
        if (it->at == NULL) {
            word count = drawn_size();
            tried told = rattle_alloc(count, (word)1 << below(5));
            expect_room(told, count, it);
            fill(it, told.room, count);
        } else if (below(3) == 0) {
            resize(it);
        } else {
            give(it);
        }
    }
    for (room *it = rooms; it < rooms + ROOMS; it++) {
        if (it->at != NULL) {
            give(it);
        }
    }
}

/* The class of each size is the least one with room for it, and has no more than a quarter more. */
static void test_classes(void) {
    for (word size = LEAST; size <= 1 << 20; size += ALIGNMENT) {
        word class = class_of(size);
        expect(size_of(class) >= size && size_of(class) % ALIGNMENT == 0, "a class has room for its size");
        expect(size_of(class) <= size + size / 4, "a class has at most a quarter more");
        expect(class == 0 || size_of(class - 1) < size, "a class is the least one");
    }
    expect(class_for(GREATEST) < CLASSES, "the greatest class is there");
}

/* Takes rooms of this size until there is no memory, and returns how many. */
static word take_all(word count, void **taken, word most) {
    word rooms_taken = 0;
    while (rooms_taken < most && (taken[rooms_taken] = heap_take(count)) != NULL) {
        memset(taken[rooms_taken++], 7, count);
    }
    return rooms_taken;
}

/* Where the memory can't grow, no room is had, what there is stays, and what is given back is had again. */
static void test_end_of_memory(word may_have, word most) {
    static void *taken[100000];
    begin(may_have);
    heap_limit(most);
    word first = take_all(1000, taken, 100000);
    word pages_then = had;
    expect(first > 400 && first < 100000, "the memory ends");
    expect(pages() <= most / PAGE, "where it may");
    expect(heap_take(1000) == NULL && !rattle_alloc(1000, 8).done, "then there is no memory");
    expect(!rattle_realloc(taken[first - 2], 1000, 50000, 8).done, "nor for what would grow");
    for (word i = 0; i < first; i++) {
        expect(is_full(taken[i], 1000, 7), "all is as it was");
        heap_give(taken[i]);
    }
    expect(heap_take(2000) == NULL, "rooms that wait aren't joined");
    expect(take_all(700, taken, 100000) >= first, "each of them is had again, also for less");
    expect(had == pages_then, "and the memory hasn't grown");
}

/* A room that was given back is had again, for its size alone while the memory can grow. */
static void test_giving(void) {
    begin(MOST_PAGES);
    void *room = heap_take(1000);
    heap_give(room);
    expect(heap_take(800) != room && heap_take(1000) == room, "a room that was given back is had for its size");
}

/* The last block grows where it stands; one before it moves. */
static void test_growth_in_place(void) {
    begin(MOST_PAGES);
    unsigned char *first = heap_take(100);
    unsigned char *last = heap_take(100);
    memset(first, 1, 100);
    memset(last, 2, 100);
    expect(rattle_realloc(last, 100, 700000, 1).room == last, "the last block grows in place");
    expect(is_full(last, 100, 2), "with its bytes");
    heap_give(last);
    expect(heap_take(700000) == last, "and is great from then on");
    unsigned char *moved = rattle_realloc(first, 100, 300, 1).room;
    expect(moved != first && is_full(moved, 100, 1), "another one moves");
    expect(rattle_realloc(last, 10, 20, 1).room == last, "one that is to be smaller stays");
}

/* A room grows from few bytes to many, and is given back. */
static void grow_and_give(word most) {
    void *room = heap_take(20);
    for (word count = 20; count < most; count += count / 2) {
        room = rattle_realloc(room, count, count + count / 2, 8).room;
    }
    heap_give(room);
}

/* However often the same is done, the memory doesn't grow. */
static void test_rounds(void) {
    begin(MOST_PAGES);
    word then = 0;
    for (int round = 0; round < 400; round++) {
        void *other = heap_take(100);
        grow_and_give(200000);
        grow_and_give(3000);
        heap_give(other);
        then = round == 200 ? end : then;
    }
    expect(end == then, "what is given back is used again");
}

/* What no heap has. */
static void test_too_much(void) {
    begin(MOST_PAGES);
    expect(!rattle_alloc(~(word)0, 1).done, "not all of an address space");
    expect(!rattle_alloc(GREATEST + 1, 1).done, "not more than the greatest block");
    expect(!rattle_alloc(GREATEST, 1).done, "not more than the memory has");
    expect(!rattle_alloc(8, 32).done, "no greater alignment");
    void *room = heap_take(8);
    expect(!rattle_realloc(room, 8, ~(word)0, 1).done && !rattle_realloc(room, 8, 16, 64).done, "nor for a room that there is");
    expect(rattle_alloc(0, 1).room != rattle_alloc(0, 1).room, "no bytes have a room of their own");
}

static word drawn_word(void) {
    word it = below(1u << 31) << 33 ^ below(1u << 31) << 10 ^ below(1024);
    return it >> below(64);
}

/* What the compiler calls for whole numbers of 128 bits, beside what this machine has. */
static void test_wide(void) {
    for (int step = 0; step < STEPS; step++) {
        wide a = joined(drawn_word(), drawn_word());
        wide b = joined(drawn_word(), drawn_word());
        int by = (int)below(128);
        expect(__multi3(a, b) == (wide)((unsigned __int128)a * (unsigned __int128)b), "a product");
        expect(__ashlti3(a, by) == (wide)((unsigned __int128)a << by), "a shift to the left");
        expect(__lshrti3(a, by) == (wide)((unsigned __int128)a >> by), "a shift to the right");
    }
}

int main(int count, char **words) {
    state = count > 1 ? strtoull(words[1], NULL, 10) : 1;
    test_classes();
    test_random_rooms();
    test_end_of_memory(9, ~(word)0);
    test_end_of_memory(MOST_PAGES, (word)memory + 60 * PAGE);
    test_giving();
    test_growth_in_place();
    test_rounds();
    test_too_much();
    test_wide();
    printf("heap: rooms of %d steps are as the model's\n", STEPS);
    return 0;
}
