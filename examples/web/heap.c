/* heap.c: the heap of vemiktag.wasm. The module takes all its memory from it, and the page room for the bytes that it hands in.
 *
 * Memory is cut into blocks from `end` upwards, and a block stays where it is for good. In front of what the caller gets stands a word, the
 * class of the block; what the caller gets is aligned to 16 bytes. Sizes of classes rise by a quarter of a power of two: 32, 48, 64, 80, 96,
 * 112, 128, 160, .., so a block has at most a quarter more than was asked for, and the word. A block that was given back waits in the list of
 * its class for the next one who asks for that size.
 *
 * Compiled for another target it takes its pages from two functions that heap_test.c has. */
#include "heap.h"

enum {
    PAGE = 65536,
    ALIGNMENT = 16,
    LEAST = 32, /* the size of the first class */
    CLASSES = 144
};

/* No block has more bytes: 2^40. */
static const word GREATEST = (word)1 << 40;

/* A block, and what is in it while it waits. */
typedef struct block {
    word class;
    struct block *next;
} block;

static block *waiting[CLASSES];
static word end;              /* where the next block begins that is cut off: 8 behind a multiple of 16; 0 before the first one */
static word limit = ~(word)0; /* the memory may have so many bytes */

#ifdef __wasm__
extern unsigned char __heap_base;
static word first_byte(void) { return (word)&__heap_base; }
static word pages(void) { return __builtin_wasm_memory_size(0); }
static bool add_pages(word count) { return __builtin_wasm_memory_grow(0, count) != ~(word)0; }
#else
word first_byte(void);
word pages(void);
bool add_pages(word count);
#endif

/* Four classes to a power of two, the least of which is 32: that of 4, 5, 6 or 7 times 2^exponent bytes. */
static word size_of(word class) { return (4 + class % 4) << (3 + class / 4); }

/* The least class whose blocks have so many bytes, of which there are at least 32. */
static word class_of(word size) {
    word exponent = 61 - (word)__builtin_clzl(size);
    word quarters = (size + ((word)1 << exponent) - 1) >> exponent;
    return (exponent - 3) * 4 + quarters - 4;
}

/* The class of a block for so many bytes of a caller. */
static word class_for(word count) {
    word size = (count + sizeof(word) + ALIGNMENT - 1) & ~(word)(ALIGNMENT - 1);
    return class_of(size < LEAST ? LEAST : size);
}

static block *block_of(void *room) { return (block *)((word *)room - 1); }

static void *room_of(block *it) { return (word *)it + 1; }

/* Sees to it that the memory reaches so far, and by an eighth of the heap farther where that may be had, so that it grows seldom. */
static bool reaches(word address) {
    word have = pages();
    word need = (address + PAGE - 1) / PAGE;
    if (need <= have) {
        return true;
    }
    if (need > limit / PAGE) {
        return false;
    }
    word wanted = need + (address - first_byte()) / PAGE / 8;
    if (wanted > need && wanted <= limit / PAGE && add_pages(wanted - have)) {
        return true;
    }
    return add_pages(need - have);
}

/* A block that is cut off where the last one ends, or null. */
static block *cut_off(word class) {
    if (end == 0) {
        end = ((first_byte() + ALIGNMENT - 1) & ~(word)(ALIGNMENT - 1)) + ALIGNMENT - sizeof(word);
    }
    block *it = (block *)end;
    if (!reaches(end + size_of(class))) {
        return 0;
    }
    end += size_of(class);
    it->class = class;
    return it;
}

/* The block of the class that was given back last, or null. */
static block *take_waiting(word class) {
    block *it = waiting[class];
    if (it != 0) {
        waiting[class] = it->next;
    }
    return it;
}

/* A block of at least this class, or null. One of a greater class is taken only where the memory can't grow. */
static block *take(word class) {
    block *it = take_waiting(class);
    if (it == 0) {
        it = cut_off(class);
    }
    while (it == 0 && ++class < CLASSES) {
        it = take_waiting(class);
    }
    return it;
}

/* Room for so many bytes, or null. */
void *heap_take(word count) {
    block *it = count <= GREATEST ? take(class_for(count)) : 0;
    return it == 0 ? 0 : room_of(it);
}

/* Gives room back. */
void heap_give(void *room) {
    block *it = block_of(room);
    it->next = waiting[it->class];
    waiting[it->class] = it;
}

/* From now on the memory doesn't grow beyond so many bytes; what it has stays. */
void heap_limit(word count) { limit = count; }

/* Whether the block has become one of this class where it stands, as the last one can. It doesn't while one of that class waits: else each
 * room that begins small and becomes great would leave one more great block behind, and take a small one for good. */
static bool grows_in_place(block *it, word class) {
    if (waiting[class] != 0 || (word)it + size_of(it->class) != end || !reaches((word)it + size_of(class))) {
        return false;
    }
    end = (word)it + size_of(class);
    it->class = class;
    return true;
}

/* Room of so many bytes with the first `kept` ones of this, in place of it; or null, and then this is as it was. */
static void *resized(void *room, word kept, word count) {
    block *it = block_of(room);
    if (count > GREATEST) {
        return 0;
    }
    word class = class_for(count);
    if (class <= it->class || grows_in_place(it, class)) {
        return room;
    }
    void *other = heap_take(count);
    if (other != 0) {
        __builtin_memcpy(other, room, kept < count ? kept : count);
        heap_give(room);
    }
    return other;
}

/* A pointer that is none to anything, for the answer that there is no memory. */
static tried answer(void *room) { return (tried){room != 0, room != 0 ? room : (void *)(word)ALIGNMENT}; }

/* What the module calls. For no bytes it gets room that is its own, too. A greater alignment than that of all blocks is asked for by nothing
 * in the module; it is answered as if there were no memory. */
tried rattle_alloc(word count, word alignment) { return answer(alignment <= ALIGNMENT ? heap_take(count) : 0); }

tried rattle_realloc(void *room, word kept, word count, word alignment) {
    return answer(alignment <= ALIGNMENT ? resized(room, kept, count) : 0);
}

void rattle_dealloc(void *room) { heap_give(room); }
