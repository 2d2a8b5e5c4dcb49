/* heap.h: what vemiktag.wasm calls of its heap, and what the page does. */
#ifndef HEAP_H
#define HEAP_H

/* The compiler of the module comes without headers. */
typedef _Bool bool;
enum { false, true };

typedef unsigned long word;

/* Whether there was memory, and where. */
typedef struct {
    word done;
    void *room;
} tried;

tried rattle_alloc(word count, word alignment);
tried rattle_realloc(void *room, word kept, word count, word alignment);
void rattle_dealloc(void *room);

void *heap_take(word count);
void heap_give(void *room);
void heap_limit(word count);

#endif
