#include "memory.h"
#include "calls.h"

enum { READ_AND_WRITE = 3, PRIVATE_AND_ANONYMOUS = 0x22, STEP = 16 };

void *map(unsigned long size)
{
    long place = call_of_six(CALL_MMAP, 0, size, READ_AND_WRITE, PRIVATE_AND_ANONYMOUS, -1, 0);
    return place < 0 ? 0 : (void *)place;
}

long unmap(void *place, unsigned long size)
{
    return call(CALL_MUNMAP, (long)place, size, 0);
}

/* What stands before a block: its size and, while it is free, the next one that is. */
struct block { unsigned long size; struct block *next; };

static struct block *free_blocks;
static unsigned long heap_from, heap_to;

/* The heap's end moves up by this many bytes; where it was, or 0. */
static unsigned long grow(unsigned long size)
{
    if (!heap_from)
        heap_from = heap_to = (call(CALL_BRK, 0, 0, 0) + STEP - 1) & -STEP;
    unsigned long before = heap_to;
    if ((unsigned long)call(CALL_BRK, before + size, 0, 0) != before + size)
        return 0;
    heap_to = before + size;
    return before;
}

/* The first free block that is large enough leaves the list. */
static struct block *reuse(unsigned long size)
{
    for (struct block **link = &free_blocks; *link; link = &(*link)->next) {
        struct block *block = *link;
        if (block->size >= size) {
            *link = block->next;
            return block;
        }
    }
    return 0;
}

void *take_block(unsigned long size)
{
    size = (size + STEP - 1) & -STEP;
    struct block *block = reuse(size);
    if (!block) {
        block = (struct block *)grow(sizeof *block + size);
        if (!block)
            return 0;
        block->size = size;
    }
    return block + 1;
}

void give_back(void *place)
{
    if (!place)
        return;
    struct block *block = (struct block *)place - 1;
    block->next = free_blocks;
    free_blocks = block;
}

unsigned long heap_size(void)
{
    return heap_from ? call(CALL_BRK, 0, 0, 0) - heap_from : 0;
}
