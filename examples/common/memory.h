/* Memory while a guest runs: pages from mmap, and blocks on the heap that brk makes. */
#ifndef MEMORY_H
#define MEMORY_H

enum { PAGE_SIZE = 4096 };

/* Pages of zeros with read and write, or a null pointer where none are left. unmap gives them
   back. */
void *map(unsigned long size);
long unmap(void *place, unsigned long size);

/* A block of the heap at a multiple of 16, with any bytes in it, or a null pointer where memory is
   wanting. give_back takes a null pointer, too. One hart at a time may call them. */
void *take_block(unsigned long size);
void give_back(void *block);

/* How many bytes the heap has. */
unsigned long heap_size(void);

#endif
