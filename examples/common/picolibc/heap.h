/* The heap in a guest with threads. A hart that enters a rescue point while another one is inside
   malloc would have to wait there, which is a fault in a call of a point. So a thread holds the
   heap round such a call, and malloc and free of that call wait for nobody. */
#ifndef HEAP_H
#define HEAP_H

void hold_heap(void);
void release_heap(void);

#endif
