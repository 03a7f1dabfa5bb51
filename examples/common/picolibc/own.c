/* The variables that each thread has for itself, errno among them, as ../thread.h asks for them.
   start.S asks for those of the first one too: what the file brings of them is the model for all. */
#include <stdint.h>
#include <string.h>
#include "../thread.h"

/* The linker script's. The last two are sizes. */
extern char __tls_base[], __tls_size[], __tdata_size[];

char *put_own_variables(char *end)
{
    char *place = (char *)((uintptr_t)(end - (uintptr_t)__tls_size) & -(uintptr_t)16);
    memset(place, 0, (size_t)__tls_size);
    memcpy(place, __tls_base, (size_t)__tdata_size);
    return place;
}
