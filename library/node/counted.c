/* The heap that the addon gives the library, in place of its own: what is taken and given back is counted. */
#include "counted.h"
#include "vialshoal.h"

#include <malloc.h>
#include <stddef.h>
#include <stdlib.h>

_Thread_local int64_t vialshoal_held;

static int64_t size_of(void *block) { return (int64_t)malloc_usable_size(block); }

static void *taken(void *block) {
    vialshoal_held += size_of(block);
    return block;
}

void *vialshoal_heap_malloc(size_t size) { return taken(malloc(size)); }

void *vialshoal_heap_realloc(void *block, size_t size) {
    int64_t was = size_of(block);
    void *moved = realloc(block, size);
    /* (what is refused leaves what was) */
    if (moved == NULL && size > 0) return NULL;
    vialshoal_held -= was;
    return taken(moved);
}

void vialshoal_heap_free(void *block) {
    vialshoal_held -= size_of(block);
    free(block);
}
