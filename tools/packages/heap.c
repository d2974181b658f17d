/* The heap for a processor for which the toolchain has no object of it, on any Linux: written from what the toolchain's library
 * declares. Nothing here is proved, as nothing of that object is. */
#include <stdbool.h>
#include <stddef.h>
#include <stdint.h>
#include <stdlib.h>

typedef struct {
    bool is_there;
    void *at;
} tried;

/* Where memory that wasn't given lies. */
static uint8_t nothing;

static tried told(void *at) { return (tried){at != NULL, at ? at : &nothing}; }

/* A place of no bytes has an address of its own, too. */
tried rattle_alloc(size_t size, size_t align) { return told(malloc(size ? size : align)); }

tried rattle_realloc(void *was, size_t kept, size_t size, size_t align) {
    (void)kept;
    return told(realloc(was, size ? size : align));
}

void rattle_dealloc(void *at) { free(at); }
