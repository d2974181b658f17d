/* Gives the library a heap of the program's own: all that it takes comes from there, all is given back, and malloc has none of it. It is
 * linked with the archive, and with the shared library. */
#include <malloc.h>
#include <stdalign.h>
#include <stdio.h>
#include <stdlib.h>
#include <string.h>

#include <vialshoal.h>

static void fail(int line, const char *what) {
    fprintf(stderr, "heap.c:%d: not so: %s\n", line, what);
    exit(1);
}

#define IS(what) ((what) ? (void)0 : fail(__LINE__, #what))
#define BYTES(text) ((const uint8_t *)(text))

/* -- the heap: blocks one after the other, of which none is used again -- */

typedef struct {
    alignas(max_align_t) uint64_t mark;
    size_t size;
} block;

enum { MARK = 0x7e47 };
static alignas(max_align_t) uint8_t memory[64 << 20];
static size_t used, refused_from = sizeof memory;
static long taken, given_back;

void *vialshoal_heap_malloc(size_t size) {
    size_t length = sizeof(block) + (size + sizeof(block) - 1) / sizeof(block) * sizeof(block);
    if (length > refused_from - used) return NULL;
    block *made = (block *)(memory + used);
    *made = (block){MARK, size};
    used += length;
    taken++;
    return made + 1;
}

/* A block of this heap, which wasn't given back. */
static block *own(void *at) {
    block *it = (block *)at - 1;
    IS((uint8_t *)it >= memory && (uint8_t *)it < memory + used && it->mark == MARK);
    return it;
}

void vialshoal_heap_free(void *at) {
    if (at == NULL) return;
    block *it = own(at);
    memset(it, 0xdd, sizeof *it + it->size);
    given_back++;
}

void *vialshoal_heap_realloc(void *at, size_t size) {
    if (at == NULL) return vialshoal_heap_malloc(size);
    size_t kept = own(at)->size;
    void *made = vialshoal_heap_malloc(size);
    if (made == NULL) return NULL;
    memcpy(made, at, kept < size ? kept : size);
    vialshoal_heap_free(at);
    return made;
}

/* -- what is done -- */

static uint8_t room[1 << 20];
static size_t of_malloc;

static size_t held_of_malloc(void) {
    struct mallinfo2 told = mallinfo2();
    return told.uordblks + told.hblkhd;
}

/* Edits, messages, a merge, a past, files of both forms, and chunks. */
static void does_most_things(void) {
    static const vialshoal_site_front front = {1, 100};
    vialshoal_text a = {0}, b = {0}, c = {0};
    vialshoal_past_text past = {0};
    vialshoal_taking taking;
    vialshoal_unpacking unpacking;
    vialshoal_change changes[8];
    uint32_t sent;
    uint64_t need, count;
    IS(vialshoal_new(&a, 1, 1) == 0 && vialshoal_new(&b, 1, 2) == 0);
    for (uint32_t i = 0; i < 1000; i++) {
        IS(vialshoal_insert(&a, i, BYTES("ab"), 2, &sent) == 0 && vialshoal_delete(&a, i / 2, i / 2 + 1, &sent) == 0);
    }
    IS(vialshoal_message(&a, 0, room, sizeof room, &need) == 0 && vialshoal_take(&b, room, need, &taking) == 0);
    IS(vialshoal_merge(&b, &a, &count) == 0 && vialshoal_changes(&b, changes, 0, &need) == VIALSHOAL_TOO_SHORT);
    IS(vialshoal_insert_in_looks(&b, 0, BYTES("x"), 1, BYTES("Syntax12"), 8, 3, 0, &sent) == 0);
    IS(vialshoal_past(&b, &front, 1, &past) == 0 && vialshoal_past_length(&past, &count) == 0);
    IS(vialshoal_store(&b, room, sizeof room, &need) == 0 && vialshoal_load(&c, room, need) == 0 && vialshoal_free(&c) == 0);
    IS(vialshoal_store_packed(&b, room, sizeof room, &need) == 0 && vialshoal_load(&c, room, need) == 0 && vialshoal_free(&c) == 0);
    IS(vialshoal_save(&b, room, sizeof room, &need) == 0 && vialshoal_new(&c, 1, 3) == 0);
    IS(vialshoal_pack(&a, &front, 0, room, sizeof room, &need) == 0);
    IS(vialshoal_unpack(&c, room + 2, (size_t)(room[0] | room[1] << 8), &unpacking) == 0 && unpacking.taken > 0);
    IS(taken - given_back > 10 && held_of_malloc() == of_malloc);
    IS(vialshoal_free(&a) == 0 && vialshoal_free(&b) == 0 && vialshoal_free(&c) == 0 && vialshoal_past_free(&past) == 0);
    IS(given_back == taken);
}

/* Where the heap gives no more, calls say so, and texts stay. */
static void is_refused(void) {
    vialshoal_text a = {0}, none = {0};
    uint32_t sent, number;
    uint64_t length, count = 0;
    IS(vialshoal_new(&a, 1, 1) == 0);
    refused_from = used + 10000;
    while ((number = vialshoal_insert(&a, count, BYTES("a"), 1, &sent)) == 0) count++;
    IS(number == VIALSHOAL_OUT_OF_MEMORY && vialshoal_length(&a, &length) == 0 && length == count);
    refused_from = used;
    IS(vialshoal_new(&none, 1, 1) == VIALSHOAL_OUT_OF_MEMORY && none.at == NULL);
    refused_from = sizeof memory;
    IS(vialshoal_insert(&a, 0, BYTES("a"), 1, &sent) == 0 && vialshoal_free(&a) == 0);
}

int main(void) {
    /* (the first line that is printed takes a block) */
    puts("heap: begins");
    of_malloc = held_of_malloc();
    does_most_things();
    is_refused();
    IS(given_back == taken && held_of_malloc() == of_malloc);
    printf("heap: all is so; %ld blocks were taken, and given back\n", taken);
    return 0;
}
