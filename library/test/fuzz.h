/* What fuzz.c and fuzz_notes.c share: how a fault is told, how the input is read, and what is shown by what was told of changes. */
#ifndef VIALSHOAL_FUZZ_H
#define VIALSHOAL_FUZZ_H

#include <stdint.h>
#include <stdio.h>
#include <stdlib.h>
#include <string.h>

#include "../vialshoal.h"

enum { UNKNOWN = -1, FONT = 31, FRONTS = 8, LONG = 1 << 12 };

static inline void fail(int line, const char *what) {
    fprintf(stderr, "fuzz.c:%d: not so: %s\n", line, what);
    abort();
}

#define IS(what) ((what) ? (void)0 : fail(__LINE__, #what))

/* A call is done, refused or misused, by a number that has words. */
static inline bool is_done(uint32_t number) {
    IS(number <= VIALSHOAL_SEQ_SPENT || (number >= VIALSHOAL_NOT_OPEN && number <= VIALSHOAL_STILL_NOTED));
    return number == 0;
}

/* -- what is read of the input -- */

typedef struct {
    const uint8_t *at;
    size_t left;
} bytes;

static inline uint32_t byte_of(bytes *in) {
    if (in->left == 0) return 0;
    in->left--;
    return *in->at++;
}

static inline uint32_t number_of(bytes *in) {
    uint32_t low = byte_of(in);
    return low < 0xf0 ? low : (low & 0xf) << 24 | byte_of(in) << 16 | byte_of(in) << 8 | byte_of(in);
}

/* So many bytes as a length of two bytes says, as far as they are there. */
static inline bytes span_of(bytes *in) {
    uint32_t length = byte_of(in);
    length |= byte_of(in) << 8;
    bytes found = {in->at, length < in->left ? length : in->left};
    in->at += found.left;
    in->left -= found.left;
    return found;
}

/* -- what is shown by what was told of changes -- */

typedef struct {
    int16_t *at;
    uint64_t length;
} shown;

static inline void makes_room(shown *it, uint64_t length) {
    it->at = realloc(it->at, (length + 1) * sizeof *it->at);
    IS(it->at != NULL);
}

/* Puts in what isn't known yet, or takes out. */
static inline void change(shown *it, const vialshoal_change *what) {
    uint64_t many = what->end - what->beg;
    IS(what->beg <= what->end && what->beg <= it->length);
    if (what->kind == VIALSHOAL_INSERT) {
        makes_room(it, it->length + many);
        memmove(it->at + what->end, it->at + what->beg, (it->length - what->beg) * sizeof *it->at);
        for (uint64_t i = what->beg; i < what->end; i++) it->at[i] = UNKNOWN;
        it->length += many;
    } else {
        IS(what->end <= it->length);
        if (what->kind == VIALSHOAL_REPLACE) return;
        IS(what->kind == VIALSHOAL_DELETE);
        memmove(it->at + what->beg, it->at + what->end, (it->length - what->end) * sizeof *it->at);
        it->length -= many;
    }
}

/* All is shown anew. */
static inline void begins_anew(shown *it, uint64_t length) {
    makes_room(it, length);
    for (uint64_t i = 0; i < length; i++) it->at[i] = UNKNOWN;
    it->length = length;
}

/* What was told of is what is read. */
static inline void is_read(shown *it, const uint8_t *read, uint64_t length) {
    IS(it->length == length);
    for (uint64_t i = 0; i < length; i++) {
        IS(it->at[i] == UNKNOWN || it->at[i] == read[i]);
        it->at[i] = read[i];
    }
}

/* -- notes, in fuzz_notes.c -- */

void fuzz_notes_play(bytes *in);
void fuzz_notes_end(void);

#endif
