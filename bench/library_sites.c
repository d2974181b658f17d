/* Makes the edits that bench/library hands over at one site, and takes their messages in at another. */
#define _POSIX_C_SOURCE 200809L
#include <stdio.h>
#include <stdlib.h>
#include <string.h>
#include <time.h>

#include <vialshoal.h>

/* No message is longer. */
#define MESSAGE 10297
#define PASTE 4000
#define READINGS 10
#define LAST 10
#define KEYS 10000

typedef struct {
    uint64_t pos;
    int letter; /* 0 where the character at `pos` is deleted */
} edit;

typedef struct {
    uint8_t *bytes;
    size_t length;
    size_t room;
} buffer;

static void check(uint32_t number) {
    if (number != 0) {
        fprintf(stderr, "a call answered %u\n", number);
        exit(1);
    }
}

static void *grown(void *block, size_t length) {
    void *made = realloc(block, length);
    if (made == NULL) exit(1);
    return made;
}

/* The seconds of the clock, and those of the processors. */
typedef struct {
    double clock, busy;
} spent;

static double seconds_of(clockid_t clock) {
    struct timespec at;
    clock_gettime(clock, &at);
    return (double)at.tv_sec + (double)at.tv_nsec / 1e9;
}

static spent now(void) {
    return (spent){seconds_of(CLOCK_MONOTONIC), seconds_of(CLOCK_PROCESS_CPUTIME_ID)};
}

static spent since(spent begin) {
    spent end = now();
    return (spent){end.clock - begin.clock, end.busy - begin.busy};
}

/* The most bytes that were resident. */
static long peak(void) {
    char line[256];
    long kilobytes = 0;
    FILE *status = fopen("/proc/self/status", "r");
    while (status != NULL && fgets(line, sizeof line, status) != NULL) sscanf(line, "VmHWM: %ld", &kilobytes);
    if (status != NULL) fclose(status);
    return kilobytes * 1024;
}

static edit *edits_of(FILE *from, size_t *count) {
    edit *edits = NULL;
    size_t room = 0;
    unsigned long long pos;
    int letter;
    for (*count = 0; fscanf(from, "%llu %d", &pos, &letter) == 2; ++*count) {
        if (*count == room) edits = grown(edits, (room = 2 * room + 1024) * sizeof *edits);
        edits[*count] = (edit){pos, letter};
    }
    return edits;
}

static void make(vialshoal_text *text, edit one, uint32_t *sent) {
    uint8_t byte = (uint8_t)one.letter;
    check(one.letter != 0 ? vialshoal_insert(text, one.pos, &byte, 1, sent)
                          : vialshoal_delete(text, one.pos, one.pos + 1, sent));
}

static void typed(vialshoal_text *a, vialshoal_text *b, const edit *edits, size_t count) {
    uint8_t message[MESSAGE];
    vialshoal_taking taking;
    for (size_t i = 0; i < count; i++) {
        uint32_t sent;
        uint64_t length;
        make(a, edits[i], &sent);
        for (uint32_t k = 0; k < sent; k++) {
            check(vialshoal_message(a, k, message, sizeof message, &length));
            check(vialshoal_take(b, message, length, &taking));
        }
        check(vialshoal_let_go(a));
    }
}

/* All messages of these edits, each after its length. */
static buffer messages_of(vialshoal_text *a, const edit *edits, size_t count) {
    buffer all = {NULL, 0, 0};
    for (size_t i = 0; i < count; i++) {
        uint32_t sent;
        uint64_t length;
        make(a, edits[i], &sent);
        for (uint32_t k = 0; k < sent; k++) {
            if (all.room < all.length + sizeof length + MESSAGE) {
                all.bytes = grown(all.bytes, all.room = 2 * all.room + sizeof length + MESSAGE);
            }
            check(vialshoal_message(a, k, all.bytes + all.length + sizeof length, MESSAGE, &length));
            memcpy(all.bytes + all.length, &length, sizeof length);
            all.length += sizeof length + length;
        }
        check(vialshoal_let_go(a));
    }
    return all;
}

static void joined(vialshoal_text *b, buffer all) {
    vialshoal_taking taking;
    uint64_t length;
    for (size_t at = 0; at < all.length; at += sizeof length + length) {
        memcpy(&length, all.bytes + at, sizeof length);
        check(vialshoal_take(b, all.bytes + at + sizeof length, length, &taking));
    }
}

static uint64_t shown(vialshoal_text *text, uint8_t **room) {
    uint64_t length, need;
    check(vialshoal_length(text, &length));
    *room = grown(*room, length + 1);
    check(vialshoal_bytes(text, 0, length, *room, length, &need));
    return length;
}

static void made(vialshoal_text *text, const edit *edits, size_t count) {
    uint8_t message[MESSAGE];
    for (size_t i = 0; i < count; i++) {
        uint32_t sent;
        uint64_t length;
        make(text, edits[i], &sent);
        for (uint32_t k = 0; k < sent; k++) check(vialshoal_message(text, k, message, sizeof message, &length));
        check(vialshoal_let_go(text));
    }
}

/* Puts in the letters of edits that type one after the other, so many by a call. */
static void pasted(vialshoal_text *text, const edit *edits, size_t count, size_t most) {
    uint8_t *part = grown(NULL, most);
    for (size_t i = 0; i < count; i += most) {
        uint32_t sent;
        size_t length = count - i < most ? count - i : most;
        for (size_t k = 0; k < length; k++) part[k] = (uint8_t)edits[i + k].letter;
        check(vialshoal_insert(text, i, part, length, &sent));
        check(vialshoal_let_go(text));
    }
    free(part);
}

/* What was taken in past fronts, in chunks. */
static buffer packed_past(const vialshoal_text *text, const vialshoal_site_front *fronts, size_t count) {
    uint64_t need;
    uint32_t number = vialshoal_pack(text, fronts, count, NULL, 0, &need);
    if (number != VIALSHOAL_TOO_SHORT) check(number);
    buffer all = {grown(NULL, need + 1), need, need};
    check(vialshoal_pack(text, fronts, count, all.bytes, need, &need));
    return all;
}

static buffer file_of(const vialshoal_text *text) {
    uint64_t need;
    vialshoal_store_packed(text, NULL, 0, &need);
    buffer file = {grown(NULL, need), need, need};
    check(vialshoal_store_packed(text, file.bytes, need, &need));
    return file;
}

/* -- what is timed, by its name -- */

typedef struct {
    vialshoal_text a, b;
    const edit *edits;
    size_t count;
    /* What is handed in, and how much of what was done before isn't meant. */
    buffer given;
    vialshoal_site_front front;
} run;

static void begin_joined(run *it) { it->given = messages_of(&it->a, it->edits, it->count); }
static void begin_read(run *it) { pasted(&it->b, it->edits, it->count, PASTE); }
static void begin_far(run *it) { pasted(&it->b, it->edits, it->count - KEYS, it->count); }
static void begin_loaded(run *it) {
    made(&it->a, it->edits, it->count);
    it->given = file_of(&it->a);
}
static void begin_since(run *it) {
    made(&it->b, it->edits, it->count - LAST);
    it->front.site = 2;
    check(vialshoal_front(&it->b, 2, &it->front.seq));
    made(&it->b, it->edits + it->count - LAST, LAST);
}

static void does_typed(run *it) { typed(&it->a, &it->b, it->edits, it->count); }
static void does_made(run *it) { made(&it->b, it->edits, it->count); }
static void does_joined(run *it) { joined(&it->b, it->given); }
static void does_far(run *it) { made(&it->b, it->edits + it->count - KEYS, KEYS); }
static void does_loaded(run *it) {
    check(vialshoal_free(&it->b));
    check(vialshoal_load(&it->b, it->given.bytes, it->given.length));
}
static void does_pasted(run *it) {
    check(vialshoal_free(&it->b));
    check(vialshoal_new(&it->b, 1, 2));
    pasted(&it->b, it->edits, it->count, it->count);
    free(packed_past(&it->b, NULL, 0).bytes);
}
static void does_read(run *it) {
    uint8_t *room = NULL;
    shown(&it->b, &room);
    free(room);
}
static void does_since(run *it) { free(packed_past(&it->b, &it->front, 1).bytes); }

static const struct {
    const char *name;
    void (*begins)(run *);
    void (*does)(run *);
    int times; /* of which the quickest counts */
} MODES[] = {
    {"typed", NULL, does_typed, 1},
    {"made", NULL, does_made, 1},
    {"joined", begin_joined, does_joined, 1},
    {"read", begin_read, does_read, READINGS},
    {"pasted", NULL, does_pasted, READINGS},
    {"far", begin_far, does_far, 1},
    {"since", begin_since, does_since, READINGS},
    {"loaded", begin_loaded, does_loaded, READINGS},
};

static spent least(run *it, size_t mode) {
    spent least = {1e9, 1e9};
    for (int i = 0; i < MODES[mode].times; i++) {
        spent begin = now();
        MODES[mode].does(it);
        spent one = since(begin);
        if (one.busy < least.busy) least = one;
    }
    return least;
}

int main(int argc, char **argv) {
    size_t count, mode = 0, modes = sizeof MODES / sizeof *MODES;
    edit *edits = edits_of(stdin, &count);
    run it = {{0}, {0}, edits, count, {NULL, 0, 0}, {0}};
    while (mode < modes && (argc != 2 || strcmp(argv[1], MODES[mode].name) != 0)) mode++;
    if (mode == modes) return 2;
    check(vialshoal_new(&it.a, 1, 1));
    check(vialshoal_new(&it.b, 1, 2));
    if (MODES[mode].begins != NULL) MODES[mode].begins(&it);
    long before = peak();
    spent seconds = least(&it, mode);
    long after = peak();
    uint8_t *room = NULL;
    uint64_t length = shown(&it.b, &room);
    printf("%.9f %.9f %ld\n%.*s\n", seconds.clock, seconds.busy, after - before, (int)length, (const char *)room);
    free(room);
    free(it.given.bytes);
    free(edits);
    vialshoal_free(&it.a);
    vialshoal_free(&it.b);
}
