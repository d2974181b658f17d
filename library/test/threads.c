/* Calls the library from eight threads: each with a text of its own, and notes of its own; each with a site of one text, by messages; all
 * with one text behind a mutex, and with one note; all that read one text and one note, through handles that can't be written; and a text
 * that goes from thread to thread. It is run under helgrind and DRD, which see what two threads touch without one waiting for the other. */
#define _DEFAULT_SOURCE
#include <pthread.h>
#include <stdio.h>
#include <stdlib.h>
#include <string.h>
#include <sys/mman.h>

#include "../vialshoal.h"

enum { THREADS = 8, MESSAGE = 10297, BODY = 16172 };

static void fail(int line, const char *what) {
    fprintf(stderr, "threads.c:%d: not so: %s\n", line, what);
    exit(1);
}

#define IS(what) ((what) ? (void)0 : fail(__LINE__, #what))
#define BYTES(text) ((const uint8_t *)(text))

static int edits;

/* Runs a job in eight threads, each of which gets its element of an array. */
static void side_by_side(void *(*job)(void *), void *of, size_t size) {
    pthread_t threads[THREADS];
    for (int i = 0; i < THREADS; i++) IS(pthread_create(&threads[i], NULL, job, (char *)of + i * size) == 0);
    for (int i = 0; i < THREADS; i++) IS(pthread_join(threads[i], NULL) == 0);
}

/* Hands all messages that a text keeps to another. */
static void hand_over(vialshoal_text *from, vialshoal_text *to) {
    uint8_t room[MESSAGE];
    uint64_t count, need;
    vialshoal_taking taking;
    IS(vialshoal_messages(from, &count) == 0);
    for (uint64_t i = 0; i < count; i++) {
        IS(vialshoal_message(from, i, room, sizeof room, &need) == 0);
        IS(vialshoal_take(to, room, need, &taking) == 0 && taking.kind == VIALSHOAL_TAKEN);
    }
    IS(vialshoal_let_go(from) == 0);
}

static void show_the_same(const vialshoal_text *one, const vialshoal_text *other) {
    uint64_t length, its, need;
    IS(vialshoal_length(one, &length) == 0 && vialshoal_length(other, &its) == 0 && length == its);
    uint8_t *shown = malloc(2 * length + 1);
    IS(shown != NULL);
    IS(vialshoal_bytes(one, 0, length, shown, length, &need) == 0);
    IS(vialshoal_bytes(other, 0, length, shown + length, length, &need) == 0);
    IS(memcmp(shown, shown + length, length) == 0);
    free(shown);
}

/* -- each its own -- */

/* Most of the calls, over a text of its own, its file, its past, and another site's text. */
static void *is_alone(void *site) {
    static const vialshoal_site_front none = {1, 0};
    vialshoal_text text = {0}, other = {0}, again = {0};
    vialshoal_past_text past = {0};
    vialshoal_change changes[64];
    uint8_t *room = malloc(1 << 20);
    uint32_t sent;
    uint64_t need, count;
    vialshoal_unpacking unpacking;
    IS(room != NULL);
    IS(vialshoal_new(&text, 1, *(uint16_t *)site) == 0 && vialshoal_new(&other, 1, 9) == 0);
    for (int i = 0; i < edits; i++) {
        IS(vialshoal_insert(&text, 0, BYTES("abc"), 3, &sent) == 0 && sent == 1);
        IS(vialshoal_delete(&text, 1, 2, &sent) == 0 && sent == 1);
        IS(vialshoal_change_looks(&text, 0, 1, VIALSHOAL_COLOUR, BYTES(""), 0, 3, 0, &sent) == 0);
        hand_over(&text, &other);
        while (vialshoal_changes(&other, changes, 64, &need) == 0 && need != 0) continue;
    }
    show_the_same(&text, &other);
    IS(vialshoal_store_packed(&text, room, 1 << 20, &need) == 0 && vialshoal_load(&again, room, need) == 0);
    IS(vialshoal_past(&again, &none, 1, &past) == 0 && vialshoal_past_length(&past, &count) == 0 && count == 0);
    IS(vialshoal_past_free(&past) == 0 && vialshoal_free(&other) == 0 && vialshoal_new(&other, 1, 9) == 0);
    IS(vialshoal_pack(&again, &none, 1, room, 1 << 20, &need) == 0);
    for (uint64_t at = 0, length; at < need; at += length) {
        length = 2 + room[at] + 256 * room[at + 1];
        IS(vialshoal_unpack(&other, room + at + 2, length - 2, &unpacking) == 0 && unpacking.waiting == 0);
    }
    show_the_same(&text, &other);
    IS(vialshoal_free(&text) == 0 && vialshoal_free(&other) == 0 && vialshoal_free(&again) == 0);
    free(room);
    return NULL;
}

/* -- notes: each its own, one that is shared, one that all read -- */

static const vialshoal_hash NOTE_KEY = {{1}}, ANN = {{2}}, BOB = {{3}}, RANK = {{4}}, NONE = {{0}};

/* A note that Ann founded as site 1, where Bob has claimed 2. */
static vialshoal_note note_of(uint16_t site) {
    vialshoal_note note = {0};
    IS(vialshoal_note_new(&note, site, &NOTE_KEY, &ANN, 1, &NONE, &NONE, NULL, 0) == 0);
    IS(vialshoal_note_claim(&note, &BOB, 2, &RANK) == 0 && vialshoal_note_update(&note) == 0);
    return note;
}

/* Says the own edits of a note's first text, by entries, which both notes are given. */
static void say(vialshoal_note *note, const vialshoal_hash *author, vialshoal_note *other) {
    vialshoal_head head;
    uint8_t body[BODY];
    uint64_t need;
    IS(vialshoal_note_own(note, 1, author, 0, &head, body, sizeof body, &need) == 0);
    IS(vialshoal_note_add(note, &head, body, need) == 0 && vialshoal_note_add(other, &head, body, need) == 0);
    IS(vialshoal_note_update(note) == 0 && vialshoal_note_update(other) == 0);
}

/* Asks a note's first text all that it can be asked. */
static void asks(const vialshoal_note *note) {
    static const vialshoal_site_front front = {1, 1};
    vialshoal_past_text past = {0};
    vialshoal_looks_run run;
    vialshoal_name name;
    vialshoal_place place;
    vialshoal_head head;
    uint8_t font[31];
    uint16_t sites[2];
    uint64_t length, need;
    uint32_t of_one;
    IS(vialshoal_note_length(note, 1, &length) == 0 && length > 0);
    uint8_t *room = malloc(length);
    IS(room != NULL && vialshoal_note_bytes(note, 1, 0, length, room, length, &need) == 0 && need == length);
    free(room);
    IS(vialshoal_note_names(note, 1, length / 2, length / 2 + 1, &name, 1, &need) == 0);
    IS(vialshoal_note_find(note, 1, name.site, name.offset, &place) == 0 && place.pos == length / 2 + 1);
    IS(vialshoal_note_looks(note, 1, 0, &run, font, sizeof font, &need) == 0 && run.end > 0);
    IS(vialshoal_note_sites(note, 1, sites, 2, &need) == 0 && need > 0);
    IS(vialshoal_note_front(note, 1, sites[0], &of_one) == 0 && of_one > 0);
    IS(vialshoal_note_past(note, 1, &front, 1, &past) == 0 && vialshoal_past_free(&past) == 0);
    IS(vialshoal_note_own(note, 1, &ANN, 0, &head, NULL, 0, &need) == VIALSHOAL_NO_MESSAGE);
}

static void *has_notes(void *site) {
    vialshoal_note ann = note_of(1), bob = note_of(2);
    vialshoal_change changes[64];
    uint64_t length, its, need;
    uint32_t sent;
    bool is_anew;
    (void)site;
    for (int i = 0; i < edits / 8 + 1; i++) {
        IS(vialshoal_note_insert(&ann, 1, 0, BYTES("abc"), 3, &sent) == 0 && sent == 1);
        say(&ann, &ANN, &bob);
        IS(vialshoal_note_delete(&bob, 1, 1, 2, &sent) == 0 && sent == 1);
        IS(vialshoal_note_change_looks(&bob, 1, 0, 1, VIALSHOAL_COLOUR, BYTES(""), 0, 3, 0, &sent) == 0);
        say(&bob, &BOB, &ann);
        IS(vialshoal_note_changes(&ann, 1, &is_anew, changes, 64, &need) == 0 && need > 0 && !is_anew);
    }
    asks(&ann);
    IS(vialshoal_note_length(&ann, 1, &length) == 0 && vialshoal_note_length(&bob, 1, &its) == 0 && length == its);
    IS(vialshoal_note_free(&ann) == 0 && vialshoal_note_free(&bob) == 0);
    return NULL;
}

static pthread_mutex_t note_turn = PTHREAD_MUTEX_INITIALIZER;
static vialshoal_note *shared_note, reading_note;

static void *shares_a_note(void *site) {
    uint32_t sent;
    (void)site;
    for (int i = 0; i < edits / 8 + 1; i++) {
        IS(pthread_mutex_lock(&note_turn) == 0);
        IS(vialshoal_note_insert(shared_note, 1, 0, BYTES("abc"), 3, &sent) == 0 && sent == 1);
        say(shared_note, &ANN, &reading_note);
        IS(pthread_mutex_unlock(&note_turn) == 0);
    }
    return NULL;
}

static void *reads_a_note(void *of) {
    for (int i = 0; i < edits / 8 + 1; i++) asks(*(const vialshoal_note **)of);
    return NULL;
}

static void have_notes(void) {
    vialshoal_note *all[THREADS];
    uint64_t length;
    shared_note = mmap(NULL, sizeof *shared_note, PROT_READ | PROT_WRITE, MAP_PRIVATE | MAP_ANONYMOUS, -1, 0);
    IS(shared_note != MAP_FAILED);
    for (int i = 0; i < THREADS; i++) all[i] = shared_note;
    side_by_side(has_notes, all, sizeof all[0]);
    *shared_note = note_of(1);
    reading_note = note_of(2);
    side_by_side(shares_a_note, all, sizeof all[0]);
    IS(vialshoal_note_length(&reading_note, 1, &length) == 0 && length == 3u * THREADS * (edits / 8 + 1));
    IS(mprotect(shared_note, sizeof *shared_note, PROT_READ) == 0);
    side_by_side(reads_a_note, all, sizeof all[0]);
    IS(mprotect(shared_note, sizeof *shared_note, PROT_READ | PROT_WRITE) == 0);
    IS(vialshoal_note_free(shared_note) == 0 && vialshoal_note_free(&reading_note) == 0);
    IS(munmap(shared_note, sizeof *shared_note) == 0);
}

/* -- each a site, by messages -- */

/* What all sites sent, in order: each message after its length. Who takes it in has what its sender had. */
static struct {
    pthread_mutex_t turn;
    uint8_t *bytes;
    size_t length;
} sent_by_all = {PTHREAD_MUTEX_INITIALIZER, NULL, 0};

typedef struct {
    vialshoal_text text;
    size_t seen;
} site;

/* Sends what an edit made, and answers a copy of what wasn't seen yet. */
static uint8_t *exchanged(site *of, size_t *length) {
    uint64_t count, need;
    IS(vialshoal_messages(&of->text, &count) == 0 && pthread_mutex_lock(&sent_by_all.turn) == 0);
    for (uint64_t i = 0; i < count; i++) {
        sent_by_all.bytes = realloc(sent_by_all.bytes, sent_by_all.length + 2 + MESSAGE);
        IS(sent_by_all.bytes != NULL);
        uint8_t *end = sent_by_all.bytes + sent_by_all.length;
        IS(vialshoal_message(&of->text, i, end + 2, MESSAGE, &need) == 0);
        end[0] = (uint8_t)need;
        end[1] = (uint8_t)(need >> 8);
        sent_by_all.length += 2 + need;
    }
    *length = sent_by_all.length - of->seen;
    uint8_t *unseen = malloc(*length + 1);
    IS(unseen != NULL);
    if (*length > 0) memcpy(unseen, sent_by_all.bytes + of->seen, *length);
    IS(pthread_mutex_unlock(&sent_by_all.turn) == 0 && vialshoal_let_go(&of->text) == 0);
    return unseen;
}

/* Sends and takes in; what the site sent itself is a repeat. */
static void exchange(site *of) {
    size_t length;
    vialshoal_taking taking;
    uint8_t *unseen = exchanged(of, &length);
    for (size_t at = 0, need; at < length; at += 2 + need) {
        need = unseen[at] + 256u * unseen[at + 1];
        IS(vialshoal_take(&of->text, unseen + at + 2, need, &taking) == 0 && taking.kind != VIALSHOAL_WAITS);
    }
    of->seen += length;
    free(unseen);
}

static void *edits_with_others(void *of) {
    vialshoal_text *text = &((site *)of)->text;
    uint64_t length;
    uint32_t sent;
    for (int i = 0; i < edits; i++) {
        IS(vialshoal_length(text, &length) == 0);
        IS(vialshoal_insert(text, length / 2, BYTES("abc"), 3, &sent) == 0);
        IS(vialshoal_delete(text, length / 3, length / 3 + 1, &sent) == 0);
        exchange(of);
    }
    return NULL;
}

static void meet(void) {
    static site sites[THREADS];
    uint64_t length;
    for (int i = 0; i < THREADS; i++) IS(vialshoal_new(&sites[i].text, 1, (uint16_t)(i + 1)) == 0);
    side_by_side(edits_with_others, sites, sizeof sites[0]);
    for (int i = 0; i < THREADS; i++) {
        exchange(&sites[i]);
        show_the_same(&sites[0].text, &sites[i].text);
    }
    IS(vialshoal_length(&sites[0].text, &length) == 0 && length >= 2u * THREADS * edits);
    for (int i = 0; i < THREADS; i++) IS(vialshoal_free(&sites[i].text) == 0);
    free(sent_by_all.bytes);
}

/* -- one that is shared -- */

static pthread_mutex_t turn = PTHREAD_MUTEX_INITIALIZER;
static pthread_cond_t took = PTHREAD_COND_INITIALIZER;
static vialshoal_text shared, reader;

/* Takes what another text handed out. Where too much waits for what another thread has in its hands, that one takes it first. */
static void takes(vialshoal_text *text, const uint8_t *handed_out, uint64_t length) {
    vialshoal_taking taking;
    for (uint64_t at = 0, one; at < length; at += 2 + one) {
        uint32_t answer;
        one = handed_out[at] + 256u * handed_out[at + 1];
        while ((answer = vialshoal_take(text, handed_out + at + 2, one, &taking)) == VIALSHOAL_ROOM_FULL) {
            IS(pthread_cond_wait(&took, &turn) == 0);
        }
        IS(answer == 0 && taking.kind != VIALSHOAL_REPEAT && pthread_cond_broadcast(&took) == 0);
    }
}

/* Edits the shared text in one turn, hands out in another one what it or others made by then, and takes that elsewhere in a third. */
static void *hands_out(void *site) {
    uint8_t room[THREADS * 64];
    uint64_t need;
    uint32_t sent;
    (void)site;
    for (int i = 0; i < edits; i++) {
        IS(pthread_mutex_lock(&turn) == 0);
        IS(vialshoal_insert(&shared, 0, BYTES("abcd"), 4, &sent) == 0 && sent == 1);
        IS(pthread_mutex_unlock(&turn) == 0 && pthread_mutex_lock(&turn) == 0);
        IS(vialshoal_hand_out(&shared, room, sizeof room, &need) == 0);
        IS(pthread_mutex_unlock(&turn) == 0 && pthread_mutex_lock(&turn) == 0);
        takes(&reader, room, need);
        IS(pthread_mutex_unlock(&turn) == 0);
    }
    return NULL;
}

/* Edits the shared text, and hands out what an edit made in the same turn. */
static void *takes_turns(void *site) {
    vialshoal_past_text past = {0};
    uint64_t count, as_it_was, need;
    uint32_t sent;
    uint8_t shown[4];
    (void)site;
    for (int i = 0; i < edits; i++) {
        IS(pthread_mutex_lock(&turn) == 0);
        IS(vialshoal_insert(&shared, 0, BYTES("abcd"), 4, &sent) == 0 && sent == 1);
        hand_over(&shared, &reader);
        IS(vialshoal_bytes(&shared, 0, 4, shown, 4, &need) == 0 && memcmp(shown, "abcd", 4) == 0);
        if (i % 8 == 0) {
            vialshoal_site_front front = {1, 1};
            IS(vialshoal_past(&shared, &front, 1, &past) == 0);
        }
        IS(vialshoal_length(&shared, &count) == 0);
        IS(pthread_mutex_unlock(&turn) == 0);
        /* (a past text is a copy of its own, so it needs no turn) */
        if (past.at != NULL) {
            IS(vialshoal_past_length(&past, &as_it_was) == 0 && as_it_was <= count);
            IS(vialshoal_past_free(&past) == 0);
        }
    }
    return NULL;
}

/* -- one that all read -- */

typedef struct {
    vialshoal_text text;
    vialshoal_past_text past;
} handles;

/* Asks a text and what it was all that they can be asked. */
static void *reads(void *of) {
    const handles *from = *(handles **)of;
    const vialshoal_text *text = &from->text;
    const vialshoal_past_text *past = &from->past;
    static const vialshoal_site_front none = {1, 0};
    vialshoal_text other = {0};
    vialshoal_past_text again = {0};
    vialshoal_looks_run run;
    vialshoal_name name;
    vialshoal_place place;
    uint8_t *room = malloc(1 << 20), font[31];
    uint64_t length, was, need, messages;
    uint32_t count, front;
    IS(room != NULL);
    for (int i = 0; i < edits / 8 + 1; i++) {
        uint64_t index = 0;
        IS(vialshoal_length(text, &length) == 0 && vialshoal_bytes(text, 0, length, room, length, &need) == 0);
        IS(vialshoal_names(text, length / 2, length / 2 + 1, &name, 1, &need) == 0);
        IS(vialshoal_find(text, name.site, name.offset, &place) == 0 && place.pos == length / 2 + 1);
        IS(vialshoal_looks(text, 0, &run, font, sizeof font, &need) == 0 && run.end == length);
        IS(vialshoal_store(text, room, 1 << 20, &need) == 0 && vialshoal_save(text, room, 1 << 20, &need) == 0);
        IS(vialshoal_store_packed(text, room, 1 << 20, &need) == 0 && vialshoal_load(&other, room, need) == 0);
        show_the_same(text, &other);
        IS(vialshoal_free(&other) == 0 && vialshoal_new(&other, 1, 9) == 0);
        IS(vialshoal_merge(&other, text, &need) == 0 && need == (uint64_t)THREADS * edits);
        IS(vialshoal_free(&other) == 0 && vialshoal_past(text, &none, 1, &again) == 0 && vialshoal_past_free(&again) == 0);
        IS(vialshoal_waiting(text, &count) == 0 && vialshoal_messages(text, &messages) == 0 && count + messages == 1);
        IS(vialshoal_message(text, 0, room, 1 << 20, &need) == 0 && vialshoal_front(text, 1, &front) == 0);
        IS(vialshoal_sites(text, (uint16_t *)room, 9, &need) == 0 && need == 1 && front == (uint32_t)(THREADS * edits));
        IS(vialshoal_since(text, &none, 1, &index, room, 1 << 20, &need) == 0 && index == 1);
        IS(vialshoal_pack(text, &none, 1, room, 1 << 20, &need) == 0);
        IS(vialshoal_past_length(past, &was) == 0 && was == 4 && vialshoal_past_bytes(past, 0, was, room, was, &need) == 0);
        IS(vialshoal_past_names(past, 0, 1, &name, 1, &need) == 0 && vialshoal_past_find(past, name.site, name.offset, &place) == 0);
        IS(vialshoal_past_looks(past, 0, &run, font, sizeof font, &need) == 0 && run.end == was);
    }
    free(room);
    return NULL;
}

static void is_read_at_once(void) {
    static const vialshoal_site_front front = {1, 1};
    handles *all[THREADS], *of = mmap(NULL, sizeof *of, PROT_READ | PROT_WRITE, MAP_PRIVATE | MAP_ANONYMOUS, -1, 0);
    uint32_t sent;
    IS(of != MAP_FAILED && vialshoal_new(&of->text, 1, 1) == 0);
    for (int i = 0; i < THREADS * edits; i++) {
        IS(vialshoal_let_go(&of->text) == 0 && vialshoal_insert(&of->text, 0, BYTES("abcd"), 4, &sent) == 0);
    }
    IS(vialshoal_past(&of->text, &front, 1, &of->past) == 0 && mprotect(of, sizeof *of, PROT_READ) == 0);
    for (int i = 0; i < THREADS; i++) all[i] = of;
    side_by_side(reads, all, sizeof all[0]);
    IS(mprotect(of, sizeof *of, PROT_READ | PROT_WRITE) == 0);
    IS(vialshoal_free(&of->text) == 0 && vialshoal_past_free(&of->past) == 0 && munmap(of, sizeof *of) == 0);
}

/* -- one that goes from thread to thread -- */

static void *opens(void *text) {
    IS(vialshoal_new(text, 1, 1) == 0);
    return NULL;
}

static void *types(void *text) {
    uint32_t sent;
    IS(vialshoal_insert(text, 0, BYTES("Oberon"), 6, &sent) == 0 && sent == 1);
    return NULL;
}

static void *frees(void *text) {
    uint64_t length;
    IS(vialshoal_length(text, &length) == 0 && length == 6);
    IS(vialshoal_free(text) == 0);
    return NULL;
}

int main(int count, char **words) {
    void *(*stages[])(void *) = {opens, types, frees};
    vialshoal_text texts[THREADS] = {{0}};
    uint16_t sites[THREADS];
    uint32_t front;
    edits = count > 1 ? atoi(words[1]) : 200;
    for (int i = 0; i < THREADS; i++) sites[i] = (uint16_t)(i + 1);
    side_by_side(is_alone, sites, sizeof sites[0]);
    have_notes();
    meet();
    IS(vialshoal_new(&shared, 1, 1) == 0 && vialshoal_new(&reader, 1, 2) == 0);
    side_by_side(takes_turns, sites, sizeof sites[0]);
    IS(vialshoal_front(&reader, 1, &front) == 0 && front == (uint32_t)(THREADS * edits));
    side_by_side(hands_out, sites, sizeof sites[0]);
    IS(vialshoal_front(&reader, 1, &front) == 0 && front == (uint32_t)(2 * THREADS * edits));
    show_the_same(&shared, &reader);
    is_read_at_once();
    IS(vialshoal_free(&shared) == 0 && vialshoal_free(&reader) == 0);
    for (int i = 0; i < 3; i++) side_by_side(stages[i], texts, sizeof texts[0]);
    puts("threads: all is so");
    return 0;
}
