/* Passes null at length 0 to each call that takes a pointer beside a length. It is run with the sanitizers, over the sources of library/c,
 * and under valgrind. */
#include <stdio.h>
#include <stdlib.h>
#include <string.h>

#include "../vialshoal.h"

static void fail(int line, const char *what) {
    fprintf(stderr, "nulls.c:%d: not so: %s\n", line, what);
    exit(1);
}

#define IS(what) ((what) ? (void)0 : fail(__LINE__, #what))
#define BYTES(text) ((const uint8_t *)(text))

static uint32_t sent;
static uint64_t need, at;
static vialshoal_looks_run run;

/* What edits answer of a text that shows "abc". */
static void edits(vialshoal_text *text, uint32_t number) {
    IS(vialshoal_insert(text, 0, NULL, 0, &sent) == number && sent == 0);
    IS(vialshoal_insert_in_looks(text, 0, NULL, 0, BYTES("a"), 1, 3, 0, &sent) == number && sent == 0);
    IS(vialshoal_insert_in_looks(text, 0, NULL, 0, NULL, 0, 3, 0, &sent) == (number ? number : VIALSHOAL_NO_NUMBER));
    IS(vialshoal_change_looks(text, 0, 1, VIALSHOAL_COLOUR, NULL, 0, 3, 0, &sent) == number && sent == (number == 0));
    IS(vialshoal_change_looks(text, 0, 1, VIALSHOAL_FONT, NULL, 0, 3, 0, &sent) == (number ? number : VIALSHOAL_NO_NUMBER));
    IS(vialshoal_delete_names(text, NULL, 0, &sent) == number && sent == 0);
    IS(vialshoal_restore_names(text, NULL, 0, &sent) == number && sent == 0);
}

/* What is no message and no chunk. */
static void takes(vialshoal_text *text, uint32_t number) {
    vialshoal_taking taking;
    vialshoal_unpacking unpacking;
    IS(vialshoal_take(text, NULL, 0, &taking) == (number ? number : VIALSHOAL_MALFORMED));
    IS(vialshoal_unpack(text, NULL, 0, &unpacking) == (number ? number : VIALSHOAL_MALFORMED));
}

/* How long rooms have to be: no room is long enough for something, and any one for nothing. */
static void asks(vialshoal_text *text, uint32_t number) {
    uint32_t short_one = number ? number : VIALSHOAL_TOO_SHORT;
    IS(vialshoal_store(text, NULL, 0, &need) == short_one && (need > 0) == (number == 0));
    IS(vialshoal_store_packed(text, NULL, 0, &need) == short_one && (need > 0) == (number == 0));
    IS(vialshoal_save(text, NULL, 0, &need) == short_one && (need > 0) == (number == 0));
    IS(vialshoal_message(text, 0, NULL, 0, &need) == short_one && (need > 0) == (number == 0));
    IS(vialshoal_sites(text, NULL, 0, &need) == short_one && need == (number == 0));
    IS(vialshoal_since(text, NULL, 0, &at, NULL, 0, &need) == short_one && (need > 0) == (number == 0) && at == 0);
    IS(vialshoal_pack(text, NULL, 0, NULL, 0, &need) == short_one && (need > 0) == (number == 0));
    IS(vialshoal_changes(text, NULL, 0, &need) == short_one);
    IS(vialshoal_hand_out(text, NULL, 0, &need) == short_one && (need > 0) == (number == 0));
}

static void shows(vialshoal_text *text, uint32_t number) {
    uint32_t short_one = number ? number : VIALSHOAL_TOO_SHORT;
    IS(vialshoal_bytes(text, 0, 3, NULL, 0, &need) == short_one && (number || need == 3));
    IS(vialshoal_bytes(text, 1, 1, NULL, 0, &need) == number && (number || need == 0));
    IS(vialshoal_looks(text, 0, &run, NULL, 0, &need) == short_one && (number || need == 16));
    IS(vialshoal_names(text, 0, 3, NULL, 0, &need) == short_one && (number || need == 3));
    IS(vialshoal_names(text, 1, 1, NULL, 0, &need) == number && (number || need == 0));
}

static void showed(vialshoal_past_text *past, uint32_t number) {
    uint32_t short_one = number ? number : VIALSHOAL_TOO_SHORT;
    IS(vialshoal_past_bytes(past, 0, 3, NULL, 0, &need) == short_one && (number || need == 3));
    IS(vialshoal_past_bytes(past, 1, 1, NULL, 0, &need) == number && (number || need == 0));
    IS(vialshoal_past_looks(past, 0, &run, NULL, 0, &need) == short_one && (number || need == 16));
    IS(vialshoal_past_names(past, 0, 3, NULL, 0, &need) == short_one && (number || need == 3));
    IS(vialshoal_past_names(past, 1, 1, NULL, 0, &need) == number && (number || need == 0));
}

/* What calls of a note answer whose first text shows "abc", by an own edit. */
static void notes(vialshoal_note *note, uint32_t number) {
    static const vialshoal_hash author = {{1}};
    vialshoal_head head = {author, {{0}}, 1, 1, 1, 1};
    vialshoal_past_text past = {0};
    uint32_t short_one = number ? number : VIALSHOAL_TOO_SHORT;
    bool is_anew;
    IS(vialshoal_note_add(note, &head, NULL, 0) == (number ? number : VIALSHOAL_MALFORMED));
    IS(vialshoal_note_insert(note, 1, 0, NULL, 0, &sent) == number && sent == 0);
    IS(vialshoal_note_change_looks(note, 1, 0, 1, VIALSHOAL_COLOUR, NULL, 0, 3, 0, &sent) == number && sent == (number == 0));
    IS(vialshoal_note_delete_names(note, 1, NULL, 0, &sent) == number && sent == 0);
    IS(vialshoal_note_restore_names(note, 1, NULL, 0, &sent) == number && sent == 0);
    IS(vialshoal_note_own(note, 1, &author, 0, &head, NULL, 0, &need) == short_one && (need > 0) == (number == 0));
    IS(vialshoal_note_sites(note, 1, NULL, 0, &need) == short_one && need == (number == 0));
    IS(vialshoal_note_bytes(note, 1, 0, 3, NULL, 0, &need) == short_one && (number || need == 3));
    IS(vialshoal_note_bytes(note, 1, 1, 1, NULL, 0, &need) == number && (number || need == 0));
    IS(vialshoal_note_looks(note, 1, 0, &run, NULL, 0, &need) == short_one && (number || need == 16));
    IS(vialshoal_note_names(note, 1, 0, 3, NULL, 0, &need) == short_one && (number || need == 3));
    IS(vialshoal_note_changes(note, 1, &is_anew, NULL, 0, &need) == short_one);
    IS(vialshoal_note_past(note, 1, NULL, 0, &past) == number && (number || vialshoal_past_free(&past) == 0));
}

static void of_a_note(void) {
    static const vialshoal_hash key = {{7}}, founder = {{1}}, zeros;
    vialshoal_note note = {0};
    notes(&note, VIALSHOAL_NOT_OPEN);
    IS(vialshoal_note_new(&note, 1, &key, &founder, 1, &key, &founder, NULL, 0) == VIALSHOAL_MALFORMED && note.at == NULL);
    IS(vialshoal_note_new(&note, 1, &key, &founder, 1, &key, &zeros, NULL, 0) == 0);
    IS(vialshoal_note_insert(&note, 1, 0, BYTES("abc"), 3, &sent) == 0);
    notes(&note, 0);
    IS(vialshoal_note_free(&note) == 0);
}

int main(void) {
    static const vialshoal_site_front all = {1, 9};
    vialshoal_text text = {0};
    vialshoal_past_text past = {0};
    for (uint32_t number = VIALSHOAL_NOT_OPEN;; number = 0) {
        shows(&text, number);
        asks(&text, number);
        takes(&text, number);
        edits(&text, number);
        IS(vialshoal_past(&text, NULL, 0, &past) == number && (number == 0) == (past.at != NULL));
        if (number == 0) break;
        showed(&past, number);
        IS(vialshoal_load(&text, NULL, 0) == VIALSHOAL_BAD_FILE && text.at == NULL);
        IS(vialshoal_new(&text, 1, 1) == 0 && vialshoal_changes(&text, NULL, 0, &need) == 0 && need == 0);
        IS(vialshoal_pack(&text, NULL, 0, NULL, 0, &need) == 0 && need == 0);
        IS(vialshoal_insert(&text, 0, BYTES("abc"), 3, &sent) == 0);
    }
    IS(vialshoal_past_length(&past, &need) == 0 && need == 0 && vialshoal_past_free(&past) == 0);
    IS(vialshoal_past(&text, &all, 1, &past) == 0);
    showed(&past, 0);
    IS(vialshoal_load(&text, NULL, 0) == VIALSHOAL_ALREADY_OPEN);
    IS(vialshoal_past_free(&past) == 0 && vialshoal_free(&text) == 0);
    of_a_note();
    puts("nulls: all is so");
    return 0;
}
