/* Calls the library as a C program does: each call, each way to misuse it, each allocation refused in turn, and two
 * replicas that take 100,000 edits from one another. It is run under valgrind and with the address sanitizer. */
#include <stdio.h>
#include <stdlib.h>
#include <string.h>

#include "../vialshoal.h"

/* The allocation of this number is refused, counted from 1; none at 0. */
static long refused_at;
static long asked;

void *__real_malloc(size_t size);
void *__real_realloc(void *block, size_t size);

static bool is_refused(void) {
    asked++;
    return asked == refused_at;
}

void *__wrap_malloc(size_t size) { return is_refused() ? NULL : __real_malloc(size); }
void *__wrap_realloc(void *block, size_t size) { return is_refused() ? NULL : __real_realloc(block, size); }

static void fail(int line, const char *what) {
    fprintf(stderr, "border.c:%d: not so: %s\n", line, what);
    exit(1);
}

#define IS(what) ((what) ? (void)0 : fail(__LINE__, #what))
#define BYTES(text) ((const uint8_t *)(text))

static uint8_t room[10297];

/* Hands all messages that one replica keeps to another, and lets them go. */
static void hand_over(vialshoal_text *from, vialshoal_text *to) {
    uint64_t count, need;
    vialshoal_taking taking;
    IS(vialshoal_messages(from, &count) == 0);
    for (uint64_t i = 0; i < count; i++) {
        IS(vialshoal_message(from, i, room, sizeof room, &need) == 0);
        IS(vialshoal_take(to, room, need, &taking) == 0);
        IS(taking.kind == VIALSHOAL_TAKEN);
    }
    IS(vialshoal_let_go(from) == 0);
}

static void shows(vialshoal_text *text, const char *bytes) {
    uint8_t shown[64];
    uint64_t length, need;
    IS(vialshoal_length(text, &length) == 0 && length == strlen(bytes));
    IS(vialshoal_bytes(text, 0, length, shown, sizeof shown, &need) == 0 && need == length);
    IS(memcmp(shown, bytes, length) == 0);
}

/* All calls over a past handle that isn't open, and those that open one of a text that isn't. */
static void refuses_a_closed_past(void) {
    vialshoal_text text = {0};
    vialshoal_past_text none = {0};
    vialshoal_site_front front = {1, 1};
    uint64_t many = 7, index = 0;
    vialshoal_name name;
    vialshoal_place place;
    vialshoal_looks_run run;
    IS(vialshoal_past(&text, &front, 1, &none) == VIALSHOAL_NOT_OPEN && none.at == NULL);
    IS(vialshoal_past_free(&none) == VIALSHOAL_NOT_OPEN);
    IS(vialshoal_past_length(&none, &many) == VIALSHOAL_NOT_OPEN);
    IS(vialshoal_past_bytes(&none, 0, 0, room, 1, &many) == VIALSHOAL_NOT_OPEN);
    IS(vialshoal_past_looks(&none, 0, &run, room, 31, &many) == VIALSHOAL_NOT_OPEN);
    IS(vialshoal_past_names(&none, 0, 0, &name, 1, &many) == VIALSHOAL_NOT_OPEN);
    IS(vialshoal_past_find(&none, 1, 0, &place) == VIALSHOAL_NOT_OPEN);
    IS(vialshoal_since(&text, &front, 1, &index, room, 1, &many) == VIALSHOAL_NOT_OPEN && index == 0);
    IS(vialshoal_pack(&text, &front, 1, room, 1, &many) == VIALSHOAL_NOT_OPEN && many == 0);
    IS(vialshoal_save(&text, room, 1, &many) == VIALSHOAL_NOT_OPEN);
    IS(none.at == NULL && text.at == NULL);
}

/* All other calls over a handle that isn't open. */
static void refuses_a_closed_one(void) {
    vialshoal_text none = {0}, other = {0};
    uint32_t few = 7;
    uint64_t many = 7;
    vialshoal_taking taking = {0};
    vialshoal_settling settling = {0};
    vialshoal_unpacking unpacking = {7, 7, 7, 7, true};
    vialshoal_name name;
    vialshoal_name_range names = {1, 0, 1};
    vialshoal_place place;
    vialshoal_change change;
    vialshoal_replacing replacing = {7, 7};
    vialshoal_looks_run run;
    uint16_t sites[2];
    IS(vialshoal_free(&none) == VIALSHOAL_NOT_OPEN);
    IS(vialshoal_insert(&none, 0, BYTES("a"), 1, &few) == VIALSHOAL_NOT_OPEN && few == 0);
    IS(vialshoal_insert_in_looks(&none, 0, BYTES("a"), 1, BYTES("a"), 1, 3, 0, &few) == VIALSHOAL_NOT_OPEN && few == 0);
    IS(vialshoal_delete(&none, 0, 0, &few) == VIALSHOAL_NOT_OPEN);
    IS(vialshoal_change_looks(&none, 0, 0, 2, BYTES("a"), 1, 3, 0, &few) == VIALSHOAL_NOT_OPEN);
    IS(vialshoal_restore(&none, &few) == VIALSHOAL_NOT_OPEN);
    IS(vialshoal_recall(&none, 0, &few) == VIALSHOAL_NOT_OPEN);
    few = 7;
    IS(vialshoal_delete_names(&none, &names, 1, &few) == VIALSHOAL_NOT_OPEN && few == 0);
    few = 7;
    IS(vialshoal_restore_names(&none, &names, 1, &few) == VIALSHOAL_NOT_OPEN && few == 0);
    IS(vialshoal_messages(&none, &many) == VIALSHOAL_NOT_OPEN && many == 7);
    IS(vialshoal_message(&none, 0, room, 1, &many) == VIALSHOAL_NOT_OPEN && many == 0);
    IS(vialshoal_let_go(&none) == VIALSHOAL_NOT_OPEN);
    IS(vialshoal_store(&none, room, 1, &many) == VIALSHOAL_NOT_OPEN && many == 0);
    many = 7;
    IS(vialshoal_store_packed(&none, room, 1, &many) == VIALSHOAL_NOT_OPEN && many == 0);
    IS(vialshoal_take(&none, BYTES("a"), 1, &taking) == VIALSHOAL_NOT_OPEN);
    IS(vialshoal_unpack(&none, BYTES("a"), 1, &unpacking) == VIALSHOAL_NOT_OPEN && unpacking.taken == 7);
    IS(vialshoal_settle(&none, &settling) == VIALSHOAL_NOT_OPEN);
    IS(vialshoal_forget(&none, &few) == VIALSHOAL_NOT_OPEN);
    IS(vialshoal_merge(&none, &other, &many) == VIALSHOAL_NOT_OPEN);
    IS(vialshoal_waiting(&none, &few) == VIALSHOAL_NOT_OPEN);
    IS(vialshoal_sites(&none, sites, 2, &many) == VIALSHOAL_NOT_OPEN && many == 0);
    IS(vialshoal_front(&none, 1, &few) == VIALSHOAL_NOT_OPEN);
    IS(vialshoal_length(&none, &many) == VIALSHOAL_NOT_OPEN);
    IS(vialshoal_bytes(&none, 0, 0, room, 1, &many) == VIALSHOAL_NOT_OPEN);
    IS(vialshoal_looks(&none, 0, &run, room, 31, &many) == VIALSHOAL_NOT_OPEN);
    IS(vialshoal_names(&none, 0, 0, &name, 1, &many) == VIALSHOAL_NOT_OPEN);
    IS(vialshoal_find(&none, 1, 0, &place) == VIALSHOAL_NOT_OPEN);
    IS(vialshoal_changes(&none, &change, 1, &many) == VIALSHOAL_NOT_OPEN);
    IS(vialshoal_end_noting(&none, 0) == VIALSHOAL_NOT_OPEN);
    IS(vialshoal_replacement(&none, &replacing) == VIALSHOAL_NOT_OPEN && replacing.deleted == 7);
    IS(none.at == NULL);
}

/* Ranges that are none, and names that aren't here, of a text that shows "abc". Nothing is done to it. */
static void refuses_names(vialshoal_text *a) {
    static const vialshoal_name_range none[] = {{0, 0, 1}, {1, 0, 0}, {1, (1 << 24) - 1, 2}, {1, UINT32_MAX, 1}};
    static const vialshoal_name_range missing[] = {{1, 3, 1}, {1, 2, 2}, {2, 0, 1}, {1, (1 << 24) - 1, 1}};
    static const vialshoal_name_range both[] = {{1, 0, 1}, {1, 3, 1}, {1, 0, 0}};
    for (size_t i = 0; i < 4; i++) {
        uint32_t sent = 7;
        IS(vialshoal_delete_names(a, &none[i], 1, &sent) == VIALSHOAL_NO_NUMBER && sent == 0);
        IS(vialshoal_restore_names(a, &none[i], 1, &sent) == VIALSHOAL_NO_NUMBER);
        IS(vialshoal_delete_names(a, &missing[i], 1, &sent) == VIALSHOAL_NO_NAME && sent == 0);
        IS(vialshoal_restore_names(a, &missing[i], 1, &sent) == VIALSHOAL_NO_NAME);
    }
    uint32_t sent;
    IS(vialshoal_delete_names(a, both, 2, &sent) == VIALSHOAL_NO_NAME && sent == 0);
    IS(vialshoal_delete_names(a, both, 3, &sent) == VIALSHOAL_NO_NUMBER && sent == 0);
}

/* Fonts and colours that are none, and fronts of no site, of a text that shows "abc". Nothing is done to it. */
static void refuses_looks_and_fronts(vialshoal_text *a) {
    static const vialshoal_site_front none[] = {{1, 1}, {0, 0}};
    static const char *const fonts[] = {"", "1", "a b", "a234567890123456789012345678901b"};
    vialshoal_past_text past = {0};
    uint32_t sent;
    uint64_t index = 0, need;
    for (size_t i = 0; i < 4; i++) {
        sent = 7;
        IS(vialshoal_insert_in_looks(a, 0, BYTES("x"), 1, BYTES(fonts[i]), strlen(fonts[i]), 3, 0, &sent) ==
           VIALSHOAL_NO_NUMBER && sent == 0);
    }
    IS(vialshoal_insert_in_looks(a, 0, BYTES("x"), 1, BYTES("a"), 1, 16, 0, &sent) == VIALSHOAL_NO_NUMBER);
    IS(vialshoal_insert_in_looks(a, 4, BYTES("x"), 1, BYTES("1"), 1, 3, 0, &sent) == VIALSHOAL_NO_NUMBER);
    IS(vialshoal_insert_in_looks(a, 4, BYTES("x"), 1, BYTES("a"), 1, 3, 0, &sent) == VIALSHOAL_OUT_OF_TEXT && sent == 0);
    IS(vialshoal_insert_in_looks(a, UINT64_MAX, BYTES(""), 0, BYTES("a"), 1, 3, 0, &sent) == VIALSHOAL_OUT_OF_TEXT);
    IS(vialshoal_insert_in_looks(a, 0, BYTES(""), 0, BYTES("a"), 1, 3, 0, &sent) == 0 && sent == 0);
    IS(vialshoal_since(a, none, 2, &index, room, sizeof room, &need) == VIALSHOAL_NO_NUMBER && index == 0);
    IS(vialshoal_since(a, none, 1, &index, room, sizeof room, &need) == VIALSHOAL_NO_MESSAGE && index == 0);
    IS(vialshoal_pack(a, none, 2, room, sizeof room, &need) == VIALSHOAL_NO_NUMBER && need == 0);
    IS(vialshoal_pack(a, none, 1, room, sizeof room, &need) == 0 && need == 0);
    IS(vialshoal_past(a, none, 2, &past) == VIALSHOAL_NO_NUMBER && past.at == NULL);
    IS(vialshoal_past(a, none, 1, &past) == 0 && past.at != NULL);
    void *held = past.at;
    IS(vialshoal_past(a, none, 1, &past) == VIALSHOAL_ALREADY_OPEN && past.at == held);
    IS(vialshoal_past_free(&past) == 0 && past.at == NULL);
    IS(vialshoal_past_free(&past) == VIALSHOAL_NOT_OPEN);
}

static void refuses_misuse(void) {
    vialshoal_text a = {0}, none = {0};
    uint32_t sent;
    uint64_t need, taken;
    vialshoal_place place;
    vialshoal_name names[2];
    IS(vialshoal_new(&a, 0, 1) == VIALSHOAL_NO_NUMBER && a.at == NULL);
    IS(vialshoal_new(&a, 1, 0) == VIALSHOAL_NO_NUMBER && a.at == NULL);
    IS(vialshoal_new(&a, 1, 1) == 0);
    IS(vialshoal_new(&a, 1, 1) == VIALSHOAL_ALREADY_OPEN);
    IS(vialshoal_insert(&a, 1, BYTES("a"), 1, &sent) == VIALSHOAL_OUT_OF_TEXT && sent == 0);
    IS(vialshoal_insert(&a, 0, BYTES("abc"), 3, &sent) == 0 && sent == 1);
    IS(vialshoal_insert(&a, UINT64_MAX, BYTES("a"), 1, &sent) == VIALSHOAL_OUT_OF_TEXT);
    IS(vialshoal_delete(&a, 2, 1, &sent) == VIALSHOAL_OUT_OF_TEXT);
    IS(vialshoal_delete(&a, 0, 4, &sent) == VIALSHOAL_OUT_OF_TEXT);
    IS(vialshoal_recall(&a, 4, &sent) == VIALSHOAL_OUT_OF_TEXT);
    IS(vialshoal_change_looks(&a, 0, 4, VIALSHOAL_COLOUR, BYTES("a"), 1, 3, 0, &sent) == VIALSHOAL_OUT_OF_TEXT);
    IS(vialshoal_change_looks(&a, 0, 1, 0, BYTES("a"), 1, 3, 0, &sent) == VIALSHOAL_NO_NUMBER);
    IS(vialshoal_change_looks(&a, 0, 1, 8, BYTES("a"), 1, 3, 0, &sent) == VIALSHOAL_NO_NUMBER);
    IS(vialshoal_change_looks(&a, 0, 1, VIALSHOAL_COLOUR, BYTES("a"), 1, 16, 0, &sent) == VIALSHOAL_NO_NUMBER);
    IS(vialshoal_change_looks(&a, 0, 1, VIALSHOAL_FONT, BYTES("1"), 1, 3, 0, &sent) == VIALSHOAL_NO_NUMBER);
    IS(vialshoal_front(&a, 0, &sent) == VIALSHOAL_NO_NUMBER);
    IS(vialshoal_find(&a, 0, 0, &place) == VIALSHOAL_NO_NUMBER);
    IS(vialshoal_find(&a, 1, 1 << 24, &place) == VIALSHOAL_NO_NUMBER);
    IS(vialshoal_find(&a, 1, 3, &place) == VIALSHOAL_NO_NAME);
    IS(vialshoal_message(&a, 1, room, sizeof room, &need) == VIALSHOAL_NO_MESSAGE && need == 0);
    IS(vialshoal_message(&a, 0, room, 53, &need) == VIALSHOAL_TOO_SHORT && need == 54);
    IS(vialshoal_bytes(&a, 0, 3, room, 2, &need) == VIALSHOAL_TOO_SHORT && need == 3);
    IS(vialshoal_names(&a, 0, 3, names, 2, &need) == VIALSHOAL_TOO_SHORT && need == 3);
    IS(vialshoal_merge(&a, &none, &taken) == VIALSHOAL_NOT_OPEN && none.at == NULL);
    refuses_names(&a);
    refuses_looks_and_fronts(&a);
    shows(&a, "abc");
    IS(vialshoal_free(&a) == 0 && a.at == NULL);
    IS(vialshoal_free(&a) == VIALSHOAL_NOT_OPEN);
}

static void refuses_too_much(void) {
    vialshoal_text a = {0};
    uint32_t sent;
    uint64_t need;
    size_t much = (1 << 24) + 1;
    uint8_t *bytes = calloc(1, much);
    IS(bytes != NULL && vialshoal_new(&a, 1, 1) == 0);
    IS(vialshoal_insert(&a, 0, bytes, much, &sent) == VIALSHOAL_TOO_LONG && sent == 0);
    IS(vialshoal_insert_in_looks(&a, 0, bytes, much, BYTES("1"), 1, 3, 0, &sent) == VIALSHOAL_NO_NUMBER && sent == 0);
    IS(vialshoal_insert_in_looks(&a, 0, bytes, much, BYTES("a"), 1, 3, 0, &sent) == VIALSHOAL_TOO_LONG && sent == 0);
    IS(vialshoal_insert(&a, 0, bytes, much - 1, &sent) == 0 && sent == 4096);
    IS(vialshoal_insert(&a, 0, bytes, 1, &sent) == 10 && sent == 0);
    IS(vialshoal_insert_in_looks(&a, 0, bytes, 1, BYTES("a"), 1, 3, 0, &sent) == 10 && sent == 0);
    IS(vialshoal_save(&a, room, sizeof room, &need) == 13);
    IS(vialshoal_free(&a) == 0);
    free(bytes);
}

/* An edit of which a part stands. */
static void answers_a_part(void) {
    vialshoal_text a = {0};
    uint32_t sent;
    uint64_t length;
    size_t most = 1 << 24;
    uint8_t *bytes = calloc(1, most);
    IS(bytes != NULL && vialshoal_new(&a, 1, 1) == 0);
    IS(vialshoal_insert(&a, 0, bytes, most - 4096, &sent) == 0);
    IS(vialshoal_let_go(&a) == 0);
    IS(vialshoal_insert(&a, 0, bytes, 5000, &sent) == 10 && sent == 1);
    IS(vialshoal_messages(&a, &length) == 0 && length == 1);
    IS(vialshoal_length(&a, &length) == 0 && length == most);
    IS(vialshoal_free(&a) == 0);
    free(bytes);
}

/* One types, and the other takes the messages in: twice, cut short, and before what they build on. */
static void takes_messages(vialshoal_text *a, vialshoal_text *b) {
    uint32_t sent, count;
    uint64_t need, taken;
    vialshoal_taking taking;
    vialshoal_settling settling;
    IS(vialshoal_insert(a, 0, BYTES("Oberon"), 6, &sent) == 0);
    IS(vialshoal_message(a, 0, room, sizeof room, &need) == 0 && need == 57);
    IS(vialshoal_take(b, room, need, &taking) == 0 && taking.kind == VIALSHOAL_TAKEN);
    IS(vialshoal_take(b, room, need, &taking) == 0 && taking.kind == VIALSHOAL_REPEAT);
    IS(vialshoal_take(b, room, need - 1, &taking) == 1 && taking.kind == 0);
    IS(vialshoal_let_go(a) == 0);
    IS(vialshoal_insert(a, 6, BYTES("!"), 1, &sent) == 0 && vialshoal_insert(a, 7, BYTES("?"), 1, &sent) == 0);
    IS(vialshoal_message(a, 1, room, sizeof room, &need) == 0);
    IS(vialshoal_take(b, room, need, &taking) == 0 && taking.kind == VIALSHOAL_WAITS);
    IS(vialshoal_waiting(b, &count) == 0 && count == 1);
    IS(vialshoal_forget(b, &count) == 0 && count == 1);
    IS(vialshoal_take(b, room, need, &taking) == 0 && taking.kind == VIALSHOAL_WAITS);
    IS(vialshoal_merge(b, a, &taken) == 0 && taken == 2);
    IS(vialshoal_settle(b, &settling) == 0 && settling.drained == 0 && settling.dropped == 1 && !settling.stopped);
    IS(vialshoal_let_go(a) == 0);
    shows(b, "Oberon!?");
}

/* What a text is asked. */
static void answers(vialshoal_text *a) {
    uint64_t need;
    vialshoal_name names[8];
    vialshoal_place place;
    vialshoal_change changes[8];
    vialshoal_looks_run run;
    uint8_t font[31];
    shows(a, "ron!?");
    IS(vialshoal_looks(a, 0, &run, font, sizeof font, &need) == 0 && need == 8 && memcmp(font, "Syntax12", 8) == 0);
    IS(run.end == 2 && run.colour == 1 && run.offset == -3);
    IS(vialshoal_looks(a, 2, &run, font, 5, &need) == VIALSHOAL_TOO_SHORT && need == 16 && run.end == 5);
    IS(vialshoal_looks(a, 5, &run, font, sizeof font, &need) == VIALSHOAL_OUT_OF_TEXT && run.end == 5);
    IS(vialshoal_names(a, 0, 5, names, 8, &need) == 0 && need == 5 && names[0].site == 1 && names[0].offset == 3);
    IS(vialshoal_find(a, 1, 3, &place) == 0 && place.pos == 1 && place.is_shown);
    IS(vialshoal_find(a, 1, 0, &place) == 0 && place.pos == 0 && !place.is_shown);
    IS(vialshoal_changes(a, changes, 1, &need) == VIALSHOAL_TOO_SHORT && need > 1);
    IS(vialshoal_changes(a, changes, 8, &need) == 0 && changes[0].kind == VIALSHOAL_INSERT && changes[0].end == 6);
    IS(vialshoal_changes(a, changes, 8, &need) == 0 && need == 0);
}

/* Where noting has ended no change is told, and what was reported last gives way to what is shown. */
static void ends_noting(void) {
    vialshoal_text a = {0};
    vialshoal_change changes[8];
    vialshoal_replacing replacing = {7, 7};
    uint32_t sent;
    uint64_t need;
    IS(vialshoal_new(&a, 1, 1) == 0 && vialshoal_insert(&a, 0, BYTES("Oberon"), 6, &sent) == 0);
    IS(vialshoal_replacement(&a, &replacing) == VIALSHOAL_STILL_NOTED && replacing.deleted == 7 && replacing.inserted == 7);
    IS(vialshoal_changes(&a, changes, 0, &need) == VIALSHOAL_TOO_SHORT && need == 1);
    IS(vialshoal_delete(&a, 0, 1, &sent) == 0);
    IS(vialshoal_end_noting(&a, 0) == 0);
    IS(vialshoal_changes(&a, changes, 8, &need) == 0 && need == 0);
    IS(vialshoal_replacement(&a, &replacing) == 0 && replacing.deleted == 0 && replacing.inserted == 5);
    IS(vialshoal_delete(&a, 0, 2, &sent) == 0);
    IS(vialshoal_changes(&a, changes, 8, &need) == 0 && need == 0);
    IS(vialshoal_replacement(&a, &replacing) == 0 && replacing.deleted == 5 && replacing.inserted == 3);
    IS(vialshoal_restore(&a, &sent) == 0 && vialshoal_end_noting(&a, 2) == 0);
    IS(vialshoal_replacement(&a, &replacing) == 0 && replacing.deleted == 2 && replacing.inserted == 5);
    shows(&a, "beron");
    IS(vialshoal_free(&a) == 0);
}

typedef uint32_t storing(const vialshoal_text *text, uint8_t *room, size_t length, uint64_t *need);

/* A text that is kept in this form and opened again is what it was, and its site goes on; another one that has what it had
 * takes its next edit. What is no file opens none. */
static void comes_back(vialshoal_text *a, storing *store) {
    vialshoal_text again = {0}, met = {0};
    uint8_t file[2048], other[2048];
    vialshoal_name names[11], its[11];
    uint64_t need, length;
    uint32_t sent;
    IS(store(a, file, 8, &need) == VIALSHOAL_TOO_SHORT && need > 8 && need < sizeof file);
    memset(other, 7, need);
    IS(store(a, other, need - 1, &length) == VIALSHOAL_TOO_SHORT && length == need && other[0] == 7);
    IS(store(a, file, need, &length) == 0 && length == need);
    IS(vialshoal_load(&again, file, need - 1) == 13 && again.at == NULL);
    IS(vialshoal_load(a, file, need) == VIALSHOAL_ALREADY_OPEN);
    IS(vialshoal_load(&again, file, need) == 0);
    IS(store(&again, other, sizeof other, &length) == 0 && length == need && memcmp(file, other, need) == 0);
    shows(&again, "Oberon!?Obe");
    IS(vialshoal_names(a, 0, 11, names, 11, &length) == 0 && vialshoal_names(&again, 0, 11, its, 11, &length) == 0);
    for (size_t i = 0; i < 11; i++) {
        IS(names[i].site == its[i].site && names[i].offset == its[i].offset);
    }
    IS(vialshoal_new(&met, 1, 3) == 0 && vialshoal_merge(&met, a, &length) == 0);
    IS(vialshoal_insert(&again, 0, BYTES("x"), 1, &sent) == 0 && sent == 1);
    hand_over(&again, &met);
    shows(&met, "xOberon!?Obe");
    IS(vialshoal_free(&again) == 0 && vialshoal_free(&met) == 0);
}

/* A packed file, byte for byte: what is typed where its site goes on is a byte each. One that ends within its head or an
 * operation is none, nor is one of text 0, or one that begins as the other form. */
static void packs(void) {
    static const uint8_t wanted[] = "OTP1\0\1\0\2\1\2\0ab\x06\1cde";
    static const char *const none[] = {"OTP1", "OTP1\0\0\0\2", "OTP1\0\1\0\2\1\2\0a\x0e", "OTS1\0\1\0\2\1\2\0ab"};
    static const size_t lengths[] = {4, 8, 13, 13};
    vialshoal_text a = {0};
    uint32_t sent;
    uint64_t need;
    IS(vialshoal_new(&a, 1, 2) == 0);
    IS(vialshoal_store_packed(&a, room, 8, &need) == 0 && need == 8 && memcmp(room, wanted, 8) == 0);
    IS(vialshoal_insert(&a, 0, BYTES("a"), 1, &sent) == 0 && vialshoal_insert(&a, 1, BYTES("b"), 1, &sent) == 0);
    IS(vialshoal_insert(&a, 2, BYTES("cde"), 3, &sent) == 0);
    IS(vialshoal_store_packed(&a, room, sizeof room, &need) == 0 && need == sizeof wanted - 1);
    IS(memcmp(room, wanted, need) == 0);
    IS(vialshoal_free(&a) == 0);
    for (size_t i = 0; i < 4; i++) {
        IS(vialshoal_load(&a, BYTES(none[i]), lengths[i]) == 13 && a.at == NULL);
    }
    IS(vialshoal_load(&a, wanted, sizeof wanted - 1) == 0);
    shows(&a, "abcde");
    IS(vialshoal_free(&a) == 0);
}

static void two_meet(void) {
    vialshoal_text a = {0}, b = {0};
    uint32_t sent, count;
    uint64_t taken, need;
    uint16_t sites[2];
    IS(vialshoal_new(&a, 1, 1) == 0 && vialshoal_new(&b, 1, 2) == 0);
    takes_messages(&a, &b);
    IS(vialshoal_delete(&b, 0, 3, &sent) == 0);
    IS(vialshoal_change_looks(&b, 0, 2, VIALSHOAL_FONT | VIALSHOAL_OFFSET, BYTES("Syntax12"), 8, 99, -3, &sent) == 0);
    hand_over(&b, &a);
    answers(&a);
    IS(vialshoal_recall(&b, 5, &sent) == 0 && sent == 1);
    IS(vialshoal_restore(&b, &sent) == 0 && sent == 1);
    hand_over(&b, &a);
    shows(&a, "Oberon!?Obe");
    shows(&b, "Oberon!?Obe");
    comes_back(&a, vialshoal_store);
    comes_back(&a, vialshoal_store_packed);
    IS(vialshoal_front(&a, 2, &count) == 0 && count == 4);
    IS(vialshoal_sites(&a, sites, 1, &need) == VIALSHOAL_TOO_SHORT && need == 2);
    IS(vialshoal_sites(&a, sites, 2, &need) == 0 && sites[0] == 1 && sites[1] == 2);
    IS(vialshoal_merge(&a, &b, &taken) == 0 && taken == 0);
    IS(vialshoal_free(&a) == 0 && vialshoal_free(&b) == 0);
}

/* Characters are deleted and shown again by names, which don't go with what another site put between them. */
static void edits_by_names(void) {
    static const vialshoal_name_range some[] = {{1, 4, 2}, {1, 0, 1}, {1, 5, 1}}, all[] = {{1, 0, 6}};
    vialshoal_text a = {0}, b = {0};
    uint32_t sent;
    IS(vialshoal_new(&a, 1, 1) == 0 && vialshoal_new(&b, 1, 2) == 0);
    IS(vialshoal_insert(&a, 0, BYTES("Oberon"), 6, &sent) == 0);
    hand_over(&a, &b);
    IS(vialshoal_insert(&b, 3, BYTES("xx"), 2, &sent) == 0);
    IS(vialshoal_delete_names(&b, some, 3, &sent) == 0 && sent == 1);
    shows(&b, "bexxr");
    IS(vialshoal_delete_names(&b, some, 3, &sent) == 0 && sent == 0);
    IS(vialshoal_delete_names(&b, some, 0, &sent) == 0 && sent == 0);
    IS(vialshoal_restore(&b, &sent) == 0 && sent == 0);
    hand_over(&b, &a);
    shows(&a, "bexxr");
    IS(vialshoal_restore_names(&a, all, 1, &sent) == 0 && sent == 1);
    hand_over(&a, &b);
    shows(&a, "Obexxron");
    shows(&b, "Obexxron");
    IS(vialshoal_free(&a) == 0 && vialshoal_free(&b) == 0);
}

/* Names in more ranges than an operation may have. */
static void refuses_scattered_names(void) {
    static vialshoal_name_range names[1025];
    static const uint8_t bytes[2050];
    vialshoal_text a = {0};
    uint32_t sent;
    uint64_t length;
    for (uint32_t i = 0; i < 1025; i++) {
        names[i] = (vialshoal_name_range){1, 2 * i, 1};
    }
    IS(vialshoal_new(&a, 1, 1) == 0 && vialshoal_insert(&a, 0, bytes, sizeof bytes, &sent) == 0);
    IS(vialshoal_delete_names(&a, names, 1025, &sent) == 12 && sent == 0);
    IS(vialshoal_length(&a, &length) == 0 && length == 2050);
    IS(vialshoal_delete_names(&a, names, 1024, &sent) == 0 && sent == 1);
    IS(vialshoal_length(&a, &length) == 0 && length == 1026);
    IS(vialshoal_free(&a) == 0);
}

/* What both show, and what it looks like, is the same. */
static void shows_as(vialshoal_text *one, vialshoal_text *other) {
    uint8_t mine[31], its[31];
    uint64_t length, count, need;
    vialshoal_looks_run run, as;
    IS(vialshoal_length(one, &length) == 0 && vialshoal_length(other, &count) == 0 && length == count);
    uint8_t *bytes = malloc(length + 1), *others = malloc(length + 1);
    IS(vialshoal_bytes(one, 0, length, bytes, length, &need) == 0);
    IS(vialshoal_bytes(other, 0, length, others, length, &need) == 0 && memcmp(bytes, others, length) == 0);
    free(bytes);
    free(others);
    for (uint64_t pos = 0; pos < length; pos = run.end) {
        IS(vialshoal_looks(one, pos, &run, mine, sizeof mine, &count) == 0);
        IS(vialshoal_looks(other, pos, &as, its, sizeof its, &need) == 0 && count == need);
        IS(memcmp(mine, its, need) == 0 && run.end == as.end && run.colour == as.colour && run.offset == as.offset);
    }
}

/* A font's name of 1 to 31 letters, by a number. */
static size_t font_of(uint32_t number, uint8_t *font) {
    size_t length = 1 + number % 31;
    memset(font, 'a' + (int)(number % 26), length);
    return length;
}

/* Bytes that are put in in looks are shown as if they had got them afterwards, and come by one operation where these take
 * two; in the default looks they are what vialshoal_insert puts in. */
static void inserts_in_looks(void) {
    static const uint8_t bytes[5000] = "Oberon";
    vialshoal_text a = {0}, b = {0};
    uint8_t font[31], message[sizeof room];
    uint32_t sent, also, random = 1;
    uint64_t length, need, count;
    IS(vialshoal_new(&a, 1, 1) == 0 && vialshoal_new(&b, 1, 1) == 0);
    IS(vialshoal_insert_in_looks(&a, 0, bytes, 6, BYTES("Oberon10.Scn.Fnt"), 16, 1, 0, &sent) == 0 && sent == 1);
    IS(vialshoal_insert(&b, 0, bytes, 6, &sent) == 0 && vialshoal_message(&a, 0, room, sizeof room, &need) == 0);
    IS(vialshoal_message(&b, 0, message, need, &count) == 0 && count == need && memcmp(room, message, need) == 0);
    for (uint32_t i = 0; i < 40; i++) {
        random = random * 1103515245 + 12345;
        IS(vialshoal_length(&a, &length) == 0);
        uint64_t pos = (random >> 8) % (length + 1), many = i == 38 ? sizeof bytes : 1 + random % 6;
        size_t letters = font_of(random >> 16, font);
        IS(vialshoal_insert_in_looks(&a, pos, bytes, many, font, letters, i % 16, (int8_t)(random >> 9), &sent) == 0);
        IS(vialshoal_insert(&b, pos, bytes, many, &also) == 0 && sent == also);
        IS(vialshoal_change_looks(&b, pos, pos + many, 7, font, letters, i % 16, (int8_t)(random >> 9), &also) == 0);
        shows_as(&a, &b);
    }
    IS(vialshoal_free(&a) == 0 && vialshoal_free(&b) == 0);
}

static void edits_at_random(vialshoal_text *text, uint32_t *random) {
    uint32_t sent;
    uint64_t length;
    *random = *random * 1103515245 + 12345;
    IS(vialshoal_length(text, &length) == 0);
    uint64_t pos = (*random >> 8) % (length + 1);
    if (*random % 7 == 0 && pos < length) {
        IS(vialshoal_delete(text, pos, pos + 1, &sent) == 0);
    } else {
        IS(vialshoal_insert(text, pos, BYTES("x"), 1, &sent) == 0);
    }
}

/* The fronts of a text of at most four sites. */
static size_t fronts_of(vialshoal_text *text, vialshoal_site_front *fronts) {
    uint16_t sites[4];
    uint64_t count;
    IS(vialshoal_sites(text, sites, 4, &count) == 0);
    for (uint64_t i = 0; i < count; i++) {
        fronts[i].site = sites[i];
        IS(vialshoal_front(text, sites[i], &fronts[i].seq) == 0);
    }
    return count;
}

/* The next message past fronts, asked for with no room and one byte too few first; none where the length is 0. */
static uint64_t next_since(vialshoal_text *from, const vialshoal_site_front *fronts, size_t count, uint64_t *index) {
    uint64_t was = *index, long_one, need;
    uint32_t number = vialshoal_since(from, fronts, count, index, room, 0, &long_one);
    IS(*index == was);
    if (number == VIALSHOAL_NO_MESSAGE) {
        IS(vialshoal_since(from, fronts, count, index, room, sizeof room, &need) == VIALSHOAL_NO_MESSAGE && *index == was);
        return 0;
    }
    IS(number == VIALSHOAL_TOO_SHORT && long_one > 0);
    IS(vialshoal_since(from, fronts, count, index, room, long_one - 1, &need) == VIALSHOAL_TOO_SHORT && *index == was);
    IS(need == long_one);
    IS(vialshoal_since(from, fronts, count, index, room, long_one, &need) == 0 && *index > was && need == long_one);
    return need;
}

/* How many operations the one has that the other one lacks. */
static uint64_t lacking(vialshoal_text *from, vialshoal_text *to) {
    vialshoal_site_front mine[4];
    size_t sites = fronts_of(from, mine);
    uint64_t left = 0;
    for (size_t i = 0; i < sites; i++) {
        uint32_t front;
        IS(vialshoal_front(to, mine[i].site, &front) == 0);
        left += mine[i].seq > front ? mine[i].seq - front : 0;
    }
    return left;
}

/* Hands over what the other one lacks, by its fronts. */
static void brings(vialshoal_text *from, vialshoal_text *to) {
    vialshoal_site_front fronts[4];
    vialshoal_taking taking;
    size_t count = fronts_of(to, fronts);
    uint64_t index = 0, need, left = lacking(from, to);
    for (; (need = next_since(from, fronts, count, &index)) > 0; left--) {
        IS(vialshoal_take(to, room, need, &taking) == 0 && taking.kind == VIALSHOAL_TAKEN);
    }
    IS(left == 0);
}

/* Two that edit apart meet now and then by what they have past one another's fronts. */
static void meets_by_since(uint32_t edits) {
    vialshoal_text a = {0}, b = {0};
    uint32_t random = 1;
    IS(vialshoal_new(&a, 1, 1) == 0 && vialshoal_new(&b, 1, 2) == 0);
    for (uint32_t i = 0; i < edits; i++) {
        edits_at_random(i % 3 ? &a : &b, &random);
        if (random % 100 == 0 || i + 1 == edits) {
            brings(&a, &b);
            brings(&b, &a);
            shows_as(&a, &b);
        }
    }
    IS(vialshoal_free(&a) == 0 && vialshoal_free(&b) == 0);
}

/* Unpacks a chunk that has this many operations, none of which is here or has to wait; and again, when all are here. */
static void unpacks(vialshoal_text *text, const uint8_t *chunk, size_t length, uint64_t operations) {
    vialshoal_unpacking unpacking;
    IS(vialshoal_unpack(text, chunk, length, &unpacking) == 0 && unpacking.taken == operations);
    IS(unpacking.known == 0 && unpacking.waiting == 0 && unpacking.done == 0 && !unpacking.stopped);
    IS(vialshoal_unpack(text, chunk, length, &unpacking) == 0 && unpacking.known == operations);
    IS(unpacking.taken == 0 && unpacking.waiting == 0 && unpacking.done == 0 && !unpacking.stopped);
}

/* Hands over the same in chunks, and answers how many these were. */
static uint32_t brings_chunks(vialshoal_text *from, vialshoal_text *to) {
    vialshoal_site_front fronts[4];
    size_t count = fronts_of(to, fronts);
    uint64_t need, length, left = lacking(from, to);
    uint32_t chunks = 0;
    IS(vialshoal_pack(from, fronts, count, room, 0, &need) == (left == 0 ? 0 : VIALSHOAL_TOO_SHORT));
    IS((need == 0) == (left == 0));
    uint8_t *packed = calloc(1, need + 1);
    IS(packed != NULL);
    if (need > 0) IS(vialshoal_pack(from, fronts, count, packed, need - 1, &length) == VIALSHOAL_TOO_SHORT);
    IS(packed[0] == 0 && vialshoal_pack(from, fronts, count, packed, need, &length) == 0 && length == need);
    for (uint64_t at = 0; at < need; chunks++) {
        size_t long_one = packed[at] | (size_t)packed[at + 1] << 8;
        IS(long_one <= 16000 && at + 2 + long_one <= need);
        uint64_t before = lacking(from, to);
        vialshoal_unpacking unpacking;
        IS(vialshoal_unpack(to, packed + at + 2, long_one, &unpacking) == 0);
        IS(unpacking.taken > 0 && unpacking.taken == before - lacking(from, to));
        IS(unpacking.known == 0 && unpacking.waiting == 0 && unpacking.done == 0 && !unpacking.stopped);
        at += 2 + long_one;
    }
    free(packed);
    IS(lacking(from, to) == 0);
    return chunks;
}

/* Two that edit apart meet now and then, in chunks. */
static void meets_by_chunks(uint32_t edits) {
    vialshoal_text a = {0}, b = {0}, c = {0};
    uint32_t random = 1, chunks;
    IS(vialshoal_new(&a, 1, 1) == 0 && vialshoal_new(&b, 1, 2) == 0 && vialshoal_new(&c, 1, 3) == 0);
    for (uint32_t i = 0; i < edits; i++) {
        edits_at_random(i % 3 ? &a : &b, &random);
        if (random % 100 == 0 || i + 1 == edits) {
            brings_chunks(&a, &b);
            brings_chunks(&b, &a);
            shows_as(&a, &b);
        }
    }
    chunks = brings_chunks(&a, &c);
    IS(edits < 4000 || chunks > 1);
    shows_as(&a, &c);
    IS(brings_chunks(&a, &c) == 0);
    IS(vialshoal_free(&a) == 0 && vialshoal_free(&b) == 0 && vialshoal_free(&c) == 0);
}

/* Chunks, byte for byte: all of a text, and what it has past a front. */
static void packs_chunks(void) {
    static const uint8_t all[] = "\22\0OTC1\0\1\x0f\2\1\1\0ab\x06\1cde";
    static const uint8_t later[] = "\24\0OTC1\0\1\x0f\2\2\2\1\5\2\0b\x06\1cde";
    static const vialshoal_site_front fronts[] = {{2, 1}, {2, 3}};
    vialshoal_text a = {0}, b = {0}, c = {0};
    vialshoal_unpacking unpacking;
    uint32_t sent, count;
    uint64_t need;
    IS(vialshoal_new(&a, 1, 2) == 0 && vialshoal_new(&b, 1, 1) == 0 && vialshoal_new(&c, 2, 1) == 0);
    IS(vialshoal_pack(&a, fronts, 0, room, 0, &need) == 0 && need == 0);
    IS(vialshoal_insert(&a, 0, BYTES("a"), 1, &sent) == 0 && vialshoal_insert(&a, 1, BYTES("b"), 1, &sent) == 0);
    IS(vialshoal_insert(&a, 2, BYTES("cde"), 3, &sent) == 0);
    IS(vialshoal_pack(&a, fronts, 0, room, sizeof room, &need) == 0 && need == sizeof all - 1);
    IS(memcmp(room, all, need) == 0);
    IS(vialshoal_pack(&a, fronts, 1, room, sizeof room, &need) == 0 && need == sizeof later - 1);
    IS(memcmp(room, later, need) == 0);
    IS(vialshoal_pack(&a, fronts + 1, 1, room, sizeof room, &need) == 0 && need == 0);
    /* What lacks its cause waits, and is drained when that comes. */
    IS(vialshoal_unpack(&b, later + 2, sizeof later - 3, &unpacking) == 0 && unpacking.waiting == 2);
    IS(unpacking.taken == 0 && unpacking.known == 0 && unpacking.done == 0 && !unpacking.stopped);
    IS(vialshoal_unpack(&b, later + 2, sizeof later - 3, &unpacking) == 0 && unpacking.known == 2);
    IS(vialshoal_unpack(&b, all + 2, sizeof all - 3, &unpacking) == 0 && unpacking.taken == 3 && unpacking.known == 2);
    IS(unpacking.waiting == 0 && vialshoal_waiting(&b, &count) == 0 && count == 0);
    shows(&b, "abcde");
    IS(vialshoal_unpack(&c, all + 2, sizeof all - 3, &unpacking) == 2 && unpacking.done == 0);
    shows(&c, "");
    IS(vialshoal_free(&a) == 0 && vialshoal_free(&b) == 0 && vialshoal_free(&c) == 0);
}

/* A chunk that is cut short, or has another byte somewhere: it is refused, or is another chunk, and the text stays one. */
static void refuses_chunks(void) {
    static const uint8_t chunk[] = "OTC1\0\1\x0f\2\1\1\0ab\x06\1cde";
    static uint8_t long_one[16001] = "OTC1\0\1\x0f\2\1\1\0";
    vialshoal_unpacking unpacking;
    uint64_t need, length, refused = 0;
    for (size_t at = 0; at < sizeof chunk - 1; at++) {
        for (unsigned change = 0; change < 256; change++) {
            vialshoal_text a = {0};
            uint8_t bytes[sizeof chunk];
            memcpy(bytes, chunk, sizeof chunk);
            bytes[at] ^= (uint8_t)change;
            IS(vialshoal_new(&a, 1, 1) == 0);
            uint32_t number = vialshoal_unpack(&a, bytes, change == 0 ? at : sizeof chunk - 1, &unpacking);
            IS(vialshoal_length(&a, &length) == 0 && (number == 0 || unpacking.done > 0 || length == 0));
            IS(at >= 6 || number == (change == 0 || at < 4 ? 1 : bytes[4] == 0 && bytes[5] == 0 ? 1 : 2));
            IS(number == 0 || unpacking.taken + unpacking.known + unpacking.waiting == 0);
            refused += number == 1;
            IS(vialshoal_store(&a, room, sizeof room, &need) == 0 && vialshoal_free(&a) == 0);
        }
    }
    IS(refused > sizeof chunk * 32);
    vialshoal_text a = {0};
    IS(vialshoal_new(&a, 1, 1) == 0);
    memset(long_one + 11, 'x', sizeof long_one - 11);
    IS(vialshoal_unpack(&a, long_one, 16001, &unpacking) == 1 && unpacking.done == 0);
    unpacks(&a, long_one, 16000, 16000 - 11);
    IS(vialshoal_length(&a, &length) == 0 && length == 16000 - 11 && vialshoal_free(&a) == 0);
}

/* A site that was opened twice and went on from there uses its numbers twice: what is common is known, and the next one is
 * refused. No more than 64 wait: of 70 that do, 64 were handed in. */
static void refuses_a_part(void) {
    static const vialshoal_site_front front = {1, 1};
    vialshoal_text a = {0}, b = {0}, c = {0};
    vialshoal_unpacking unpacking;
    uint32_t sent, count;
    uint64_t need;
    IS(vialshoal_new(&a, 1, 1) == 0 && vialshoal_insert(&a, 0, BYTES("x"), 1, &sent) == 0);
    IS(vialshoal_store(&a, room, sizeof room, &need) == 0 && vialshoal_load(&b, room, need) == 0);
    IS(vialshoal_insert(&a, 1, BYTES("y"), 1, &sent) == 0 && vialshoal_insert(&b, 1, BYTES("z"), 1, &sent) == 0);
    IS(vialshoal_pack(&a, &front, 0, room, sizeof room, &need) == 0);
    IS(vialshoal_unpack(&b, room + 2, need - 2, &unpacking) == 3 && unpacking.done == 1);
    IS(unpacking.taken == 0 && unpacking.known == 0 && unpacking.waiting == 0 && !unpacking.stopped);
    IS(vialshoal_pack(&a, &front, 1, room, sizeof room, &need) == 0);
    IS(vialshoal_unpack(&b, room + 2, need - 2, &unpacking) == 3 && unpacking.done == 0);
    shows(&b, "xz");
    for (int i = 0; i < 69; i++) IS(vialshoal_insert(&a, 0, BYTES("w"), 1, &sent) == 0);
    IS(vialshoal_pack(&a, &front, 1, room, sizeof room, &need) == 0);
    IS(vialshoal_new(&c, 1, 2) == 0 && vialshoal_unpack(&c, room + 2, need - 2, &unpacking) == 6 && unpacking.done == 64);
    IS(vialshoal_waiting(&c, &count) == 0 && count == 64);
    IS(vialshoal_pack(&a, &front, 0, room, sizeof room, &need) == 0);
    IS(vialshoal_unpack(&c, room + 2, need - 2, &unpacking) == 0 && unpacking.taken == 71 && unpacking.known == 64);
    shows_as(&a, &c);
    IS(vialshoal_free(&a) == 0 && vialshoal_free(&b) == 0 && vialshoal_free(&c) == 0);
}

/* What is taken in between two calls comes after the rest; of two fronts of a site the first counts. */
static void goes_on_since(void) {
    static const vialshoal_site_front fronts[] = {{1, 1}, {2, 9}, {1, 2}};
    vialshoal_text a = {0};
    uint32_t sent;
    uint64_t index = 0, need;
    IS(vialshoal_new(&a, 1, 1) == 0);
    IS(vialshoal_insert(&a, 0, BYTES("a"), 1, &sent) == 0 && vialshoal_insert(&a, 1, BYTES("b"), 1, &sent) == 0);
    need = next_since(&a, fronts, 3, &index);
    IS(need > 0 && room[need - 1] == 'b' && next_since(&a, fronts, 3, &index) == 0);
    IS(vialshoal_insert(&a, 0, BYTES("c"), 1, &sent) == 0);
    need = next_since(&a, fronts, 3, &index);
    IS(need > 0 && room[need - 1] == 'c' && next_since(&a, fronts, 3, &index) == 0);
    IS(vialshoal_free(&a) == 0);
}

/* A text as it was answers what a text does that took those operations alone. */
static void was(vialshoal_past_text *past, vialshoal_text *text) {
    uint8_t bytes[64], others[64];
    vialshoal_name names[64], its[64];
    vialshoal_looks_run run, as;
    vialshoal_place place, there;
    uint64_t length, count, need;
    IS(vialshoal_past_length(past, &length) == 0 && vialshoal_length(text, &count) == 0 && length == count && length < 64);
    IS(vialshoal_past_bytes(past, 0, length, bytes, 64, &need) == 0 && need == length);
    IS(vialshoal_bytes(text, 0, length, others, 64, &need) == 0 && memcmp(bytes, others, length) == 0);
    IS(vialshoal_past_names(past, 0, length, names, 64, &need) == 0 && need == length);
    IS(vialshoal_names(text, 0, length, its, 64, &need) == 0);
    for (uint64_t pos = 0; pos < length; pos++) {
        IS(names[pos].site == its[pos].site && names[pos].offset == its[pos].offset);
        IS(vialshoal_past_looks(past, pos, &run, bytes, 31, &count) == 0);
        IS(vialshoal_looks(text, pos, &as, others, 31, &need) == 0 && count == need && memcmp(bytes, others, need) == 0);
        IS(run.end == as.end && run.colour == as.colour && run.offset == as.offset);
    }
    for (uint16_t site = 1; site <= 2; site++) {
        for (uint32_t offset = 0; offset < 64; offset++) {
            uint32_t number = vialshoal_past_find(past, site, offset, &place);
            IS(vialshoal_find(text, site, offset, &there) == number);
            IS(number != 0 || (place.pos == there.pos && place.is_shown == there.is_shown));
        }
    }
}

/* A text of the messages that another one has up to fronts. What builds on later ones waits in it. */
static void take_up_to(vialshoal_text *from, const vialshoal_site_front *fronts, vialshoal_text *made) {
    static const vialshoal_site_front nothing = {1, 0};
    uint64_t index = 0, need;
    vialshoal_taking taking;
    IS(vialshoal_new(made, 1, 9) == 0);
    while ((need = next_since(from, &nothing, 0, &index)) > 0) {
        uint16_t site = (uint16_t)(room[6] << 8 | room[7]);
        uint32_t seq = (uint32_t)room[8] << 24 | room[9] << 16 | room[10] << 8 | room[11];
        if ((site == 1 || site == 2) && seq <= fronts[site - 1].seq) {
            IS(vialshoal_take(made, room, need, &taking) == 0);
        }
    }
}

/* Each text of two sites as it was, twice at once; and one that outlives its text. */
static void has_a_past(void) {
    vialshoal_text a = {0}, b = {0}, then = {0};
    vialshoal_past_text past = {0}, other = {0};
    uint32_t sent, random = 1;
    IS(vialshoal_new(&a, 1, 1) == 0 && vialshoal_new(&b, 1, 2) == 0);
    for (uint32_t i = 0; i < 24; i++) {
        edits_at_random(i % 2 ? &a : &b, &random);
        if (i % 5 == 0) {
            brings(&a, &b);
            brings(&b, &a);
        }
    }
    brings(&b, &a);
    for (vialshoal_site_front fronts[2] = {{1, 0}, {2, 0}}; fronts[0].seq <= 13; fronts[0].seq++) {
        for (fronts[1].seq = fronts[0].seq % 3; fronts[1].seq <= 13; fronts[1].seq += 3) {
            take_up_to(&a, fronts, &then);
            IS(vialshoal_past(&a, fronts, 2, &past) == 0 && vialshoal_past(&a, fronts, 2, &other) == 0);
            was(&past, &then);
            IS(vialshoal_past_free(&past) == 0);
            was(&other, &then);
            IS(vialshoal_past_free(&other) == 0 && vialshoal_free(&then) == 0);
        }
    }
    vialshoal_site_front fronts[4];
    size_t count = fronts_of(&a, fronts);
    IS(vialshoal_past(&a, fronts, count, &past) == 0 && vialshoal_past(&a, fronts, 0, &other) == 0);
    take_up_to(&a, fronts, &then);
    IS(vialshoal_insert(&a, 0, BYTES("later"), 5, &sent) == 0);
    was(&past, &then);
    IS(vialshoal_free(&a) == 0 && vialshoal_free(&b) == 0);
    was(&past, &then);
    IS(vialshoal_past_free(&past) == 0 && vialshoal_past_free(&other) == 0 && vialshoal_free(&then) == 0);
}

/* What a text as it was refuses, which shows "abc" then. */
static void past_refuses(void) {
    vialshoal_text a = {0};
    vialshoal_past_text past = {0};
    static const vialshoal_site_front front = {1, 1};
    vialshoal_name names[3];
    vialshoal_place place;
    vialshoal_looks_run run;
    uint32_t sent;
    uint64_t need;
    IS(vialshoal_new(&a, 1, 1) == 0 && vialshoal_insert(&a, 0, BYTES("abc"), 3, &sent) == 0);
    IS(vialshoal_insert(&a, 3, BYTES("d"), 1, &sent) == 0 && vialshoal_past(&a, &front, 1, &past) == 0);
    IS(vialshoal_past_length(&past, &need) == 0 && need == 3);
    IS(vialshoal_past_bytes(&past, 0, 4, room, sizeof room, &need) == VIALSHOAL_OUT_OF_TEXT);
    IS(vialshoal_past_bytes(&past, 2, 1, room, sizeof room, &need) == VIALSHOAL_OUT_OF_TEXT);
    IS(vialshoal_past_bytes(&past, 0, 3, room, 2, &need) == VIALSHOAL_TOO_SHORT && need == 3);
    IS(vialshoal_past_names(&past, 0, 4, names, 3, &need) == VIALSHOAL_OUT_OF_TEXT);
    IS(vialshoal_past_names(&past, 0, 3, names, 2, &need) == VIALSHOAL_TOO_SHORT && need == 3);
    IS(vialshoal_past_looks(&past, 3, &run, room, 31, &need) == VIALSHOAL_OUT_OF_TEXT);
    IS(vialshoal_past_looks(&past, 1, &run, room, 15, &need) == VIALSHOAL_TOO_SHORT && need == 16 && run.end == 3);
    IS(vialshoal_past_find(&past, 1, 3, &place) == VIALSHOAL_NO_NAME);
    IS(vialshoal_past_find(&past, 0, 0, &place) == VIALSHOAL_NO_NUMBER);
    IS(vialshoal_past_find(&past, 1, 1 << 24, &place) == VIALSHOAL_NO_NUMBER);
    IS(vialshoal_past_free(&past) == 0 && vialshoal_free(&a) == 0);
}

/* A text is saved as a text file, byte for byte. */
static void saves(void) {
    static const uint8_t wanted[] = "OTF1\0\0\0\2\x10Oberon10.Scn.Fnt\1\0\0\0\0\2\1a\7\xfd\0\0\0\1\0\0\0\3Oxb";
    vialshoal_text a = {0};
    uint32_t sent;
    uint64_t need;
    IS(vialshoal_new(&a, 1, 1) == 0);
    IS(vialshoal_save(&a, room, sizeof room, &need) == 0 && need == 12 && memcmp(room, "OTF1\0\0\0\0\0\0\0\0", 12) == 0);
    IS(vialshoal_insert(&a, 0, BYTES("Ob"), 2, &sent) == 0);
    IS(vialshoal_insert_in_looks(&a, 2, BYTES("b"), 1, BYTES("a"), 1, 7, -3, &sent) == 0);
    IS(vialshoal_insert(&a, 1, BYTES("x"), 1, &sent) == 0 && vialshoal_delete(&a, 2, 3, &sent) == 0);
    IS(vialshoal_save(&a, room, 0, &need) == VIALSHOAL_TOO_SHORT && need == sizeof wanted - 1);
    IS(vialshoal_save(&a, room, need - 1, &need) == VIALSHOAL_TOO_SHORT && need == sizeof wanted - 1);
    IS(vialshoal_save(&a, room, need, &need) == 0 && memcmp(room, wanted, sizeof wanted - 1) == 0);
    IS(vialshoal_free(&a) == 0);
}

/* A short run of two texts, in which an allocation may be refused: 0 where none was. */
static uint32_t short_run(vialshoal_text *a, vialshoal_text *b) {
    static const vialshoal_name_range some[] = {{1, 2, 1}, {1, 4, 1}}, all[] = {{1, 0, 6}};
    uint32_t sent;
    uint64_t taken, need;
    vialshoal_taking taking;
    uint32_t worst = vialshoal_new(a, 1, 1);
    worst += vialshoal_new(b, 1, 2);
    worst += vialshoal_insert(a, 0, BYTES("Oberon"), 6, &sent) % 101;
    worst += vialshoal_insert_in_looks(a, 0, BYTES("ab"), 2, BYTES("a"), 1, 3, 0, &sent) % 101;
    worst += vialshoal_delete(a, 0, 2, &sent) % 101;
    worst += vialshoal_recall(a, 0, &sent) % 101;
    worst += vialshoal_delete_names(a, some, 2, &sent) % 101;
    worst += vialshoal_restore_names(a, all, 1, &sent) % 101;
    if (vialshoal_message(a, 0, room, sizeof room, &need) == 0) {
        worst += vialshoal_take(b, room, need, &taking) % 101;
    }
    return worst + vialshoal_merge(b, a, &taken) % 101;
}

/* What is read of a text, likewise. Nothing of it changes the text, and a past that isn't opened is none. */
static uint32_t short_look(vialshoal_text *a) {
    static const vialshoal_site_front front = {1, 3};
    vialshoal_past_text past = {0};
    uint64_t index = 0, need;
    uint32_t worst = vialshoal_since(a, &front, 1, &index, room, sizeof room, &need) % 101;
    IS((index > 0) == (worst == 0 && a->at != NULL));
    worst += vialshoal_pack(a, &front, 1, room, sizeof room, &need) % 101;
    worst += vialshoal_save(a, room, sizeof room, &need) % 101;
    uint32_t number = vialshoal_past(a, &front, 1, &past);
    IS((number == 0) == (past.at != NULL));
    worst += number % 101;
    if (number == 0) {
        IS(vialshoal_past_length(&past, &need) == 0 && vialshoal_past_bytes(&past, 0, need, room, need, &need) == 0);
        IS(vialshoal_past_free(&past) == 0);
    }
    return worst;
}

/* What keeps it in either form, and opens it again, likewise. */
static uint32_t short_keeping(vialshoal_text *a) {
    static storing *const forms[] = {vialshoal_store, vialshoal_store_packed};
    uint32_t worst = 0;
    for (size_t i = 0; i < 2; i++) {
        vialshoal_text again = {0};
        uint64_t need;
        uint32_t number = forms[i](a, room, sizeof room, &need);
        worst += number % 101;
        if (number == 0) {
            number = vialshoal_load(&again, room, need);
            IS((number == 0 || number == 7) && (number == 0) == (again.at != NULL));
            worst += number;
            vialshoal_free(&again);
        }
    }
    return worst;
}

/* What another text takes of it in chunks, likewise: what lacks its causes first, and then all. */
static uint32_t short_unpacking(vialshoal_text *a) {
    static const vialshoal_site_front fronts[] = {{1, 2}, {1, 0}};
    vialshoal_text other = {0};
    uint32_t worst = vialshoal_new(&other, 1, 3);
    for (size_t i = 0; i < 2; i++) {
        vialshoal_unpacking unpacking = {0};
        uint64_t need;
        uint32_t number = vialshoal_pack(a, &fronts[i], 1, room, sizeof room, &need);
        worst += number % 101;
        if (number == 0 && need > 0 && other.at != NULL) {
            number = vialshoal_unpack(&other, room + 2, need - 2, &unpacking);
            IS(number == 0 || (number == 7 && unpacking.taken + unpacking.known + unpacking.waiting == 0));
            worst += number + unpacking.stopped;
        }
    }
    if (worst == 0 && a->at != NULL) {
        uint64_t length, all;
        IS(vialshoal_length(&other, &length) == 0 && vialshoal_length(a, &all) == 0 && length == all);
    }
    vialshoal_free(&other);
    return worst;
}

/* Each allocation of a short run is refused in turn. What stands afterwards can be edited, and met. One is done without, where fronts
 * are looked up at once. */
static void each_allocation_is_refused(void) {
    long without = 0;
    for (long at = 1;; at++) {
        vialshoal_text a = {0}, b = {0};
        uint32_t sent;
        uint64_t taken, length = 0;
        asked = 0;
        refused_at = at;
        uint32_t worst = short_run(&a, &b);
        worst += short_look(&a);
        worst += short_keeping(&a);
        worst += short_unpacking(&a);
        bool was_refused = asked >= refused_at;
        refused_at = 0;
        if (a.at != NULL && b.at != NULL) {
            IS(vialshoal_insert(&a, 0, BYTES("x"), 1, &sent) == 0 && sent == 1);
            IS(vialshoal_merge(&b, &a, &taken) == 0);
            IS(vialshoal_length(&a, &length) == 0);
            IS(vialshoal_length(&b, &taken) == 0 && length == taken);
            IS(short_look(&a) == 0 && short_keeping(&a) == 0 && short_unpacking(&a) == 0);
        }
        vialshoal_free(&a);
        vialshoal_free(&b);
        if (was_refused) without += worst == 0;
        if (!was_refused) {
            IS(worst == 0 && without <= 1);
            printf("allocations refused in turn: %ld, done without: %ld\n", at - 1, without);
            return;
        }
    }
}

static void many_edits(uint32_t edits) {
    vialshoal_text a = {0}, b = {0};
    uint32_t random = 1;
    uint64_t length;
    IS(vialshoal_new(&a, 1, 1) == 0 && vialshoal_new(&b, 1, 2) == 0);
    for (uint32_t i = 0; i < edits; i++) {
        edits_at_random(i % 2 ? &b : &a, &random);
        hand_over(i % 2 ? &b : &a, i % 2 ? &a : &b);
    }
    shows_as(&a, &b);
    IS(vialshoal_length(&a, &length) == 0);
    IS(vialshoal_free(&a) == 0 && vialshoal_free(&b) == 0);
    printf("edits: %u, length: %llu\n", edits, (unsigned long long)length);
}

int main(int count, char **words) {
    uint32_t edits = count > 1 ? (uint32_t)atoi(words[1]) : 100000;
    refuses_a_closed_past();
    refuses_a_closed_one();
    refuses_misuse();
    refuses_too_much();
    answers_a_part();
    two_meet();
    ends_noting();
    packs();
    edits_by_names();
    refuses_scattered_names();
    inserts_in_looks();
    goes_on_since();
    meets_by_since(edits / 10);
    packs_chunks();
    refuses_chunks();
    refuses_a_part();
    meets_by_chunks(edits / 10);
    has_a_past();
    past_refuses();
    saves();
    each_allocation_is_refused();
    many_edits(edits);
    puts("border: all is so");
    return 0;
}
