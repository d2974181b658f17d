/* The C library's calls of notes for Node. note.js makes of them what its users see, and checks what it hands over. */
#include <stdlib.h>
#include <string.h>

#include "addon.h"

enum { BODY = 16172, FONT = 31, FEW = 64 };

typedef struct {
    napi_value at[MOST];
    vialshoal_note *note;
    uint16_t text;
} arguments;

/* -- what calls are given -- */

/* The arguments of a call, the first of which is a note. */
static bool taken(napi_env env, napi_callback_info info, size_t count, arguments *given) {
    size_t found = MOST;
    void *data;
    if (napi_get_cb_info(env, info, &found, given->at, NULL, NULL) != napi_ok || found != count ||
        napi_get_value_external(env, given->at[0], &data) != napi_ok || ((shown *)data)->kind != NOTE) {
        napi_throw_error(env, NULL, "vialshoal: a note was expected");
        return false;
    }
    touch(data);
    given->note = &((shown *)data)->note;
    return true;
}

static bool short_of(napi_env env, napi_value value, uint16_t *number) {
    uint64_t found;
    if (!number_of(env, value, &found)) return false;
    *number = (uint16_t)found;
    return true;
}

/* The arguments of a call, the second of which is the number of a text of it. */
static bool taken_text(napi_env env, napi_callback_info info, size_t count, arguments *given) {
    if (!taken(env, info, count, given)) return false;
    if (short_of(env, given->at[1], &given->text)) return true;
    napi_throw_error(env, NULL, "vialshoal: an argument is none");
    return false;
}

static bool hash_of(napi_env env, napi_value value, vialshoal_hash *hash) {
    const uint8_t *bytes;
    size_t length;
    if (!bytes_of(env, value, &bytes, &length) || length != sizeof *hash) return false;
    memcpy(hash, bytes, length);
    return true;
}

static napi_value part(napi_env env, napi_value object, const char *name) {
    napi_value value;
    return napi_get_named_property(env, object, name, &value) == napi_ok ? value : object;
}

static bool head_of(napi_env env, napi_value object, vialshoal_head *head) {
    uint64_t first;
    bool is_one = hash_of(env, part(env, object, "author"), &head->author) && hash_of(env, part(env, object, "before"), &head->before) &&
                  number_of(env, part(env, object, "first"), &first) && short_of(env, part(env, object, "count"), &head->count) &&
                  short_of(env, part(env, object, "site"), &head->site) && short_of(env, part(env, object, "text"), &head->text);
    if (is_one) head->first = (uint32_t)first;
    return is_one;
}

static napi_value head_for(napi_env env, const vialshoal_head *head) {
    const struct {
        const char *name;
        double number;
    } numbers[] = {{"first", head->first}, {"count", head->count}, {"site", head->site}, {"text", head->text}};
    napi_value object, value;
    TRY(napi_create_object(env, &object));
    TRY(napi_create_buffer_copy(env, sizeof head->author, &head->author, NULL, &value));
    TRY(napi_set_named_property(env, object, "author", value));
    TRY(napi_create_buffer_copy(env, sizeof head->before, &head->before, NULL, &value));
    TRY(napi_set_named_property(env, object, "before", value));
    for (size_t i = 0; i < sizeof numbers / sizeof numbers[0]; i++) {
        TRY(napi_create_double(env, numbers[i].number, &value));
        TRY(napi_set_named_property(env, object, numbers[i].name, value));
    }
    return object;
}

/* -- a note, and what comes to it -- */

static napi_value note_open(napi_env env, napi_callback_info info) {
    size_t found = 2, length;
    napi_value at[2];
    uint16_t site, number;
    vialshoal_hash key, founder, base_key, root;
    const uint8_t *base;
    TRY(napi_get_cb_info(env, info, &found, at, NULL, NULL));
    TRY(short_of(env, at[0], &site) && short_of(env, part(env, at[1], "number"), &number) ? napi_ok : napi_invalid_arg);
    TRY(hash_of(env, part(env, at[1], "key"), &key) && hash_of(env, part(env, at[1], "founder"), &founder) ? napi_ok : napi_invalid_arg);
    TRY(hash_of(env, part(env, at[1], "baseKey"), &base_key) && hash_of(env, part(env, at[1], "root"), &root) ? napi_ok : napi_invalid_arg);
    TRY(bytes_of(env, part(env, at[1], "base"), &base, &length) ? napi_ok : napi_invalid_arg);
    shown *it = calloc(1, sizeof *it);
    if (it == NULL) return ANSWER(7);
    it->kind = NOTE;
    return opened(env, it, vialshoal_note_new(&it->note, site, &key, &founder, number, &base_key, &root, base, length));
}

static napi_value note_close(napi_env env, napi_callback_info info) {
    arguments given;
    if (!taken(env, info, 1, &given)) return NULL;
    return ANSWER(vialshoal_note_free(given.note));
}

static napi_value note_claim(napi_env env, napi_callback_info info) {
    arguments given;
    uint16_t site;
    vialshoal_hash author, rank;
    if (!taken(env, info, 4, &given)) return NULL;
    TRY(hash_of(env, given.at[1], &author) && hash_of(env, given.at[3], &rank) ? napi_ok : napi_invalid_arg);
    TRY(short_of(env, given.at[2], &site) ? napi_ok : napi_invalid_arg);
    return ANSWER(vialshoal_note_claim(given.note, &author, site, &rank));
}

static napi_value note_add(napi_env env, napi_callback_info info) {
    arguments given;
    vialshoal_head head;
    const uint8_t *body;
    size_t length;
    if (!taken(env, info, 3, &given)) return NULL;
    TRY(head_of(env, given.at[1], &head) && bytes_of(env, given.at[2], &body, &length) ? napi_ok : napi_invalid_arg);
    return ANSWER(vialshoal_note_add(given.note, &head, body, length));
}

static napi_value note_update(napi_env env, napi_callback_info info) {
    arguments given;
    if (!taken(env, info, 1, &given)) return NULL;
    return ANSWER(vialshoal_note_update(given.note));
}

/* An own entry's head and body. */
static napi_value note_own(napi_env env, napi_callback_info info) {
    arguments given;
    vialshoal_hash author;
    vialshoal_head head;
    uint64_t index, need;
    uint8_t body[BODY];
    napi_value value;
    if (!taken_text(env, info, 4, &given)) return NULL;
    TRY(hash_of(env, given.at[2], &author) && number_of(env, given.at[3], &index) ? napi_ok : napi_invalid_arg);
    uint32_t number = vialshoal_note_own(given.note, given.text, &author, index, &head, body, sizeof body, &need);
    napi_value list = ANSWER(number);
    if (number != 0 || list == NULL) return list;
    TRY(napi_set_element(env, list, 1, head_for(env, &head)));
    TRY(napi_create_buffer_copy(env, need, body, NULL, &value));
    TRY(napi_set_element(env, list, 2, value));
    return list;
}

/* -- edits: the number, and how many messages they made -- */

static napi_value note_insert(napi_env env, napi_callback_info info) {
    arguments given;
    uint64_t pos;
    const uint8_t *bytes;
    size_t length;
    uint32_t sent = 0;
    if (!taken_text(env, info, 4, &given)) return NULL;
    TRY(number_of(env, given.at[2], &pos) && bytes_of(env, given.at[3], &bytes, &length) ? napi_ok : napi_invalid_arg);
    uint32_t number = vialshoal_note_insert(given.note, given.text, pos, bytes, length, &sent);
    return ANSWER(number, sent);
}

static napi_value note_delete(napi_env env, napi_callback_info info) {
    arguments given;
    uint64_t beg, end;
    uint32_t sent = 0;
    if (!taken_text(env, info, 4, &given)) return NULL;
    TRY(number_of(env, given.at[2], &beg) && number_of(env, given.at[3], &end) ? napi_ok : napi_invalid_arg);
    uint32_t number = vialshoal_note_delete(given.note, given.text, beg, end, &sent);
    return ANSWER(number, sent);
}

static napi_value note_looks(napi_env env, napi_callback_info info) {
    arguments given;
    uint64_t beg, end, selected, colour;
    int32_t offset;
    const uint8_t *font;
    size_t length;
    uint32_t sent = 0;
    if (!taken_text(env, info, 8, &given)) return NULL;
    TRY(number_of(env, given.at[2], &beg) && number_of(env, given.at[3], &end) ? napi_ok : napi_invalid_arg);
    TRY(number_of(env, given.at[4], &selected) && bytes_of(env, given.at[5], &font, &length) ? napi_ok : napi_invalid_arg);
    TRY(number_of(env, given.at[6], &colour) ? napi_ok : napi_invalid_arg);
    TRY(napi_get_value_int32(env, given.at[7], &offset));
    uint32_t number = vialshoal_note_change_looks(given.note, given.text, beg, end, (uint8_t)selected, font, length, (uint8_t)colour,
                                                  (int8_t)offset, &sent);
    return ANSWER(number, sent);
}

typedef uint32_t by_names(vialshoal_note *note, uint16_t text, const vialshoal_name_range *names, size_t count, uint32_t *sent);

static napi_value edit_names(napi_env env, napi_callback_info info, by_names *edit) {
    arguments given;
    vialshoal_name_range *names;
    size_t count;
    uint32_t sent = 0;
    if (!taken_text(env, info, 3, &given)) return NULL;
    TRY(name_ranges_of(env, given.at[2], &names, &count) ? napi_ok : napi_invalid_arg);
    uint32_t number = names == NULL ? 7 : edit(given.note, given.text, names, count, &sent);
    free(names);
    return ANSWER(number, sent);
}

static napi_value note_delete_names(napi_env env, napi_callback_info info) { return edit_names(env, info, vialshoal_note_delete_names); }

static napi_value note_restore_names(napi_env env, napi_callback_info info) { return edit_names(env, info, vialshoal_note_restore_names); }

/* -- what a text shows -- */

/* Whether the text was begun anew, and some of its changes, a kind, a begin and an end each: until there are none. */
static napi_value note_changes(napi_env env, napi_callback_info info) {
    arguments given;
    bool is_anew = false;
    uint64_t need = FEW;
    vialshoal_change *room = NULL;
    uint32_t number = VIALSHOAL_TOO_SHORT;
    if (!taken_text(env, info, 2, &given)) return NULL;
    while (number == VIALSHOAL_TOO_SHORT) {
        free(room);
        room = malloc(need * sizeof *room);
        number = room == NULL ? 7 : vialshoal_note_changes(given.note, given.text, &is_anew, room, need, &need);
    }
    double *numbers = number == 0 ? malloc((2 + 3 * need) * sizeof *numbers) : NULL;
    if (numbers != NULL) {
        numbers[0] = 0;
        numbers[1] = is_anew;
        for (uint64_t i = 0; i < need; i++) {
            numbers[3 * i + 2] = room[i].kind;
            numbers[3 * i + 3] = (double)room[i].beg;
            numbers[3 * i + 4] = (double)room[i].end;
        }
    }
    napi_value list = numbers != NULL ? answer(env, 2 + 3 * need, numbers) : ANSWER(number == 0 ? 7 : number);
    free(numbers);
    free(room);
    return list;
}

static napi_value note_length(napi_env env, napi_callback_info info) {
    arguments given;
    uint64_t length = 0;
    if (!taken_text(env, info, 2, &given)) return NULL;
    uint32_t number = vialshoal_note_length(given.note, given.text, &length);
    return ANSWER(number, (double)length);
}

static napi_value note_bytes(napi_env env, napi_callback_info info) {
    arguments given;
    uint64_t beg, end, need;
    napi_value buffer;
    void *room;
    if (!taken_text(env, info, 4, &given)) return NULL;
    TRY(number_of(env, given.at[2], &beg) && number_of(env, given.at[3], &end) ? napi_ok : napi_invalid_arg);
    uint32_t number = vialshoal_note_bytes(given.note, given.text, beg, end, NULL, 0, &need);
    if (number != 0 && number != VIALSHOAL_TOO_SHORT) return ANSWER(number);
    TRY(napi_create_buffer(env, need, &room, &buffer));
    if (need > 0) vialshoal_note_bytes(given.note, given.text, beg, end, room, need, &need);
    return buffer;
}

static napi_value note_look(napi_env env, napi_callback_info info) {
    arguments given;
    uint64_t pos, need;
    uint8_t font[FONT];
    vialshoal_looks_run run = {0};
    double numbers[4 + FONT];
    if (!taken_text(env, info, 3, &given)) return NULL;
    TRY(number_of(env, given.at[2], &pos) ? napi_ok : napi_invalid_arg);
    uint32_t number = vialshoal_note_looks(given.note, given.text, pos, &run, font, sizeof font, &need);
    if (number != 0) return ANSWER(number);
    numbers[0] = 0;
    numbers[1] = (double)run.end;
    numbers[2] = run.colour;
    numbers[3] = run.offset;
    for (uint64_t i = 0; i < need; i++) numbers[4 + i] = font[i];
    return answer(env, 4 + need, numbers);
}

static napi_value note_names(napi_env env, napi_callback_info info) {
    arguments given;
    uint64_t beg, end, need;
    if (!taken_text(env, info, 4, &given)) return NULL;
    TRY(number_of(env, given.at[2], &beg) && number_of(env, given.at[3], &end) ? napi_ok : napi_invalid_arg);
    uint32_t number = vialshoal_note_names(given.note, given.text, beg, end, NULL, 0, &need);
    if (number != 0 && number != VIALSHOAL_TOO_SHORT) return ANSWER(number);
    vialshoal_name *room = malloc((need + 1) * sizeof *room);
    double *numbers = malloc((2 * need + 1) * sizeof *numbers);
    napi_value list = NULL;
    if (room != NULL && numbers != NULL && vialshoal_note_names(given.note, given.text, beg, end, room, need, &need) == 0) {
        numbers[0] = 0;
        for (uint64_t i = 0; i < need; i++) {
            numbers[2 * i + 1] = room[i].site;
            numbers[2 * i + 2] = room[i].offset;
        }
        list = answer(env, 2 * need + 1, numbers);
    }
    free(room);
    free(numbers);
    return list == NULL ? ANSWER(7) : list;
}

static napi_value note_find(napi_env env, napi_callback_info info) {
    arguments given;
    uint16_t site;
    uint64_t offset;
    vialshoal_place place = {0};
    if (!taken_text(env, info, 4, &given)) return NULL;
    TRY(short_of(env, given.at[2], &site) && number_of(env, given.at[3], &offset) ? napi_ok : napi_invalid_arg);
    uint32_t number = vialshoal_note_find(given.note, given.text, site, (uint32_t)offset, &place);
    return ANSWER(number, (double)place.pos, place.is_shown);
}

static napi_value note_front(napi_env env, napi_callback_info info) {
    arguments given;
    uint16_t site;
    uint32_t front = 0;
    if (!taken_text(env, info, 3, &given)) return NULL;
    TRY(short_of(env, given.at[2], &site) ? napi_ok : napi_invalid_arg);
    uint32_t number = vialshoal_note_front(given.note, given.text, site, &front);
    return ANSWER(number, front);
}

static napi_value note_sites(napi_env env, napi_callback_info info) {
    arguments given;
    uint64_t need;
    if (!taken_text(env, info, 2, &given)) return NULL;
    uint32_t number = vialshoal_note_sites(given.note, given.text, NULL, 0, &need);
    if (number != VIALSHOAL_TOO_SHORT) return ANSWER(number);
    uint16_t *room = malloc(need * sizeof *room);
    double *numbers = malloc((need + 1) * sizeof *numbers);
    napi_value list = NULL;
    if (room != NULL && numbers != NULL && vialshoal_note_sites(given.note, given.text, room, need, &need) == 0) {
        numbers[0] = 0;
        for (uint64_t i = 0; i < need; i++) numbers[i + 1] = room[i];
        list = answer(env, need + 1, numbers);
    }
    free(room);
    free(numbers);
    return list == NULL ? ANSWER(7) : list;
}

static napi_value note_past(napi_env env, napi_callback_info info) {
    arguments given;
    vialshoal_site_front *fronts;
    size_t count;
    if (!taken_text(env, info, 3, &given)) return NULL;
    TRY(fronts_of(env, given.at[2], &fronts, &count) ? napi_ok : napi_invalid_arg);
    shown *it = calloc(1, sizeof *it);
    uint32_t number = 7;
    if (fronts != NULL && it != NULL) {
        it->kind = PAST;
        number = vialshoal_note_past(given.note, given.text, fronts, count, &it->past);
    }
    free(fronts);
    return opened(env, it, number);
}

const named_call NOTE_CALLS[] = {
    {"noteOpen", note_open},
    {"noteClose", note_close},
    {"noteClaim", note_claim},
    {"noteAdd", note_add},
    {"noteUpdate", note_update},
    {"noteOwn", note_own},
    {"noteInsert", note_insert},
    {"noteDelete", note_delete},
    {"noteLooks", note_looks},
    {"noteDeleteNames", note_delete_names},
    {"noteRestoreNames", note_restore_names},
    {"noteChanges", note_changes},
    {"noteLength", note_length},
    {"noteBytes", note_bytes},
    {"noteLook", note_look},
    {"noteNames", note_names},
    {"noteFind", note_find},
    {"noteFront", note_front},
    {"noteSites", note_sites},
    {"notePast", note_past},
    {NULL, NULL},
};
