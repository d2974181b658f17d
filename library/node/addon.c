/* The C library's calls for Node. text.js makes of them what its users see, and checks what it hands over. */
#include "addon.h"

#include <errno.h>
#include <stdlib.h>
#include <string.h>
#include <sys/file.h>

#include "counted.h"

/* The collector is told of as much memory as this, and not of each byte. */
#define MUCH 4096

/* What the call that runs is of. */
static _Thread_local shown *touched;

void touch(shown *it) { touched = it; }

/* What an edit answers beside its messages, in an array that text.js reads: its number; of how many changes it tells, or -1 where these are
 * more than there is room for; and of each its kind, its begin and its end. */
enum { NUMBER, COUNT, CHANGES, FEW = 16, ROOM = CHANGES + 3 * FEW };

typedef struct {
    napi_value at[MOST];
    shown *shown;
    vialshoal_text *text;
} arguments;

static uint32_t freed(shown *it) {
    if (it->kind == NOTE) return vialshoal_note_free(&it->note);
    return it->kind == PAST ? vialshoal_past_free(&it->past) : vialshoal_free(&it->text);
}

static void tell(napi_env env, shown *it) {
    int64_t all;
    if (napi_adjust_external_memory(env, it->holds - it->told, &all) == napi_ok) it->told = it->holds;
}

static void let_go(napi_env env, void *data, void *hint) {
    (void)hint;
    shown *it = data;
    freed(it);
    it->holds = 0;
    tell(env, it);
    free(it);
}

/* Does a call, and tells the collector what that has made of the memory which its text holds. */
static napi_value counted(napi_env env, napi_callback_info info) {
    void *data;
    TRY(napi_get_cb_info(env, info, NULL, NULL, NULL, &data));
    int64_t before = vialshoal_held;
    touched = NULL;
    napi_value answered = (*(const napi_callback *)data)(env, info);
    if (touched == NULL) return answered;
    touched->holds += vialshoal_held - before;
    if (llabs(touched->holds - touched->told) >= MUCH) tell(env, touched);
    return answered;
}

/* The arguments of a call, the first of which is a text, or one as it was. */
static bool taken_shown(napi_env env, napi_callback_info info, size_t count, arguments *given) {
    size_t found = MOST;
    void *data;
    if (napi_get_cb_info(env, info, &found, given->at, NULL, NULL) != napi_ok || found != count ||
        napi_get_value_external(env, given->at[0], &data) != napi_ok || ((shown *)data)->kind == NOTE) {
        napi_throw_error(env, NULL, "vialshoal: a text was expected");
        return false;
    }
    given->shown = touched = data;
    given->text = &given->shown->text;
    return true;
}

/* The arguments of a call, the first of which is a text. */
static bool taken(napi_env env, napi_callback_info info, size_t count, arguments *given) {
    if (!taken_shown(env, info, count, given)) return false;
    if (given->shown->kind == PAST) napi_throw_error(env, NULL, "vialshoal: a text was expected");
    return given->shown->kind == TEXT;
}

bool number_of(napi_env env, napi_value value, uint64_t *number) {
    int64_t signed_one;
    if (napi_get_value_int64(env, value, &signed_one) != napi_ok) return false;
    *number = signed_one < 0 ? UINT64_MAX : (uint64_t)signed_one;
    return true;
}

bool bytes_of(napi_env env, napi_value value, const uint8_t **bytes, size_t *length) {
    static const uint8_t none[1];
    void *data;
    napi_typedarray_type type;
    if (napi_get_typedarray_info(env, value, &type, length, &data, NULL, NULL) != napi_ok || type != napi_uint8_array) {
        return false;
    }
    *bytes = data == NULL ? none : data;
    return true;
}

bool numbers_of(napi_env env, napi_value value, const uint32_t **numbers, size_t *length) {
    void *data;
    napi_typedarray_type type;
    if (napi_get_typedarray_info(env, value, &type, length, &data, NULL, NULL) != napi_ok || type != napi_uint32_array) {
        return false;
    }
    *numbers = data;
    return true;
}

/* The numbers as an array: the first is the call's own. */
napi_value answer(napi_env env, size_t count, const double *numbers) {
    napi_value list, number;
    TRY(napi_create_array_with_length(env, count, &list));
    for (size_t i = 0; i < count; i++) {
        TRY(napi_create_double(env, numbers[i], &number));
        TRY(napi_set_element(env, list, (uint32_t)i, number));
    }
    return list;
}

/* What was opened, or the number that refused it. */
napi_value opened(napi_env env, shown *it, uint32_t number) {
    napi_value made;
    if (number != 0) {
        free(it);
        return ANSWER(number);
    }
    touched = it;
    TRY(napi_create_external(env, it, let_go, NULL, &made));
    return made;
}

static napi_value open_text(napi_env env, napi_callback_info info) {
    size_t found = 2;
    napi_value at[2];
    uint32_t text, site;
    TRY(napi_get_cb_info(env, info, &found, at, NULL, NULL));
    TRY(napi_get_value_uint32(env, at[0], &text));
    TRY(napi_get_value_uint32(env, at[1], &site));
    shown *it = calloc(1, sizeof *it);
    return opened(env, it, it == NULL ? 7 : vialshoal_new(&it->text, (uint16_t)text, (uint16_t)site));
}

static napi_value load(napi_env env, napi_callback_info info) {
    size_t found = 1, length;
    napi_value at[1];
    const uint8_t *bytes;
    TRY(napi_get_cb_info(env, info, &found, at, NULL, NULL));
    TRY(bytes_of(env, at[0], &bytes, &length) ? napi_ok : napi_invalid_arg);
    shown *it = calloc(1, sizeof *it);
    return opened(env, it, it == NULL ? 7 : vialshoal_load(&it->text, bytes, length));
}

typedef uint32_t as_file(const vialshoal_text *text, uint8_t *room, size_t length, uint64_t *need);

/* A file of the text, as a buffer; or the number that refuses it. A call makes all of it to say how long it is, so it gets a little
 * more room than the last one needed. */
static napi_value file_of(napi_env env, napi_callback_info info, as_file *write) {
    arguments given;
    napi_value buffer;
    if (!taken(env, info, 1, &given)) return NULL;
    uint64_t need = given.shown->filed + given.shown->filed / 8 + MESSAGE;
    uint8_t *room = malloc(need);
    uint32_t number = room == NULL ? 7 : write(given.text, room, need, &need);
    if (number == VIALSHOAL_TOO_SHORT) {
        free(room);
        room = malloc(need);
        number = room == NULL ? 7 : write(given.text, room, need, &need);
    }
    if (number == 0) given.shown->filed = need;
    napi_status made = number == 0 ? napi_create_buffer_copy(env, need, room, NULL, &buffer) : napi_ok;
    free(room);
    TRY(made);
    return number == 0 ? buffer : ANSWER(number);
}

static napi_value store(napi_env env, napi_callback_info info) { return file_of(env, info, vialshoal_store); }

static napi_value store_packed(napi_env env, napi_callback_info info) {
    return file_of(env, info, vialshoal_store_packed);
}

static napi_value save(napi_env env, napi_callback_info info) { return file_of(env, info, vialshoal_save); }

static napi_value close_shown(napi_env env, napi_callback_info info) {
    arguments given;
    if (!taken_shown(env, info, 1, &given)) return NULL;
    return ANSWER(freed(given.shown));
}

/* -- Edits. Each is given after its own words whether changes are asked for. -- */

/* All messages that are kept, which are let go. */
static napi_value messages(napi_env env, vialshoal_text *text) {
    napi_value list, message;
    uint8_t room[MESSAGE];
    uint64_t count, need;
    if (vialshoal_messages(text, &count) != 0) count = 0;
    TRY(napi_create_array_with_length(env, count, &list));
    for (uint64_t i = 0; i < count; i++) {
        vialshoal_message(text, i, room, sizeof room, &need);
        TRY(napi_create_buffer_copy(env, need, room, NULL, &message));
        TRY(napi_set_element(env, list, (uint32_t)i, message));
    }
    if (count > 0) vialshoal_let_go(text);
    return list;
}

/* Puts what changed into the room. */
static void put_changes(vialshoal_text *text, double *room) {
    vialshoal_change found[FEW];
    uint64_t count;
    bool are_few = vialshoal_changes(text, found, FEW, &count) == 0;
    room[COUNT] = are_few ? (double)count : -1;
    for (uint64_t i = 0; are_few && i < count; i++) {
        double *at = room + CHANGES + 3 * i;
        at[0] = found[i].kind;
        at[1] = (double)found[i].beg;
        at[2] = (double)found[i].end;
    }
}

/* What an edit answers, the last word of which is whether changes are asked for. */
static napi_value edited(napi_env env, const arguments *given, size_t last, uint32_t number) {
    bool are_asked_for;
    double *room;
    TRY(napi_get_value_bool(env, given->at[last], &are_asked_for));
    TRY(napi_get_instance_data(env, (void **)&room));
    room[NUMBER] = number;
    room[COUNT] = 0;
    if (are_asked_for) put_changes(given->text, room);
    return messages(env, given->text);
}

static napi_value insert(napi_env env, napi_callback_info info) {
    arguments given;
    uint64_t pos;
    const uint8_t *bytes;
    size_t length;
    uint32_t sent;
    if (!taken(env, info, 4, &given)) return NULL;
    TRY(number_of(env, given.at[1], &pos) ? napi_ok : napi_invalid_arg);
    TRY(bytes_of(env, given.at[2], &bytes, &length) ? napi_ok : napi_invalid_arg);
    uint32_t number = vialshoal_insert(given.text, pos, bytes, length, &sent);
    return edited(env, &given, 3, number);
}

static napi_value insert_in_looks(napi_env env, napi_callback_info info) {
    arguments given;
    uint64_t pos, colour;
    int32_t offset;
    const uint8_t *bytes, *font;
    size_t length, font_length;
    uint32_t sent;
    if (!taken(env, info, 7, &given)) return NULL;
    TRY(number_of(env, given.at[1], &pos) ? napi_ok : napi_invalid_arg);
    TRY(bytes_of(env, given.at[2], &bytes, &length) ? napi_ok : napi_invalid_arg);
    TRY(bytes_of(env, given.at[3], &font, &font_length) ? napi_ok : napi_invalid_arg);
    TRY(number_of(env, given.at[4], &colour) ? napi_ok : napi_invalid_arg);
    TRY(napi_get_value_int32(env, given.at[5], &offset));
    uint32_t number = vialshoal_insert_in_looks(given.text, pos, bytes, length, font, font_length, (uint8_t)colour,
                                                (int8_t)offset, &sent);
    return edited(env, &given, 6, number);
}

static napi_value delete_range(napi_env env, napi_callback_info info) {
    arguments given;
    uint64_t beg, end;
    uint32_t sent;
    if (!taken(env, info, 4, &given)) return NULL;
    TRY(number_of(env, given.at[1], &beg) ? napi_ok : napi_invalid_arg);
    TRY(number_of(env, given.at[2], &end) ? napi_ok : napi_invalid_arg);
    uint32_t number = vialshoal_delete(given.text, beg, end, &sent);
    return edited(env, &given, 3, number);
}

static napi_value change_looks(napi_env env, napi_callback_info info) {
    arguments given;
    uint64_t beg, end, selected, colour;
    int32_t offset;
    const uint8_t *font;
    size_t length;
    uint32_t sent;
    if (!taken(env, info, 8, &given)) return NULL;
    TRY(number_of(env, given.at[1], &beg) ? napi_ok : napi_invalid_arg);
    TRY(number_of(env, given.at[2], &end) ? napi_ok : napi_invalid_arg);
    TRY(number_of(env, given.at[3], &selected) ? napi_ok : napi_invalid_arg);
    TRY(bytes_of(env, given.at[4], &font, &length) ? napi_ok : napi_invalid_arg);
    TRY(number_of(env, given.at[5], &colour) ? napi_ok : napi_invalid_arg);
    TRY(napi_get_value_int32(env, given.at[6], &offset));
    uint32_t number = vialshoal_change_looks(given.text, beg, end, (uint8_t)selected, font, length, (uint8_t)colour,
                                             (int8_t)offset, &sent);
    return edited(env, &given, 7, number);
}

static napi_value restore(napi_env env, napi_callback_info info) {
    arguments given;
    uint32_t sent;
    if (!taken(env, info, 2, &given)) return NULL;
    uint32_t number = vialshoal_restore(given.text, &sent);
    return edited(env, &given, 1, number);
}

static napi_value recall(napi_env env, napi_callback_info info) {
    arguments given;
    uint64_t pos;
    uint32_t sent;
    if (!taken(env, info, 3, &given)) return NULL;
    TRY(number_of(env, given.at[1], &pos) ? napi_ok : napi_invalid_arg);
    uint32_t number = vialshoal_recall(given.text, pos, &sent);
    return edited(env, &given, 2, number);
}

typedef uint32_t by_names(vialshoal_text *text, const vialshoal_name_range *names, size_t count, uint32_t *sent);

bool name_ranges_of(napi_env env, napi_value value, vialshoal_name_range **names, size_t *count) {
    const uint32_t *numbers;
    size_t length;
    if (!numbers_of(env, value, &numbers, &length)) return false;
    *count = length / 3;
    *names = malloc((*count + 1) * sizeof **names);
    for (size_t i = 0; *names != NULL && i < *count; i++) {
        (*names)[i] = (vialshoal_name_range){(uint16_t)numbers[3 * i], numbers[3 * i + 1], numbers[3 * i + 2]};
    }
    return true;
}

/* An edit by names. */
static napi_value edit_names(napi_env env, napi_callback_info info, by_names *edit) {
    arguments given;
    vialshoal_name_range *names;
    size_t count;
    uint32_t sent;
    if (!taken(env, info, 3, &given)) return NULL;
    TRY(name_ranges_of(env, given.at[1], &names, &count) ? napi_ok : napi_invalid_arg);
    uint32_t number = names == NULL ? VIALSHOAL_OUT_OF_MEMORY : edit(given.text, names, count, &sent);
    free(names);
    return edited(env, &given, 2, number);
}

static napi_value delete_names(napi_env env, napi_callback_info info) {
    return edit_names(env, info, vialshoal_delete_names);
}

static napi_value restore_names(napi_env env, napi_callback_info info) {
    return edit_names(env, info, vialshoal_restore_names);
}

static napi_value take(napi_env env, napi_callback_info info) {
    arguments given;
    const uint8_t *bytes;
    size_t length;
    vialshoal_taking taking = {0};
    if (!taken(env, info, 2, &given)) return NULL;
    TRY(bytes_of(env, given.at[1], &bytes, &length) ? napi_ok : napi_invalid_arg);
    uint32_t number = vialshoal_take(given.text, bytes, length, &taking);
    return ANSWER(number, taking.kind, taking.drained, taking.dropped, taking.stopped);
}

static napi_value unpack(napi_env env, napi_callback_info info) {
    arguments given;
    const uint8_t *bytes;
    size_t length;
    vialshoal_unpacking it = {0};
    if (!taken(env, info, 2, &given)) return NULL;
    TRY(bytes_of(env, given.at[1], &bytes, &length) ? napi_ok : napi_invalid_arg);
    uint32_t number = vialshoal_unpack(given.text, bytes, length, &it);
    return ANSWER(number, (double)it.done, (double)it.taken, (double)it.known, (double)it.waiting, it.stopped);
}

static napi_value settle(napi_env env, napi_callback_info info) {
    arguments given;
    vialshoal_settling settling = {0};
    if (!taken(env, info, 1, &given)) return NULL;
    uint32_t number = vialshoal_settle(given.text, &settling);
    return ANSWER(number, settling.drained, settling.dropped, settling.stopped);
}

static napi_value forget(napi_env env, napi_callback_info info) {
    arguments given;
    uint32_t count = 0;
    if (!taken(env, info, 1, &given)) return NULL;
    uint32_t number = vialshoal_forget(given.text, &count);
    return ANSWER(number, count);
}

static napi_value merge(napi_env env, napi_callback_info info) {
    arguments given;
    void *data;
    uint64_t count = 0;
    if (!taken(env, info, 2, &given)) return NULL;
    TRY(napi_get_value_external(env, given.at[1], &data));
    shown *other = data;
    TRY(other->kind == TEXT ? napi_ok : napi_invalid_arg);
    uint32_t number = other == given.shown ? 0 : vialshoal_merge(given.text, &other->text, &count);
    return ANSWER(number, (double)count);
}

static napi_value waiting(napi_env env, napi_callback_info info) {
    arguments given;
    uint32_t count = 0;
    if (!taken(env, info, 1, &given)) return NULL;
    uint32_t number = vialshoal_waiting(given.text, &count);
    return ANSWER(number, count);
}

static napi_value front(napi_env env, napi_callback_info info) {
    arguments given;
    uint64_t site;
    uint32_t found = 0;
    if (!taken(env, info, 2, &given)) return NULL;
    TRY(number_of(env, given.at[1], &site) ? napi_ok : napi_invalid_arg);
    uint32_t number = vialshoal_front(given.text, (uint16_t)site, &found);
    return ANSWER(number, found);
}

/* The sites that have operations here, as an array. */
static napi_value sites(napi_env env, napi_callback_info info) {
    arguments given;
    uint64_t need;
    uint16_t none;
    if (!taken(env, info, 1, &given)) return NULL;
    uint32_t number = vialshoal_sites(given.text, &none, 0, &need);
    if (number != VIALSHOAL_TOO_SHORT) return ANSWER(number);
    uint16_t *room = malloc(need * sizeof *room);
    double *numbers = malloc((need + 1) * sizeof *numbers);
    napi_value list = NULL;
    if (room != NULL && numbers != NULL && vialshoal_sites(given.text, room, need, &need) == 0) {
        numbers[0] = 0;
        for (uint64_t i = 0; i < need; i++) numbers[i + 1] = room[i];
        list = answer(env, need + 1, numbers);
    }
    free(room);
    free(numbers);
    return list == NULL ? ANSWER(7) : list;
}

bool fronts_of(napi_env env, napi_value value, vialshoal_site_front **fronts, size_t *count) {
    const uint32_t *numbers;
    size_t length;
    if (!numbers_of(env, value, &numbers, &length)) return false;
    *count = length / 2;
    *fronts = malloc((*count + 1) * sizeof **fronts);
    for (size_t i = 0; *fronts != NULL && i < *count; i++) {
        (*fronts)[i] = (vialshoal_site_front){(uint16_t)numbers[2 * i], numbers[2 * i + 1]};
    }
    return true;
}

/* Where the next message past fronts is looked for, from where the last one was found, and this message. */
static napi_value since(napi_env env, napi_callback_info info) {
    arguments given;
    vialshoal_site_front *fronts;
    size_t count;
    uint64_t index, need;
    uint8_t room[MESSAGE];
    napi_value list, message;
    if (!taken(env, info, 3, &given)) return NULL;
    TRY(number_of(env, given.at[2], &index) ? napi_ok : napi_invalid_arg);
    TRY(fronts_of(env, given.at[1], &fronts, &count) ? napi_ok : napi_invalid_arg);
    uint32_t number = 7;
    if (fronts != NULL) number = vialshoal_since(given.text, fronts, count, &index, room, sizeof room, &need);
    free(fronts);
    list = ANSWER(number, (double)index);
    if (number != 0 || list == NULL) return list;
    TRY(napi_create_buffer_copy(env, need, room, NULL, &message));
    TRY(napi_set_element(env, list, 2, message));
    return list;
}

/* The chunks past fronts, each after its length, as a buffer; or the number that refuses them. */
static napi_value pack(napi_env env, napi_callback_info info) {
    arguments given;
    vialshoal_site_front *fronts;
    size_t count;
    uint64_t need;
    uint8_t few[MESSAGE];
    napi_value buffer;
    void *room;
    if (!taken(env, info, 2, &given)) return NULL;
    TRY(fronts_of(env, given.at[1], &fronts, &count) ? napi_ok : napi_invalid_arg);
    uint32_t number = fronts == NULL ? 7 : vialshoal_pack(given.text, fronts, count, few, sizeof few, &need);
    napi_status made = napi_ok;
    if (number == 0) {
        made = napi_create_buffer_copy(env, need, few, NULL, &buffer);
    } else if (number == VIALSHOAL_TOO_SHORT) {
        made = napi_create_buffer(env, need, &room, &buffer);
        if (made == napi_ok) number = vialshoal_pack(given.text, fronts, count, room, need, &need);
    }
    free(fronts);
    TRY(made);
    return number == 0 ? buffer : ANSWER(number);
}

static napi_value past(napi_env env, napi_callback_info info) {
    arguments given;
    vialshoal_site_front *fronts;
    size_t count;
    if (!taken(env, info, 2, &given)) return NULL;
    TRY(fronts_of(env, given.at[1], &fronts, &count) ? napi_ok : napi_invalid_arg);
    shown *it = calloc(1, sizeof *it);
    uint32_t number = 7;
    if (fronts != NULL && it != NULL) {
        it->kind = PAST;
        number = vialshoal_past(given.text, fronts, count, &it->past);
    }
    free(fronts);
    return opened(env, it, number);
}

/* -- What is asked of a text, and of one as it was */

static uint32_t asked_bytes(shown *it, uint64_t beg, uint64_t end, uint8_t *room, size_t length, uint64_t *need) {
    return it->kind == PAST ? vialshoal_past_bytes(&it->past, beg, end, room, length, need)
                       : vialshoal_bytes(&it->text, beg, end, room, length, need);
}

static uint32_t asked_looks(shown *it, uint64_t pos, vialshoal_looks_run *run, uint8_t *font, size_t length, uint64_t *need) {
    return it->kind == PAST ? vialshoal_past_looks(&it->past, pos, run, font, length, need)
                       : vialshoal_looks(&it->text, pos, run, font, length, need);
}

static uint32_t asked_names(shown *it, uint64_t beg, uint64_t end, vialshoal_name *room, size_t length, uint64_t *need) {
    return it->kind == PAST ? vialshoal_past_names(&it->past, beg, end, room, length, need)
                       : vialshoal_names(&it->text, beg, end, room, length, need);
}

static uint32_t asked_find(shown *it, uint16_t site, uint32_t offset, vialshoal_place *place) {
    return it->kind == PAST ? vialshoal_past_find(&it->past, site, offset, place)
                       : vialshoal_find(&it->text, site, offset, place);
}

static napi_value length_of(napi_env env, napi_callback_info info) {
    arguments given;
    uint64_t length = 0;
    if (!taken_shown(env, info, 1, &given)) return NULL;
    shown *it = given.shown;
    uint32_t number = it->kind == PAST ? vialshoal_past_length(&it->past, &length) : vialshoal_length(&it->text, &length);
    return ANSWER(number, (double)length);
}

/* The bytes of a range, as a buffer; or the number that refuses it. */
static napi_value bytes(napi_env env, napi_callback_info info) {
    arguments given;
    uint64_t beg, end, need;
    uint8_t none[1];
    napi_value buffer;
    void *room;
    if (!taken_shown(env, info, 3, &given)) return NULL;
    TRY(number_of(env, given.at[1], &beg) ? napi_ok : napi_invalid_arg);
    TRY(number_of(env, given.at[2], &end) ? napi_ok : napi_invalid_arg);
    uint32_t number = asked_bytes(given.shown, beg, end, none, 0, &need);
    if (number != 0 && number != VIALSHOAL_TOO_SHORT) return ANSWER(number);
    TRY(napi_create_buffer(env, need, &room, &buffer));
    if (need > 0) asked_bytes(given.shown, beg, end, room, need, &need);
    return buffer;
}

/* What the character at a position looks like: an end, a colour, an offset, and the bytes of the font's name. */
static napi_value look(napi_env env, napi_callback_info info) {
    arguments given;
    uint64_t pos, need;
    uint8_t font[31];
    vialshoal_looks_run run = {0};
    double numbers[4 + sizeof font];
    if (!taken_shown(env, info, 2, &given)) return NULL;
    TRY(number_of(env, given.at[1], &pos) ? napi_ok : napi_invalid_arg);
    uint32_t number = asked_looks(given.shown, pos, &run, font, sizeof font, &need);
    if (number != 0) return ANSWER(number);
    numbers[0] = 0;
    numbers[1] = (double)run.end;
    numbers[2] = run.colour;
    numbers[3] = run.offset;
    for (uint64_t i = 0; i < need; i++) numbers[4 + i] = font[i];
    return answer(env, 4 + need, numbers);
}

/* Names as an array of a site and an offset each. */
static napi_value names(napi_env env, napi_callback_info info) {
    arguments given;
    uint64_t beg, end, need;
    vialshoal_name none;
    if (!taken_shown(env, info, 3, &given)) return NULL;
    TRY(number_of(env, given.at[1], &beg) ? napi_ok : napi_invalid_arg);
    TRY(number_of(env, given.at[2], &end) ? napi_ok : napi_invalid_arg);
    uint32_t number = asked_names(given.shown, beg, end, &none, 0, &need);
    if (number != 0 && number != VIALSHOAL_TOO_SHORT) return ANSWER(number);
    vialshoal_name *room = malloc((need + 1) * sizeof *room);
    double *numbers = malloc((2 * need + 1) * sizeof *numbers);
    napi_value list = NULL;
    if (room != NULL && numbers != NULL && asked_names(given.shown, beg, end, room, need, &need) == 0) {
        numbers[0] = 0;
        for (uint64_t i = 0; i < need; i++) {
            numbers[2 * i + 1] = room[i].site;
            numbers[2 * i + 2] = room[i].offset;
        }
        list = answer(env, 2 * need + 1, numbers);
    }
    free(room);
    free(numbers);
    return list == NULL ? ANSWER(7) : list;
}

/* How many names are asked for at once. */
#define NAMES 4096

/* Stretches of names, as a site, an offset and a length each, after a number for the call's own. */
typedef struct {
    double *numbers;
    uint64_t count, most;
} stretches;

static bool has_room(stretches *it) {
    if (it->numbers != NULL && it->count + 3 <= it->most) return true;
    double *numbers = realloc(it->numbers, 2 * it->most * sizeof *numbers);
    if (numbers == NULL) return false;
    it->numbers = numbers;
    it->most *= 2;
    return true;
}

/* Adds a name, to the last stretch where it follows that. */
static bool add_name(stretches *it, const vialshoal_name *name) {
    double *last = it->numbers + it->count - 3;
    if (it->count > 1 && last[0] == name->site && last[1] + last[2] == name->offset) {
        last[2]++;
        return true;
    }
    if (!has_room(it)) return false;
    it->numbers[it->count++] = name->site;
    it->numbers[it->count++] = name->offset;
    it->numbers[it->count++] = 1;
    return true;
}

static uint32_t add_names(stretches *it, shown *of, uint64_t beg, uint64_t end) {
    vialshoal_name room[NAMES];
    uint64_t need;
    uint32_t number = asked_names(of, beg, end, room, NAMES, &need);
    for (uint64_t i = 0; number == 0 && i < need; i++) number = add_name(it, &room[i]) ? 0 : 7;
    return number;
}

static napi_value ranges(napi_env env, napi_callback_info info) {
    arguments given;
    uint64_t beg, end, need;
    vialshoal_name none;
    if (!taken_shown(env, info, 3, &given)) return NULL;
    TRY(number_of(env, given.at[1], &beg) ? napi_ok : napi_invalid_arg);
    TRY(number_of(env, given.at[2], &end) ? napi_ok : napi_invalid_arg);
    uint32_t number = asked_names(given.shown, beg, end, &none, 0, &need);
    stretches found = {NULL, 1, NAMES};
    if (number == VIALSHOAL_TOO_SHORT) number = 0;
    if (number == 0 && !has_room(&found)) number = 7;
    for (; number == 0 && beg < end; beg += NAMES) {
        number = add_names(&found, given.shown, beg, end - beg > NAMES ? beg + NAMES : end);
    }
    if (number == 0) found.numbers[0] = 0;
    napi_value list = number == 0 ? answer(env, found.count, found.numbers) : ANSWER(number);
    free(found.numbers);
    return list;
}

static napi_value find(napi_env env, napi_callback_info info) {
    arguments given;
    uint64_t site, offset;
    vialshoal_place place = {0};
    if (!taken_shown(env, info, 3, &given)) return NULL;
    TRY(number_of(env, given.at[1], &site) ? napi_ok : napi_invalid_arg);
    TRY(number_of(env, given.at[2], &offset) ? napi_ok : napi_invalid_arg);
    uint32_t number = asked_find(given.shown, (uint16_t)site, (uint32_t)offset, &place);
    return ANSWER(number, (double)place.pos, place.is_shown);
}

/* Whether more may be left, since what a call before couldn't hand out comes alone; and changes, a kind, a begin and an end each. */
static napi_value changes(napi_env env, napi_callback_info info) {
    arguments given;
    uint64_t need;
    vialshoal_change few[FEW], *room = few;
    double fewer[2 + 3 * FEW], *numbers = fewer;
    napi_value list = NULL;
    if (!taken(env, info, 1, &given)) return NULL;
    uint32_t number = vialshoal_changes(given.text, few, FEW, &need);
    bool is_long = number == VIALSHOAL_TOO_SHORT;
    if (is_long) {
        room = malloc(need * sizeof *room);
        numbers = malloc((2 + 3 * need) * sizeof *numbers);
        number = room == NULL || numbers == NULL ? 7 : vialshoal_changes(given.text, room, need, &need);
    }
    if (number == 0) {
        numbers[0] = 0;
        numbers[1] = is_long;
        for (uint64_t i = 0; i < need; i++) {
            numbers[3 * i + 2] = room[i].kind;
            numbers[3 * i + 3] = (double)room[i].beg;
            numbers[3 * i + 4] = (double)room[i].end;
        }
        list = answer(env, 2 + 3 * need, numbers);
    }
    if (is_long) {
        free(room);
        free(numbers);
    }
    return number == 0 ? list : ANSWER(number);
}

static napi_value end_noting(napi_env env, napi_callback_info info) {
    arguments given;
    uint64_t shown_before;
    if (!taken(env, info, 2, &given)) return NULL;
    TRY(number_of(env, given.at[1], &shown_before) ? napi_ok : napi_invalid_arg);
    return ANSWER(vialshoal_end_noting(given.text, shown_before));
}

static napi_value replacement(napi_env env, napi_callback_info info) {
    arguments given;
    vialshoal_replacing replacing = {0};
    if (!taken(env, info, 1, &given)) return NULL;
    uint32_t number = vialshoal_replacement(given.text, &replacing);
    return ANSWER(number, (double)replacing.deleted, (double)replacing.inserted);
}

/* Locks a file where nobody else has, and answers the system's number of what forbids it, or 0. */
static napi_value lock(napi_env env, napi_callback_info info) {
    size_t found = 1;
    napi_value given, answer;
    int32_t file;
    TRY(napi_get_cb_info(env, info, &found, &given, NULL, NULL));
    TRY(napi_get_value_int32(env, given, &file));
    TRY(napi_create_int32(env, flock(file, LOCK_EX | LOCK_NB) == 0 ? 0 : errno, &answer));
    return answer;
}

static napi_status add_calls(napi_env env, napi_value exports, const named_call *calls) {
    napi_value made;
    napi_status status = napi_ok;
    for (; status == napi_ok && calls->name != NULL; calls++) {
        status = napi_create_function(env, calls->name, NAPI_AUTO_LENGTH, counted, (void *)&calls->call, &made);
        if (status == napi_ok) status = napi_set_named_property(env, exports, calls->name, made);
    }
    return status;
}

NAPI_MODULE_INIT() {
    static const named_call calls[] = {
        {"open", open_text},
        {"load", load},
        {"store", store},
        {"storePacked", store_packed},
        {"save", save},
        {"close", close_shown},
        {"insert", insert},
        {"insertInLooks", insert_in_looks},
        {"delete", delete_range},
        {"looks", change_looks},
        {"restore", restore},
        {"recall", recall},
        {"deleteNames", delete_names},
        {"restoreNames", restore_names},
        {"take", take},
        {"unpack", unpack},
        {"settle", settle},
        {"forget", forget},
        {"merge", merge},
        {"waiting", waiting},
        {"front", front},
        {"sites", sites},
        {"since", since},
        {"pack", pack},
        {"past", past},
        {"length", length_of},
        {"bytes", bytes},
        {"look", look},
        {"names", names},
        {"ranges", ranges},
        {"find", find},
        {"changes", changes},
        {"endNoting", end_noting},
        {"replacement", replacement},
        {"lock", lock},
        {NULL, NULL},
    };
    napi_value buffer, room;
    void *data;
    TRY(napi_create_arraybuffer(env, ROOM * sizeof(double), &data, &buffer));
    TRY(napi_create_typedarray(env, napi_float64_array, ROOM, buffer, 0, &room));
    TRY(napi_set_named_property(env, exports, "room", room));
    TRY(napi_set_instance_data(env, data, NULL, NULL));
    TRY(add_calls(env, exports, calls));
    TRY(add_calls(env, exports, NOTE_CALLS));
    return exports;
}
