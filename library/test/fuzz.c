/* Plays what libFuzzer makes up: calls of three sites of one text, with messages, chunks and files of its own, or of theirs with bytes
 * changed. After each call the changes that were told lead to what is shown, and one that was refused has left the text as it was. In the
 * end what was stored, packed, taken in any order and looked back at shows the same, and so do two sites that took in each other's, and
 * notes that were given each other's entries (fuzz_notes.c).
 * library/test/fuzz builds and runs it. */
#include "fuzz.h"

enum { SITES = 3, MESSAGE = 10297, MOST = 1 << 23 };

/* -- a site, and what is shown there by what was told of changes -- */

typedef struct {
    vialshoal_text text;
    shown shown;
    bool is_noted;
} site;

typedef uint32_t storing(const vialshoal_text *text, uint8_t *to, size_t length, uint64_t *need);

static site sites[SITES];
static uint8_t room[MOST], file[MOST], kept[MOST];

static uint64_t length_of(vialshoal_text *text) {
    uint64_t length;
    IS(vialshoal_length(text, &length) == 0);
    return length;
}

static uint8_t *bytes_of(vialshoal_text *text, uint64_t length) {
    uint64_t need;
    uint8_t *read = malloc(length + 1);
    IS(read != NULL && vialshoal_bytes(text, 0, length, read, length, &need) == 0 && need == length);
    return read;
}

static void follow(site *at) {
    vialshoal_change changes[64];
    vialshoal_replacing replacing;
    uint64_t need;
    while (true) {
        uint32_t number = vialshoal_changes(&at->text, changes, 64, &need);
        if (number == VIALSHOAL_TOO_SHORT) {
            vialshoal_change *all = malloc(need * sizeof *all);
            IS(all != NULL && vialshoal_changes(&at->text, all, need, &need) == 0);
            for (uint64_t i = 0; i < need; i++) change(&at->shown, &all[i]);
            free(all);
        } else {
            IS(number == 0);
            if (need == 0) break;
            for (uint64_t i = 0; i < need; i++) change(&at->shown, &changes[i]);
        }
    }
    uint64_t length = length_of(&at->text);
    if (!at->is_noted) {
        IS(vialshoal_replacement(&at->text, &replacing) == 0 && replacing.deleted == at->shown.length && replacing.inserted == length);
        begins_anew(&at->shown, length);
    }
    uint8_t *read = bytes_of(&at->text, length);
    is_read(&at->shown, read, length);
    free(read);
}

/* -- what is compared -- */

/* All that a text holds but what was deleted last: its file, what waits and the messages that are kept. */
typedef struct {
    uint64_t sum, length, messages;
    uint32_t waiting;
} state;

static state state_of(vialshoal_text *text) {
    state found = {14695981039346656037u, 0, 0, 0};
    IS(vialshoal_store(text, kept, sizeof kept, &found.length) == 0);
    for (uint64_t i = 0; i < found.length; i++) found.sum = (found.sum ^ kept[i]) * 1099511628211u;
    IS(vialshoal_messages(text, &found.messages) == 0 && vialshoal_waiting(text, &found.waiting) == 0);
    return found;
}

static void is_as_before(vialshoal_text *text, state before) {
    state now = state_of(text);
    IS(now.sum == before.sum && now.length == before.length && now.messages == before.messages && now.waiting == before.waiting);
}

/* Whether an edit, or what it was refused for, is as it has to be: one that was refused as a whole changed nothing. */
static void is_edited(vialshoal_text *text, state before, uint32_t number, uint32_t sent) {
    if (is_done(number)) {
        uint64_t messages;
        IS(vialshoal_messages(text, &messages) == 0 && messages == before.messages + sent);
    } else if (sent == 0) {
        is_as_before(text, before);
    }
}

static void show_the_same(vialshoal_text *one, vialshoal_text *other) {
    uint64_t length = length_of(one);
    IS(length == length_of(other));
    uint8_t *mine = bytes_of(one, length), *its = bytes_of(other, length);
    IS(memcmp(mine, its, length) == 0);
    free(mine);
    free(its);
}

/* What was stored is read again, shows the same and is stored as the same. */
static void comes_back(vialshoal_text *text, storing *store) {
    vialshoal_text again = {0};
    uint64_t need, its;
    IS(store(text, file, sizeof file, &need) == 0 && vialshoal_load(&again, file, need) == 0);
    show_the_same(text, &again);
    IS(store(&again, room, sizeof room, &its) == 0 && its == need && memcmp(file, room, need) == 0);
    IS(vialshoal_free(&again) == 0);
}

static uint32_t operations_of(vialshoal_text *text, uint16_t *unused) {
    static uint16_t found[65536];
    uint64_t count;
    uint32_t all = 0, front;
    IS(vialshoal_sites(text, found, 65536, &count) == 0);
    for (uint64_t i = 0; i < count; i++) {
        IS(vialshoal_front(text, found[i], &front) == 0 && front > 0);
        all += front;
        if (*unused == found[i]) ++*unused;
    }
    return all;
}

/* A site that has nothing shows the same once it took all chunks, or all messages. */
static void reaches_another(vialshoal_text *text) {
    vialshoal_text other = {0};
    vialshoal_unpacking unpacking;
    vialshoal_taking taking;
    uint16_t site = 9;
    uint64_t need, index = 0;
    uint32_t all = operations_of(text, &site), taken = 0;
    if (site == 0) return;
    IS(vialshoal_pack(text, NULL, 0, file, sizeof file, &need) == 0 && vialshoal_new(&other, 1, site) == 0);
    for (uint64_t at = 0, length; at < need; at += 2 + length) {
        length = file[at] + 256u * file[at + 1];
        IS(vialshoal_unpack(&other, file + at + 2, length, &unpacking) == 0 && unpacking.waiting + unpacking.known == 0);
        taken += unpacking.taken;
    }
    IS(taken == all);
    show_the_same(text, &other);
    IS(vialshoal_free(&other) == 0 && vialshoal_new(&other, 1, site) == 0);
    for (taken = 0; vialshoal_since(text, NULL, 0, &index, room, sizeof room, &need) == 0; taken++) {
        IS(vialshoal_take(&other, room, need, &taking) == 0 && taking.kind == VIALSHOAL_TAKEN);
    }
    IS(taken == all);
    show_the_same(text, &other);
    IS(vialshoal_free(&other) == 0);
}

/* Takes messages in until each is held; those for which there is no room to wait come again. */
static void takes_all(vialshoal_text *to, uint8_t **messages, uint32_t count) {
    vialshoal_taking taking;
    for (uint32_t left = count, before; left > 0;) {
        before = left;
        left = 0;
        for (uint32_t i = 0; i < before; i++) {
            size_t length = messages[i][0] + 256u * messages[i][1];
            uint32_t number = vialshoal_take(to, messages[i] + 2, length, &taking);
            IS(number == 0 || number == VIALSHOAL_ROOM_FULL);
            if (number == 0) {
                free(messages[i]);
            } else {
                messages[left++] = messages[i];
            }
        }
        IS(left < before);
    }
    uint32_t waiting;
    IS(vialshoal_waiting(to, &waiting) == 0 && waiting == 0);
}

/* A site that has nothing shows the same once it took all messages, in whatever order they came. */
static void reaches_another_in_any_order(vialshoal_text *text, uint64_t draw) {
    vialshoal_text other = {0};
    uint16_t site = 9;
    uint64_t need, index = 0;
    uint32_t all = operations_of(text, &site), count = 0;
    if (site == 0) return;
    uint8_t **messages = malloc((all + 1) * sizeof *messages);
    IS(messages != NULL && vialshoal_new(&other, 1, site) == 0);
    for (; vialshoal_since(text, NULL, 0, &index, room, sizeof room, &need) == 0; count++) {
        uint8_t *message = malloc(2 + need);
        IS(message != NULL && count < all);
        message[0] = (uint8_t)need;
        message[1] = (uint8_t)(need >> 8);
        memcpy(message + 2, room, need);
        draw = draw * 6364136223846793005u + 1442695040888963407u;
        uint32_t at = (uint32_t)((draw >> 33) % (count + 1));
        messages[count] = messages[at];
        messages[at] = message;
    }
    IS(count == all);
    takes_all(&other, messages, count);
    free(messages);
    IS(operations_of(&other, &site) == all);
    show_the_same(text, &other);
    IS(vialshoal_free(&other) == 0);
}

static vialshoal_text copy_of(vialshoal_text *text) {
    vialshoal_text copy = {0};
    uint64_t need;
    IS(vialshoal_store_packed(text, file, sizeof file, &need) == 0 && vialshoal_load(&copy, file, need) == 0);
    return copy;
}

/* Hands on, in chunks, what a text lacks of another's, or of its own file. */
static void catches_up(vialshoal_text *text, vialshoal_text *of) {
    static uint16_t found[65536];
    static vialshoal_site_front fronts[65536];
    vialshoal_unpacking unpacking;
    uint64_t count, need;
    IS(vialshoal_sites(text, found, 65536, &count) == 0);
    for (uint64_t i = 0; i < count; i++) {
        fronts[i].site = found[i];
        IS(vialshoal_front(text, found[i], &fronts[i].seq) == 0);
    }
    IS(vialshoal_pack(of, fronts, count, file, sizeof file, &need) == 0);
    for (uint64_t at = 0, length; at < need; at += 2 + length) {
        length = file[at] + 256u * file[at + 1];
        IS(vialshoal_unpack(text, file + at + 2, length, &unpacking) == 0 && unpacking.known + unpacking.waiting == 0);
    }
}

/* Two texts that took in each other's operations show the same, whichever way these came, unless a number was used twice. */
static void meet(vialshoal_text *one, vialshoal_text *other) {
    vialshoal_text mine = copy_of(one), its = copy_of(other), third = copy_of(one);
    uint64_t taken, back;
    uint32_t number = vialshoal_merge(&mine, other, &taken);
    IS(vialshoal_merge(&its, one, &back) == number && (number == 0 || number == VIALSHOAL_CONFLICT));
    if (number == 0) {
        show_the_same(&mine, &its);
        catches_up(&third, other);
        show_the_same(&mine, &third);
    } else {
        show_the_same(&mine, one);
        show_the_same(&its, other);
    }
    IS(vialshoal_free(&mine) == 0 && vialshoal_free(&its) == 0 && vialshoal_free(&third) == 0);
}

/* The text as it was up to now is the text as it is. */
static void looks_back(vialshoal_text *text) {
    static uint16_t found[65536];
    static vialshoal_site_front fronts[65536];
    vialshoal_past_text past = {0};
    uint64_t count, length, need;
    IS(vialshoal_sites(text, found, 65536, &count) == 0);
    for (uint64_t i = 0; i < count; i++) fronts[i] = (vialshoal_site_front){found[i], UINT32_MAX};
    IS(vialshoal_past(text, fronts, count, &past) == 0);
    IS(vialshoal_past_length(&past, &length) == 0 && length == length_of(text));
    uint8_t *was = malloc(length + 1), *read = bytes_of(text, length);
    IS(was != NULL && vialshoal_past_bytes(&past, 0, length, was, length, &need) == 0 && memcmp(was, read, length) == 0);
    free(was);
    free(read);
    IS(vialshoal_past_free(&past) == 0);
}

/* -- calls -- */

static void takes(site *at, const uint8_t *message, size_t length) {
    vialshoal_taking taking;
    state before = state_of(&at->text);
    if (is_done(vialshoal_take(&at->text, message, length, &taking))) {
        IS(taking.kind >= VIALSHOAL_TAKEN && taking.kind <= VIALSHOAL_WAITS && !taking.stopped);
    } else {
        is_as_before(&at->text, before);
    }
}

static void unpacks(site *at, const uint8_t *chunk, size_t length) {
    vialshoal_unpacking unpacking;
    state before = state_of(&at->text);
    if (is_done(vialshoal_unpack(&at->text, chunk, length, &unpacking))) {
        IS(unpacking.done == 0);
    } else if (unpacking.done == 0) {
        is_as_before(&at->text, before);
    }
}

/* Opens a site's file, in place of what a site has: that of another text, or of no text, is refused or let go. */
static void loads(site *at, const uint8_t *from, size_t length) {
    vialshoal_text text = {0}, probe = {0};
    uint64_t taken;
    if (!is_done(vialshoal_load(&text, from, length))) {
        IS(text.at == NULL);
        return;
    }
    IS(vialshoal_new(&probe, 1, 9) == 0);
    if (vialshoal_merge(&probe, &text, &taken) == 0) {
        IS(vialshoal_free(&at->text) == 0);
        at->text = text;
        at->shown.length = 0;
        at->is_noted = true;
    } else {
        IS(vialshoal_free(&text) == 0);
    }
    IS(vialshoal_free(&probe) == 0);
}

/* Hands what a site made to another one, with a byte changed where the input says so. */
static void hands_over(site *from, site *to, bytes *in) {
    uint64_t count, need;
    uint32_t where = number_of(in), with = byte_of(in);
    IS(vialshoal_messages(&from->text, &count) == 0);
    for (uint64_t i = 0; i < count; i++) {
        IS(vialshoal_message(&from->text, i, room, sizeof room, &need) == 0 && need <= MESSAGE);
        room[where % need] ^= (uint8_t)with;
        takes(to, room, need);
    }
    IS(vialshoal_let_go(&from->text) == 0);
}

static size_t fronts_of(bytes *in, vialshoal_site_front *fronts) {
    size_t count = byte_of(in) % FRONTS;
    for (size_t i = 0; i < count; i++) {
        fronts[i].site = (uint16_t)byte_of(in);
        fronts[i].seq = number_of(in);
    }
    return count;
}

/* Hands what a site has past fronts to another one in chunks, with a byte changed where the input says so. */
static void packs(site *from, site *to, bytes *in) {
    vialshoal_site_front fronts[FRONTS];
    size_t count = fronts_of(in, fronts);
    uint32_t where = number_of(in), with = byte_of(in);
    uint64_t need;
    if (!is_done(vialshoal_pack(&from->text, fronts, count, file, sizeof file, &need))) return;
    for (uint64_t at = 0, length; at < need; at += 2 + length) {
        length = file[at] + 256u * file[at + 1];
        IS(length > 0 && length <= 16000 && at + 2 + length <= need);
        file[at + 2 + where % length] ^= (uint8_t)with;
        unpacks(to, file + at + 2, length);
    }
}

static void past(site *at, bytes *in) {
    vialshoal_site_front fronts[FRONTS];
    vialshoal_past_text as_it_was = {0};
    vialshoal_looks_run run;
    vialshoal_name name;
    vialshoal_place place;
    uint8_t font[FONT];
    uint64_t length, need;
    size_t count = fronts_of(in, fronts);
    if (!is_done(vialshoal_past(&at->text, fronts, count, &as_it_was))) return;
    IS(vialshoal_past_length(&as_it_was, &length) == 0);
    for (uint64_t pos = number_of(in) % (length + 1); pos < length; pos = run.end) {
        IS(vialshoal_past_names(&as_it_was, pos, pos + 1, &name, 1, &need) == 0);
        IS(vialshoal_past_find(&as_it_was, name.site, name.offset, &place) == 0 && place.pos == pos + 1 && place.is_shown);
        IS(vialshoal_past_looks(&as_it_was, pos, &run, font, sizeof font, &need) == 0 && run.end > pos && run.end <= length);
    }
    IS(vialshoal_past_free(&as_it_was) == 0);
}

static void reads(site *at, bytes *in) {
    vialshoal_looks_run run;
    vialshoal_name name;
    vialshoal_place place;
    uint8_t font[FONT];
    uint64_t length = length_of(&at->text), need;
    for (uint64_t pos = number_of(in) % (length + 1); pos < length; pos = run.end) {
        IS(vialshoal_names(&at->text, pos, pos + 1, &name, 1, &need) == 0);
        IS(vialshoal_find(&at->text, name.site, name.offset, &place) == 0 && place.pos == pos + 1 && place.is_shown);
        IS(vialshoal_looks(&at->text, pos, &run, font, sizeof font, &need) == 0 && run.end > pos && run.end <= length);
    }
    is_done(vialshoal_find(&at->text, (uint16_t)byte_of(in), number_of(in), &place));
    IS(vialshoal_save(&at->text, room, sizeof room, &need) == 0);
}

static void edits_names(site *at, bytes *in, bool restores) {
    vialshoal_name_range names[FRONTS];
    uint32_t sent;
    size_t count = byte_of(in) % FRONTS;
    for (size_t i = 0; i < count; i++) {
        names[i].site = (uint16_t)byte_of(in);
        names[i].offset = number_of(in);
        names[i].length = number_of(in);
    }
    state before = state_of(&at->text);
    uint32_t number = (restores ? vialshoal_restore_names : vialshoal_delete_names)(&at->text, names, count, &sent);
    is_edited(&at->text, before, number, sent);
}

static void edits(site *at, bytes *in) {
    uint64_t length = length_of(&at->text), beg = number_of(in) % (length + 2), end = number_of(in) % (length + 2);
    uint32_t sent, number, what = byte_of(in);
    bytes some = span_of(in), font = {in->at, in->left < 9 ? in->left : 9};
    uint8_t colour = (uint8_t)(what >> 4), selected = (uint8_t)(what >> 5);
    vialshoal_text *text = &at->text;
    /* (copies of copies would soon be all that is done) */
    if (length > LONG) return;
    state before = state_of(text);
    switch (what % 6) {
    case 0: number = vialshoal_insert(text, beg, some.at, some.left, &sent); break;
    case 1: number = vialshoal_delete(text, beg, end, &sent); break;
    case 2: number = vialshoal_restore(text, &sent); break;
    case 3: number = vialshoal_recall(text, beg, &sent); break;
    case 4: number = vialshoal_insert_in_looks(text, beg, some.at, some.left, font.at, font.left, colour, -3, &sent); break;
    default: number = vialshoal_change_looks(text, beg, end, selected, font.at, font.left, colour, 3, &sent);
    }
    is_edited(text, before, number, sent);
}

static void merges(site *at, site *other) {
    uint64_t taken;
    state before = state_of(&at->text), its = state_of(&other->text);
    if (!is_done(vialshoal_merge(&at->text, &other->text, &taken))) is_as_before(&at->text, before);
    is_as_before(&other->text, its);
}

/* One call or a few; test/seeds.py knows their numbers. */
static void plays(bytes *in) {
    uint32_t what = byte_of(in), whose = byte_of(in);
    site *at = &sites[whose % SITES], *other = &sites[(whose + 1 + (whose >> 4) % (SITES - 1)) % SITES];
    vialshoal_settling settling;
    uint32_t count;
    bytes some = {NULL, 0};
    if (what % 16 < 3) some = span_of(in);
    switch (what % 16) {
    case 0: takes(at, some.at, some.left); break;
    case 1: unpacks(at, some.at, some.left); break;
    case 2: loads(at, some.at, some.left); break;
    case 3: hands_over(at, other, in); break;
    case 4: packs(at, other, in); break;
    case 5: merges(at, other); break;
    case 6: IS(vialshoal_settle(&at->text, &settling) == 0 && !settling.stopped); break;
    case 7: IS(vialshoal_forget(&at->text, &count) == 0 && vialshoal_waiting(&at->text, &count) == 0 && count == 0); break;
    case 8: past(at, in); break;
    case 9: reads(at, in); break;
    case 10: edits_names(at, in, false); break;
    case 11: edits_names(at, in, true); break;
    case 12:
        IS(vialshoal_end_noting(&at->text, at->shown.length) == 0);
        at->is_noted = false;
        break;
    case 13: fuzz_notes_play(in); break;
    default: edits(at, in);
    }
    follow(at);
    if (other != at) follow(other);
}

int LLVMFuzzerTestOneInput(const uint8_t *data, size_t length) {
    bytes in = {data, length};
    for (int i = 0; i < SITES; i++) {
        IS(vialshoal_new(&sites[i].text, 1, (uint16_t)(i + 1)) == 0);
        sites[i].shown.length = 0;
        sites[i].is_noted = true;
    }
    while (in.left > 0) plays(&in);
    for (int i = 0; i < SITES; i++) {
        vialshoal_text *text = &sites[i].text;
        comes_back(text, vialshoal_store);
        comes_back(text, vialshoal_store_packed);
        reaches_another(text);
        reaches_another_in_any_order(text, length * SITES + (uint64_t)i);
        looks_back(text);
        meet(text, &sites[(i + 1) % SITES].text);
    }
    for (int i = 0; i < SITES; i++) IS(vialshoal_free(&sites[i].text) == 0);
    fuzz_notes_end();
    return 0;
}

#ifdef ALONE
/* Plays files, without libFuzzer. */
int main(int count, char **files) {
    static uint8_t data[1 << 20];
    for (int i = 1; i < count; i++) {
        FILE *from = fopen(files[i], "rb");
        IS(from != NULL);
        LLVMFuzzerTestOneInput(data, fread(data, 1, sizeof data, from));
        fclose(from);
    }
    printf("fuzz: %d files were played\n", count - 1);
    return 0;
}
#endif
