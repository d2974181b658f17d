/* Plays calls of notes that libFuzzer makes up: Ann's note and Bob's, and one that uses Ann's number beside her, so that her chains fork.
 * Claims and entries come by turns, in any order, with fields and bytes changed. After each call the changes that were told lead to what is
 * shown; after an update nothing is left that wasn't said. In the end each note was given all, and shows what a reader's shows. */
#include "fuzz.h"

enum { PEERS = 3, TEXTS = 16, BODY = 16172, MOST_GIVEN = 128, AUTHORS = 4 };

typedef struct {
    vialshoal_note note;
    uint16_t site;
    shown texts[TEXTS];
} peer;

/* A claim or an entry that was given to a note, and so will be to all. */
typedef struct {
    bool is_claim;
    vialshoal_head head;
    vialshoal_hash rank;
    uint8_t *body;
    uint64_t length;
} given;

static peer peers[PEERS] = {{.site = 1}, {.site = 2}, {.site = 1}};
static given came[MOST_GIVEN];
static size_t many;

static vialshoal_hash hash_of(uint8_t byte) {
    vialshoal_hash found;
    memset(found.bytes, byte, sizeof found.bytes);
    return found;
}

static vialshoal_hash author_of(uint32_t number) { return hash_of((uint8_t)('A' + number % AUTHORS)); }

static void opens(vialshoal_note *note, uint16_t site) {
    vialshoal_hash key = hash_of('k'), founder = author_of(0), zeros = hash_of(0);
    IS(vialshoal_note_new(note, site, &key, &founder, 1, &zeros, &zeros, NULL, 0) == 0);
}

/* -- what comes -- */

static uint32_t hands(vialshoal_note *note, const given *it) {
    if (it->is_claim) return vialshoal_note_claim(note, &it->head.author, it->head.site, &it->rank);
    return vialshoal_note_add(note, &it->head, it->body, it->length);
}

/* It is given to a note and, if that takes it, to all in the end. */
static void comes(vialshoal_note *note, given it) {
    if (many == MOST_GIVEN) return;
    uint8_t *body = malloc(it.length + 1);
    IS(body != NULL);
    if (it.length > 0) memcpy(body, it.body, it.length);
    it.body = body;
    if (is_done(hands(note, &it))) {
        came[many++] = it;
    } else {
        free(body);
    }
}

static void claims(vialshoal_note *note, uint32_t author, uint16_t site, uint8_t rank) {
    comes(note, (given){.is_claim = true, .head = {.author = author_of(author), .site = site}, .rank = hash_of(rank)});
}

static void begins(void) {
    for (int i = 0; i < PEERS; i++) opens(&peers[i].note, peers[i].site);
    claims(&peers[0].note, 1, 2, 'r');
    for (int i = 0; i < PEERS; i++) IS(hands(&peers[i].note, &came[0]) == 0 && vialshoal_note_update(&peers[i].note) == 0);
}

/* An entry that came before, with some of it changed. */
static void comes_changed(vialshoal_note *note, bytes *in) {
    given it = came[byte_of(in) % many];
    uint32_t what = byte_of(in), where = number_of(in), with = byte_of(in);
    uint8_t *body = malloc(it.length + 1);
    IS(body != NULL);
    if (it.length > 0) memcpy(body, it.body, it.length);
    if (it.length > 0) body[where % it.length] ^= (uint8_t)with;
    it.body = body;
    if (what & 1) it.head.author = author_of(with);
    if (what & 2) it.head.before.bytes[where % 32] ^= (uint8_t)with;
    if (what & 4) it.head.first += with;
    if (what & 8) it.head.count ^= (uint16_t)with;
    if (what & 16) it.head.site ^= (uint16_t)with;
    if (what & 32) it.head.text ^= (uint16_t)with;
    if (what & 64) it.head.before = hash_of(0);
    comes(note, it);
    free(body);
}

static void comes_anew(vialshoal_note *note, bytes *in) {
    given it = {.head = {.author = author_of(byte_of(in)), .first = number_of(in), .count = (uint16_t)byte_of(in)}};
    it.head.site = (uint16_t)byte_of(in);
    it.head.text = (uint16_t)byte_of(in);
    bytes body = span_of(in);
    it.body = (uint8_t *)body.at;
    it.length = body.left;
    comes(note, it);
}

/* A note may be one with a base, which hardly ever is as its root says. */
static void opens_another(bytes *in) {
    vialshoal_note other = {0};
    vialshoal_hash key = hash_of('k'), founder = author_of(0), root = hash_of((uint8_t)byte_of(in));
    uint16_t site = (uint16_t)byte_of(in);
    bytes base = span_of(in);
    if (is_done(vialshoal_note_new(&other, site, &key, &founder, 1, &key, &root, base.at, base.left))) {
        IS(vialshoal_note_free(&other) == 0);
    }
    IS(other.at == NULL);
}

/* -- what is shown -- */

static uint8_t *read_of(const vialshoal_note *note, uint16_t text, uint64_t *length) {
    uint64_t need;
    IS(vialshoal_note_length(note, text, length) == 0);
    uint8_t *read = malloc(*length + 1);
    IS(read != NULL && vialshoal_note_bytes(note, text, 0, *length, read, *length, &need) == 0 && need == *length);
    return read;
}

static void follow(peer *at, uint16_t text) {
    shown *it = &at->texts[text - 1];
    uint64_t length, need;
    bool is_anew;
    while (true) {
        IS(vialshoal_note_changes(&at->note, text, &is_anew, NULL, 0, &need) == (need == 0 ? 0 : VIALSHOAL_TOO_SHORT));
        if (need == 0) break;
        vialshoal_change *all = malloc(need * sizeof *all);
        IS(all != NULL && vialshoal_note_changes(&at->note, text, &is_anew, all, need, &need) == 0);
        for (uint64_t i = 0; i < need && !is_anew; i++) change(it, &all[i]);
        free(all);
        if (is_anew) break;
    }
    uint8_t *read = read_of(&at->note, text, &length);
    if (is_anew) begins_anew(it, length);
    is_read(it, read, length);
    free(read);
}

static void updates(peer *at) {
    vialshoal_hash author = author_of(at->site - 1u);
    vialshoal_head head;
    uint64_t need;
    IS(vialshoal_note_update(&at->note) == 0);
    for (uint16_t text = 1; text <= TEXTS; text++) {
        IS(vialshoal_note_own(&at->note, text, &author, 0, &head, NULL, 0, &need) == VIALSHOAL_NO_MESSAGE);
        follow(at, text);
    }
}

/* Own edits are said, and count where nobody's else do in their place. */
static void says(peer *at) {
    static uint8_t room[BODY];
    vialshoal_hash author = author_of(at->site - 1u);
    given said[MOST_GIVEN];
    size_t count = 0;
    for (uint16_t text = 1; text <= TEXTS; text++) {
        for (uint64_t index = 0; count < MOST_GIVEN; index++) {
            given it = {.length = 0};
            uint32_t number = vialshoal_note_own(&at->note, text, &author, index, &it.head, room, BODY, &it.length);
            IS(number == 0 || number == VIALSHOAL_NO_MESSAGE || number == VIALSHOAL_BEHIND);
            if (number != 0) break;
            it.body = malloc(it.length);
            IS(it.body != NULL && it.length <= BODY && it.head.text == text && it.head.site == at->site);
            memcpy(it.body, room, it.length);
            said[count++] = it;
        }
    }
    for (size_t i = 0; i < count; i++) {
        comes(&at->note, said[i]);
        free(said[i].body);
    }
    updates(at);
}

static void reads(const vialshoal_note *note, uint16_t text, bytes *in) {
    vialshoal_looks_run run;
    vialshoal_name name;
    vialshoal_place place;
    uint8_t font[FONT];
    uint16_t found[8];
    uint32_t front;
    uint64_t length, need;
    IS(vialshoal_note_length(note, text, &length) == 0);
    for (uint64_t pos = number_of(in) % (length + 1); pos < length; pos = run.end) {
        IS(vialshoal_note_names(note, text, pos, pos + 1, &name, 1, &need) == 0);
        IS(vialshoal_note_find(note, text, name.site, name.offset, &place) == 0 && place.pos == pos + 1 && place.is_shown);
        IS(vialshoal_note_looks(note, text, pos, &run, font, sizeof font, &need) == 0 && run.end > pos && run.end <= length);
    }
    is_done(vialshoal_note_find(note, text, (uint16_t)byte_of(in), number_of(in), &place));
    is_done(vialshoal_note_front(note, text, (uint16_t)byte_of(in), &front));
    if (!is_done(vialshoal_note_sites(note, text, found, 8, &need))) return;
    for (uint64_t i = 0; i < need; i++) IS(vialshoal_note_front(note, text, found[i], &front) == 0 && front > 0);
}

/* The text as it was up to now is the text as it is. */
static void looks_back(const vialshoal_note *note, uint16_t text) {
    vialshoal_site_front fronts[8];
    uint16_t found[8];
    vialshoal_past_text past = {0};
    uint64_t length, its, count, need;
    if (!is_done(vialshoal_note_sites(note, text, found, 8, &count))) return;
    for (uint64_t i = 0; i < count; i++) fronts[i] = (vialshoal_site_front){found[i], UINT32_MAX};
    IS(vialshoal_note_past(note, text, fronts, count, &past) == 0);
    uint8_t *read = read_of(note, text, &length), *was = malloc(length + 1);
    IS(was != NULL && vialshoal_past_length(&past, &its) == 0 && its == length);
    IS(vialshoal_past_bytes(&past, 0, length, was, length, &need) == 0 && memcmp(was, read, length) == 0);
    free(was);
    free(read);
    IS(vialshoal_past_free(&past) == 0);
}

/* -- own edits -- */

static uint32_t edits_names(vialshoal_note *note, uint16_t text, bytes *in, bool restores, uint32_t *sent) {
    vialshoal_name_range names[FRONTS];
    size_t count = byte_of(in) % FRONTS;
    for (size_t i = 0; i < count; i++) {
        names[i].site = (uint16_t)byte_of(in);
        names[i].offset = number_of(in);
        names[i].length = number_of(in);
    }
    return (restores ? vialshoal_note_restore_names : vialshoal_note_delete_names)(note, text, names, count, sent);
}

static uint32_t edits_one_of(vialshoal_note *note, uint16_t text, uint64_t length, bytes *in, uint32_t *sent) {
    uint32_t what = byte_of(in);
    if (what % 8 < 2) return edits_names(note, text, in, what % 8, sent);
    uint64_t beg = number_of(in) % (length + 2), end = number_of(in) % (length + 2);
    bytes some = span_of(in);
    if (what % 8 == 2) return vialshoal_note_delete(note, text, beg, end, sent);
    if (what % 8 > 3) return vialshoal_note_insert(note, text, beg, some.at, some.left, sent);
    return vialshoal_note_change_looks(note, text, beg, end, what >> 5, some.at, some.left, what >> 4, 3, sent);
}

/* One that is refused as a whole changes nothing. */
static void edits(vialshoal_note *note, uint16_t text, bytes *in) {
    uint64_t before, after;
    uint32_t sent;
    uint8_t *was = read_of(note, text, &before);
    if (before <= LONG && !is_done(edits_one_of(note, text, before, in, &sent)) && sent == 0) {
        uint8_t *is = read_of(note, text, &after);
        IS(before == after && memcmp(was, is, before) == 0);
        free(is);
    }
    free(was);
}

/* -- calls -- */

/* A text that no note has is refused. */
static bool has_text(const vialshoal_note *note, uint16_t text) {
    uint64_t length;
    bool has = text >= 1 && text <= TEXTS;
    IS(vialshoal_note_length(note, text, &length) == (has ? 0 : VIALSHOAL_NO_NUMBER));
    return has;
}

void fuzz_notes_play(bytes *in) {
    if (many == 0) begins();
    uint32_t what = byte_of(in), which = byte_of(in);
    peer *at = &peers[which % PEERS];
    /* (mostly of three texts, so that edits meet) */
    uint16_t text = which < 0xf0 ? (uint16_t)(1 + (which >> 4) % 3) : (uint16_t)byte_of(in);
    if (!has_text(&at->note, text)) return;
    switch (what % 16) {
    case 0: opens_another(in); break;
    case 1: claims(&at->note, byte_of(in), (uint16_t)byte_of(in), (uint8_t)byte_of(in)); break;
    case 2: comes_anew(&at->note, in); break;
    case 3: comes_changed(&at->note, in); break;
    case 4:
    case 5: IS(hands(&at->note, &came[byte_of(in) % many]) == 0); break;
    case 6: updates(at); break;
    case 7:
    case 8: says(at); break;
    case 9: reads(&at->note, text, in); break;
    case 10: looks_back(&at->note, text); break;
    default: edits(&at->note, text, in);
    }
    follow(at, text);
}

/* -- in the end -- */

static bool has_same_looks(const vialshoal_note *one, const vialshoal_note *other, uint16_t text, uint64_t length) {
    vialshoal_looks_run mine, its;
    uint8_t font[FONT], its_font[FONT];
    uint64_t need, its_need;
    for (uint64_t pos = 0; pos < length; pos = mine.end) {
        IS(vialshoal_note_looks(one, text, pos, &mine, font, FONT, &need) == 0);
        IS(vialshoal_note_looks(other, text, pos, &its, its_font, FONT, &its_need) == 0);
        if (need != its_need || memcmp(font, its_font, need) != 0) return false;
        if (mine.end != its.end || mine.colour != its.colour || mine.offset != its.offset) return false;
    }
    return true;
}

static void show_the_same(const vialshoal_note *one, const vialshoal_note *other) {
    for (uint16_t text = 1; text <= TEXTS; text++) {
        uint64_t length, its_length;
        uint8_t *mine = read_of(one, text, &length), *its = read_of(other, text, &its_length);
        IS(length == its_length && memcmp(mine, its, length) == 0 && has_same_looks(one, other, text, length));
        free(mine);
        free(its);
    }
}

void fuzz_notes_end(void) {
    vialshoal_note reader = {0};
    if (many == 0) return;
    opens(&reader, 9);
    for (size_t i = 0; i < many; i++) IS(hands(&reader, &came[i]) == 0);
    IS(vialshoal_note_update(&reader) == 0);
    for (int i = 0; i < PEERS; i++) {
        for (size_t k = 0; k < many; k++) IS(hands(&peers[i].note, &came[i == 0 ? k : many - 1 - k]) == 0);
        updates(&peers[i]);
        show_the_same(&reader, &peers[i].note);
        IS(vialshoal_note_free(&peers[i].note) == 0);
        for (int text = 0; text < TEXTS; text++) peers[i].texts[text].length = 0;
    }
    IS(vialshoal_note_free(&reader) == 0);
    while (many > 0) free(came[--many].body);
}
