/* The calls of a note that take a pointer beside a length, which let null through at length 0, and those that read it, which get a copy of
 * its handle: as null.c and reads.c have them of a text. */
#include "crate.h"

OF_THE_CRATE(note_new);
OF_THE_CRATE(note_add);
OF_THE_CRATE(note_insert);
OF_THE_CRATE(note_change_looks);
OF_THE_CRATE(note_delete_names);
OF_THE_CRATE(note_restore_names);
OF_THE_CRATE(note_own);
OF_THE_CRATE(note_changes);
OF_THE_CRATE(note_length);
OF_THE_CRATE(note_bytes);
OF_THE_CRATE(note_looks);
OF_THE_CRATE(note_names);
OF_THE_CRATE(note_find);
OF_THE_CRATE(note_front);
OF_THE_CRATE(note_sites);
OF_THE_CRATE(note_past);

#define NOTE(handle) (&(vialshoal_note){(handle)->at})

uint32_t vialshoal_note_new(vialshoal_note *note, uint16_t site, const vialshoal_hash *key, const vialshoal_hash *founder, uint16_t number,
                            const vialshoal_hash *base_key, const vialshoal_hash *root, const uint8_t *base, size_t length) {
    return vialshoal_c_note_new(note, site, key, founder, number, base_key, root, vialshoal_c_some(base, length), length);
}

uint32_t vialshoal_note_add(vialshoal_note *note, const vialshoal_head *head, const uint8_t *body, size_t length) {
    return vialshoal_c_note_add(note, head, vialshoal_c_some(body, length), length);
}

uint32_t vialshoal_note_insert(vialshoal_note *note, uint16_t text, uint64_t pos, const uint8_t *bytes, size_t length, uint32_t *sent) {
    return vialshoal_c_note_insert(note, text, pos, vialshoal_c_some(bytes, length), length, sent);
}

uint32_t vialshoal_note_change_looks(vialshoal_note *note, uint16_t text, uint64_t beg, uint64_t end, uint8_t selected,
                                     const uint8_t *font, size_t font_length, uint8_t colour, int8_t offset, uint32_t *sent) {
    return vialshoal_c_note_change_looks(note, text, beg, end, selected, vialshoal_c_some(font, font_length), font_length, colour,
                                         offset, sent);
}

uint32_t vialshoal_note_delete_names(vialshoal_note *note, uint16_t text, const vialshoal_name_range *names, size_t count,
                                     uint32_t *sent) {
    return vialshoal_c_note_delete_names(note, text, vialshoal_c_some(names, count), count, sent);
}

uint32_t vialshoal_note_restore_names(vialshoal_note *note, uint16_t text, const vialshoal_name_range *names, size_t count,
                                      uint32_t *sent) {
    return vialshoal_c_note_restore_names(note, text, vialshoal_c_some(names, count), count, sent);
}

uint32_t vialshoal_note_own(const vialshoal_note *note, uint16_t text, const vialshoal_hash *author, uint64_t index, vialshoal_head *head,
                            uint8_t *room, size_t length, uint64_t *need) {
    return vialshoal_c_note_own(NOTE(note), text, author, index, head, vialshoal_c_some(room, length), length, need);
}

uint32_t vialshoal_note_changes(vialshoal_note *note, uint16_t text, bool *is_anew, vialshoal_change *room, size_t length,
                                uint64_t *need) {
    return vialshoal_c_note_changes(note, text, is_anew, vialshoal_c_some(room, length), length, need);
}

uint32_t vialshoal_note_length(const vialshoal_note *note, uint16_t text, uint64_t *length) {
    return vialshoal_c_note_length(NOTE(note), text, length);
}

uint32_t vialshoal_note_bytes(const vialshoal_note *note, uint16_t text, uint64_t beg, uint64_t end, uint8_t *room, size_t length,
                              uint64_t *need) {
    return vialshoal_c_note_bytes(NOTE(note), text, beg, end, vialshoal_c_some(room, length), length, need);
}

uint32_t vialshoal_note_looks(const vialshoal_note *note, uint16_t text, uint64_t pos, vialshoal_looks_run *run, uint8_t *font,
                              size_t length, uint64_t *need) {
    return vialshoal_c_note_looks(NOTE(note), text, pos, run, vialshoal_c_some(font, length), length, need);
}

uint32_t vialshoal_note_names(const vialshoal_note *note, uint16_t text, uint64_t beg, uint64_t end, vialshoal_name *room, size_t length,
                              uint64_t *need) {
    return vialshoal_c_note_names(NOTE(note), text, beg, end, vialshoal_c_some(room, length), length, need);
}

uint32_t vialshoal_note_find(const vialshoal_note *note, uint16_t text, uint16_t site, uint32_t offset, vialshoal_place *place) {
    return vialshoal_c_note_find(NOTE(note), text, site, offset, place);
}

uint32_t vialshoal_note_front(const vialshoal_note *note, uint16_t text, uint16_t site, uint32_t *front) {
    return vialshoal_c_note_front(NOTE(note), text, site, front);
}

uint32_t vialshoal_note_sites(const vialshoal_note *note, uint16_t text, uint16_t *room, size_t length, uint64_t *need) {
    return vialshoal_c_note_sites(NOTE(note), text, vialshoal_c_some(room, length), length, need);
}

uint32_t vialshoal_note_past(const vialshoal_note *note, uint16_t text, const vialshoal_site_front *fronts, size_t count,
                             vialshoal_past_text *past) {
    return vialshoal_c_note_past(NOTE(note), text, vialshoal_c_some(fronts, count), count, past);
}
