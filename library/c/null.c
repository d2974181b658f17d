/* The calls that change a text and take a pointer beside a length: they let null through at length 0. reads.c has those that read. */
#include "crate.h"

OF_THE_CRATE(load);
OF_THE_CRATE(insert);
OF_THE_CRATE(insert_in_looks);
OF_THE_CRATE(change_looks);
OF_THE_CRATE(delete_names);
OF_THE_CRATE(restore_names);
OF_THE_CRATE(take);
OF_THE_CRATE(unpack);
OF_THE_CRATE(changes);

/* (aligned for all that calls take) */
static uint64_t nothing;

void *vialshoal_c_some(const void *at, size_t length) { return length == 0 ? &nothing : (void *)at; }

uint32_t vialshoal_load(vialshoal_text *text, const uint8_t *file, size_t length) {
    return vialshoal_c_load(text, vialshoal_c_some(file, length), length);
}

uint32_t vialshoal_insert(vialshoal_text *text, uint64_t pos, const uint8_t *bytes, size_t length, uint32_t *sent) {
    return vialshoal_c_insert(text, pos, vialshoal_c_some(bytes, length), length, sent);
}

uint32_t vialshoal_insert_in_looks(vialshoal_text *text, uint64_t pos, const uint8_t *bytes, size_t length,
                                   const uint8_t *font, size_t font_length, uint8_t colour, int8_t offset, uint32_t *sent) {
    return vialshoal_c_insert_in_looks(text, pos, vialshoal_c_some(bytes, length), length, vialshoal_c_some(font,
                                       font_length), font_length, colour,
                                       offset, sent);
}

uint32_t vialshoal_change_looks(vialshoal_text *text, uint64_t beg, uint64_t end, uint8_t selected, const uint8_t *font,
                                size_t font_length, uint8_t colour, int8_t offset, uint32_t *sent) {
    return vialshoal_c_change_looks(text, beg, end, selected, vialshoal_c_some(font, font_length), font_length, colour,
                                    offset, sent);
}

uint32_t vialshoal_delete_names(vialshoal_text *text, const vialshoal_name_range *names, size_t count, uint32_t *sent) {
    return vialshoal_c_delete_names(text, vialshoal_c_some(names, count), count, sent);
}

uint32_t vialshoal_restore_names(vialshoal_text *text, const vialshoal_name_range *names, size_t count, uint32_t *sent) {
    return vialshoal_c_restore_names(text, vialshoal_c_some(names, count), count, sent);
}

uint32_t vialshoal_take(vialshoal_text *text, const uint8_t *message, size_t length, vialshoal_taking *taking) {
    return vialshoal_c_take(text, vialshoal_c_some(message, length), length, taking);
}

uint32_t vialshoal_unpack(vialshoal_text *text, const uint8_t *chunk, size_t length, vialshoal_unpacking *unpacking) {
    return vialshoal_c_unpack(text, vialshoal_c_some(chunk, length), length, unpacking);
}

uint32_t vialshoal_changes(vialshoal_text *text, vialshoal_change *room, size_t length, uint64_t *need) {
    return vialshoal_c_changes(text, vialshoal_c_some(room, length), length, need);
}
