/* The calls that read a handle, which isn't written by any of these: so several threads may read at once. The crate's take what a handle
 * holds out of it, and put the same back, so they get a copy of the handle; what it points to they don't write. Those with a pointer beside
 * a length let null through at length 0. */
#include "crate.h"

OF_THE_CRATE(store);
OF_THE_CRATE(store_packed);
OF_THE_CRATE(messages);
OF_THE_CRATE(message);
OF_THE_CRATE(merge);
OF_THE_CRATE(waiting);
OF_THE_CRATE(sites);
OF_THE_CRATE(front);
OF_THE_CRATE(since);
OF_THE_CRATE(pack);
OF_THE_CRATE(length);
OF_THE_CRATE(bytes);
OF_THE_CRATE(looks);
OF_THE_CRATE(names);
OF_THE_CRATE(find);
OF_THE_CRATE(save);
OF_THE_CRATE(past);
OF_THE_CRATE(past_length);
OF_THE_CRATE(past_bytes);
OF_THE_CRATE(past_looks);
OF_THE_CRATE(past_names);
OF_THE_CRATE(past_find);

#define TEXT(handle) (&(vialshoal_text){(handle)->at})
#define PAST(handle) (&(vialshoal_past_text){(handle)->at})

uint32_t vialshoal_store(const vialshoal_text *text, uint8_t *room, size_t length, uint64_t *need) {
    return vialshoal_c_store(TEXT(text), vialshoal_c_some(room, length), length, need);
}

uint32_t vialshoal_store_packed(const vialshoal_text *text, uint8_t *room, size_t length, uint64_t *need) {
    return vialshoal_c_store_packed(TEXT(text), vialshoal_c_some(room, length), length, need);
}

uint32_t vialshoal_messages(const vialshoal_text *text, uint64_t *count) {
    return vialshoal_c_messages(TEXT(text), count);
}

uint32_t vialshoal_message(const vialshoal_text *text, uint64_t index, uint8_t *room, size_t length, uint64_t *need) {
    return vialshoal_c_message(TEXT(text), index, vialshoal_c_some(room, length), length, need);
}

uint32_t vialshoal_merge(vialshoal_text *text, const vialshoal_text *other, uint64_t *taken) {
    return vialshoal_c_merge(text, TEXT(other), taken);
}

uint32_t vialshoal_waiting(const vialshoal_text *text, uint32_t *count) {
    return vialshoal_c_waiting(TEXT(text), count);
}

uint32_t vialshoal_sites(const vialshoal_text *text, uint16_t *room, size_t length, uint64_t *need) {
    return vialshoal_c_sites(TEXT(text), vialshoal_c_some(room, length), length, need);
}

uint32_t vialshoal_front(const vialshoal_text *text, uint16_t site, uint32_t *front) {
    return vialshoal_c_front(TEXT(text), site, front);
}

uint32_t vialshoal_since(const vialshoal_text *text, const vialshoal_site_front *fronts, size_t count, uint64_t *index,
                         uint8_t *room, size_t length, uint64_t *need) {
    return vialshoal_c_since(TEXT(text), vialshoal_c_some(fronts, count), count, index, vialshoal_c_some(room, length),
                             length, need);
}

uint32_t vialshoal_pack(const vialshoal_text *text, const vialshoal_site_front *fronts, size_t count, uint8_t *room,
                        size_t length, uint64_t *need) {
    return vialshoal_c_pack(TEXT(text), vialshoal_c_some(fronts, count), count, vialshoal_c_some(room, length), length,
                            need);
}

uint32_t vialshoal_length(const vialshoal_text *text, uint64_t *length) {
    return vialshoal_c_length(TEXT(text), length);
}

uint32_t vialshoal_bytes(const vialshoal_text *text, uint64_t beg, uint64_t end, uint8_t *room, size_t length,
                         uint64_t *need) {
    return vialshoal_c_bytes(TEXT(text), beg, end, vialshoal_c_some(room, length), length, need);
}

uint32_t vialshoal_looks(const vialshoal_text *text, uint64_t pos, vialshoal_looks_run *run, uint8_t *font,
                         size_t length, uint64_t *need) {
    return vialshoal_c_looks(TEXT(text), pos, run, vialshoal_c_some(font, length), length, need);
}

uint32_t vialshoal_names(const vialshoal_text *text, uint64_t beg, uint64_t end, vialshoal_name *room, size_t length,
                         uint64_t *need) {
    return vialshoal_c_names(TEXT(text), beg, end, vialshoal_c_some(room, length), length, need);
}

uint32_t vialshoal_find(const vialshoal_text *text, uint16_t site, uint32_t offset, vialshoal_place *place) {
    return vialshoal_c_find(TEXT(text), site, offset, place);
}

uint32_t vialshoal_save(const vialshoal_text *text, uint8_t *room, size_t length, uint64_t *need) {
    return vialshoal_c_save(TEXT(text), vialshoal_c_some(room, length), length, need);
}

uint32_t vialshoal_past(const vialshoal_text *text, const vialshoal_site_front *fronts, size_t count,
                        vialshoal_past_text *past) {
    return vialshoal_c_past(TEXT(text), vialshoal_c_some(fronts, count), count, past);
}

uint32_t vialshoal_past_length(const vialshoal_past_text *past, uint64_t *length) {
    return vialshoal_c_past_length(PAST(past), length);
}

uint32_t vialshoal_past_bytes(const vialshoal_past_text *past, uint64_t beg, uint64_t end, uint8_t *room, size_t length,
                              uint64_t *need) {
    return vialshoal_c_past_bytes(PAST(past), beg, end, vialshoal_c_some(room, length), length, need);
}

uint32_t vialshoal_past_looks(const vialshoal_past_text *past, uint64_t pos, vialshoal_looks_run *run, uint8_t *font,
                              size_t length, uint64_t *need) {
    return vialshoal_c_past_looks(PAST(past), pos, run, vialshoal_c_some(font, length), length, need);
}

uint32_t vialshoal_past_names(const vialshoal_past_text *past, uint64_t beg, uint64_t end, vialshoal_name *room,
                              size_t length, uint64_t *need) {
    return vialshoal_c_past_names(PAST(past), beg, end, vialshoal_c_some(room, length), length, need);
}

uint32_t vialshoal_past_find(const vialshoal_past_text *past, uint16_t site, uint32_t offset, vialshoal_place *place) {
    return vialshoal_c_past_find(PAST(past), site, offset, place);
}
