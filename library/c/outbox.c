/* Messages that edits made, handed out at once. */
#include "crate.h"

enum { LENGTH = 2 };

/* How many bytes all messages take, each after its length; they are put there if there is a room. */
static uint64_t put(const vialshoal_text *text, uint64_t count, uint8_t *room, size_t length) {
    uint64_t end = 0, need;
    for (uint64_t index = 0; index < count; index++, end += LENGTH + need) {
        bool fits = end + LENGTH < length;
        vialshoal_message(text, index, fits ? room + end + LENGTH : NULL, fits ? length - end - LENGTH : 0, &need);
        if (!fits) continue;
        room[end] = (uint8_t)need;
        room[end + 1] = (uint8_t)(need >> 8);
    }
    return end;
}

uint32_t vialshoal_hand_out(vialshoal_text *text, uint8_t *room, size_t length, uint64_t *need) {
    uint64_t count;
    uint32_t number = vialshoal_messages(text, &count);
    *need = number == 0 ? put(text, count, NULL, 0) : 0;
    if (number != 0 || count == 0) return number;
    if (*need > length) return VIALSHOAL_TOO_SHORT;
    put(text, count, room, length);
    return vialshoal_let_go(text);
}
