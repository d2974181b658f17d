/* What the library has beside the calls of its crate. Nothing here is proved; library/test/run tests it. */
#include "../vialshoal.h"

#include <errno.h>
#include <stdlib.h>
#include <string.h>

/* -- The heap. The crate's objects call it by these names, as `symbols` says. -- */

#define UNLESS_THE_PROGRAM_HAS_IT __attribute__((weak))

UNLESS_THE_PROGRAM_HAS_IT void *vialshoal_heap_malloc(size_t size) { return malloc(size); }
UNLESS_THE_PROGRAM_HAS_IT void *vialshoal_heap_realloc(void *block, size_t size) { return realloc(block, size); }
UNLESS_THE_PROGRAM_HAS_IT void vialshoal_heap_free(void *block) { free(block); }

/* Two more by which Rust's own library asks; no object of the crate does. */
#define INSIDE __attribute__((visibility("hidden")))

INSIDE void *vialshoal_heap_calloc(size_t count, size_t size) {
    void *block = size != 0 && count > SIZE_MAX / size ? NULL : vialshoal_heap_malloc(count * size);
    return block == NULL ? NULL : memset(block, 0, count * size);
}

INSIDE int vialshoal_heap_posix_memalign(void **block, size_t alignment, size_t size) {
    *block = alignment > _Alignof(max_align_t) ? NULL : vialshoal_heap_malloc(size);
    return *block == NULL ? ENOMEM : 0;
}

/* -- Its version, and words -- */

uint32_t vialshoal_version(void) { return VIALSHOAL_VERSION; }

static const char *of_refusal(uint32_t number) {
    switch (number) {
    case VIALSHOAL_MALFORMED: return "the bytes are no message, or no chunk";
    case VIALSHOAL_WRONG_TEXT: return "the message, or the chunk, is of another text";
    case VIALSHOAL_CONFLICT: return "another operation has this identity: two copies edited as one site";
    case VIALSHOAL_BAD_OFFSET: return "the message does not fit the others of its site";
    case VIALSHOAL_BAD_STAMP: return "the stamp is not above that of each cause";
    case VIALSHOAL_ROOM_FULL: return "64 messages wait already";
    case VIALSHOAL_OUT_OF_MEMORY: return "memory was refused";
    case VIALSHOAL_BEHIND: return "what waits shows that the site was further once";
    case VIALSHOAL_STAMPS_SPENT: return "the greatest stamp was taken in";
    case VIALSHOAL_FILE_SPENT: return "the site would have put in more than 2^24 bytes";
    case VIALSHOAL_OUT_OF_RANGE: return "a position or a row lies outside";
    case VIALSHOAL_SCATTERED: return "a set of names needs more than 1,024 ranges";
    case VIALSHOAL_BAD_FILE: return "the bytes are no file of a site; or a text file would pass 2^20 bytes, a packed one 2^22 operations";
    case VIALSHOAL_NO_ROOM: return "no viewer may open there";
    case VIALSHOAL_NO_VIEWER: return "no viewer is there";
    case VIALSHOAL_UNKNOWN_COMMAND: return "there is no such command";
    case VIALSHOAL_BAD_PARAMETER: return "the command takes no such parameter";
    case VIALSHOAL_NO_SELECTION: return "nothing is selected";
    case VIALSHOAL_NO_CARET: return "there is no caret";
    case VIALSHOAL_BAD_EVENT: return "the line is no event";
    case VIALSHOAL_READ_FAULT: return "a file wasn't read";
    case VIALSHOAL_WRITE_FAULT: return "a file wasn't written";
    case VIALSHOAL_SEQ_SPENT: return "the site has made its last operation in the text";
    default: return "no number of this library";
    }
}

const char *vialshoal_strerror(uint32_t number) {
    switch (number) {
    case 0: return "done";
    case VIALSHOAL_NOT_OPEN: return "the text is closed";
    case VIALSHOAL_ALREADY_OPEN: return "the text is open already";
    case VIALSHOAL_OUT_OF_TEXT: return "a position lies outside the text, or a range ends before its begin";
    case VIALSHOAL_TOO_LONG: return "more than 2^24 bytes are to be put in";
    case VIALSHOAL_NO_NUMBER: return "a number is that of no text, site, name or colour, or a font is none";
    case VIALSHOAL_NO_NAME: return "the name is that of no character that was taken in";
    case VIALSHOAL_TOO_SHORT: return "the room is too short";
    case VIALSHOAL_NO_MESSAGE: return "no message has this index, or none is left";
    case VIALSHOAL_STILL_NOTED: return "changes are noted, and told as such";
    default: return of_refusal(number);
    }
}
