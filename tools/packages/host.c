/* What a program asks of its system beside memory and files, for a processor for which the toolchain has no objects of it, on any
 * Linux: the number of the last error, and the program's words. Nothing here is proved, as nothing of those objects is. */
#include <errno.h>
#include <stddef.h>
#include <stdint.h>

int32_t rattle_errno(void) { return errno; }
void rattle_set_errno(int32_t error) { errno = error; }

static size_t count;
static char **words;

/* glibc hands a program's words to each constructor. */
__attribute__((constructor)) static void keep(int argc, char **argv) {
    count = (size_t)argc;
    words = argv;
}

/* Copies a word, and answers its length; -1 where there is none, -2 where it is longer than there is room. */
ptrdiff_t rattle_arg(size_t number, uint8_t *to, size_t room) {
    if (number >= count || words[number] == NULL) return -1;
    size_t length = 0;
    for (; words[number][length] != '\0'; length++) {
        if (length == room) return -2;
        to[length] = (uint8_t)words[number][length];
    }
    return (ptrdiff_t)length;
}
