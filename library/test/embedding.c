/* Tests what the library has beside the calls of its crate. It is linked with the archive, and with the shared library. */
#include <stdio.h>
#include <stdlib.h>
#include <string.h>

#include <vialshoal.h>

static void fail(int line, const char *what) {
    fprintf(stderr, "embedding.c:%d: not so: %s\n", line, what);
    exit(1);
}

#define IS(what) ((what) ? (void)0 : fail(__LINE__, #what))

static void has_a_version(void) {
    IS(vialshoal_version() == VIALSHOAL_VERSION);
    IS(vialshoal_fits());
}

static void has_words(void) {
    vialshoal_text text = {0};
    IS(strcmp(vialshoal_strerror(0), "done") == 0);
    IS(strcmp(vialshoal_strerror(VIALSHOAL_OUT_OF_MEMORY), "memory was refused") == 0);
    IS(strcmp(vialshoal_strerror(vialshoal_free(&text)), "the text is closed") == 0);
    IS(vialshoal_strerror(24) == vialshoal_strerror(UINT32_MAX));
}

int main(void) {
    has_a_version();
    has_words();
    puts("embedding: all is so");
    return 0;
}
