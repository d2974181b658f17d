/* Where a text grows past what files have: beyond 2^20 bytes it is no text file, and beyond 2^22 operations no packed one, as the refusal
 * says in words; the file that it is kept in goes on, and so does the longer form. The argument is a folder for files. */
#include <stdio.h>
#include <stdlib.h>
#include <string.h>

#include <vialshoal.h>

enum { TEXT_FILE = 1 << 20, PACKED = 1 << 22, MANY = 1 << 16, PATH = 4096 };

static void fail(int line, const char *what) {
    fprintf(stderr, "limits.c:%d: not so: %s\n", line, what);
    exit(1);
}

#define IS(what) ((what) ? (void)0 : fail(__LINE__, #what))

static uint64_t length_of(const vialshoal_text *text) {
    uint64_t length;
    IS(vialshoal_length(text, &length) == 0);
    return length;
}

static uint32_t front_of(const vialshoal_text *text) {
    uint32_t front;
    IS(vialshoal_front(text, 1, &front) == 0);
    return front;
}

static uint8_t *bytes_of(const vialshoal_text *text) {
    uint64_t length = length_of(text), need;
    uint8_t *bytes = malloc(length);
    IS(bytes != NULL && vialshoal_bytes(text, 0, length, bytes, length, &need) == 0);
    return bytes;
}

static bool are_alike(const vialshoal_text *one, const vialshoal_text *other) {
    uint64_t length = length_of(one);
    uint8_t *bytes = bytes_of(one), *others = bytes_of(other);
    bool are = length == length_of(other) && memcmp(bytes, others, length) == 0 && front_of(one) == front_of(other);
    free(bytes);
    free(others);
    return are;
}

static void is_kept(vialshoal_file *file, vialshoal_text *text) {
    IS(vialshoal_keep(file, text) == 0 && vialshoal_let_go(text) == 0);
}

static void put(vialshoal_text *text, const uint8_t *bytes, size_t length) {
    uint32_t sent;
    IS(vialshoal_insert(text, length_of(text), bytes, length, &sent) == 0);
}

/* Puts in a letter after the others, until there are so many operations. */
static void types(vialshoal_file *file, vialshoal_text *text, uint32_t operations) {
    uint32_t done = front_of(text), sent;
    for (uint64_t pos = length_of(text); done < operations; done++, pos++) {
        IS(vialshoal_insert(text, pos, (const uint8_t *)"abcdefghi" + pos % 9, 1, &sent) == 0);
        if (done % MANY == 0) is_kept(file, text);
    }
    is_kept(file, text);
}

static bool is_refused(uint32_t number, const char *word) {
    return number == VIALSHOAL_BAD_FILE && strstr(vialshoal_strerror(number), word) != NULL;
}

int main(int count, char **words) {
    static uint8_t letters[TEXT_FILE];
    char path[PATH];
    vialshoal_file file = {0};
    vialshoal_text text = {0}, again = {0};
    uint64_t need;
    IS(count == 2);
    snprintf(path, sizeof path, "%s/limits.text", words[1]);
    memset(letters, 'x', sizeof letters);
    IS(vialshoal_open(&file, &text, path, 1, 1) == 0);

    put(&text, letters, TEXT_FILE);
    IS(vialshoal_save(&text, NULL, 0, &need) == VIALSHOAL_TOO_SHORT);
    put(&text, letters, 1);
    IS(is_refused(vialshoal_save(&text, NULL, 0, &need), "a text file would pass 2^20 bytes"));

    types(&file, &text, PACKED);
    IS(vialshoal_store_packed(&text, NULL, 0, &need) == VIALSHOAL_TOO_SHORT);
    uint8_t *packed = malloc(need);
    IS(packed != NULL && vialshoal_store_packed(&text, packed, need, &need) == 0 && vialshoal_load(&again, packed, need) == 0);
    IS(are_alike(&text, &again) && vialshoal_free(&again) == 0);
    free(packed);
    types(&file, &text, PACKED + 1);
    IS(is_refused(vialshoal_store_packed(&text, NULL, 0, &need), "a packed one 2^22 operations"));
    IS(vialshoal_store(&text, NULL, 0, &need) == VIALSHOAL_TOO_SHORT);

    /* (so much more that the file is written anew) */
    for (int i = 0; i < 6; i++) {
        put(&text, letters, TEXT_FILE);
        is_kept(&file, &text);
    }
    IS(vialshoal_close(&file) == 0 && vialshoal_open(&file, &again, path, 0, 0) == 0 && are_alike(&text, &again));
    put(&again, letters, 1);
    is_kept(&file, &again);
    IS(vialshoal_close(&file) == 0 && vialshoal_free(&again) == 0 && vialshoal_free(&text) == 0);
    IS(vialshoal_open(&file, &again, path, 0, 0) == 0 && front_of(&again) > PACKED);
    IS(vialshoal_close(&file) == 0 && vialshoal_free(&again) == 0 && remove(path) == 0);
    printf("limits: all is so\n");
    return 0;
}
