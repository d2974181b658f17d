/* Keeps a text in a file, in the folder that is its first word: as one in memory, cut off at any byte, changed at any byte, on a full disk,
 * copied, with a heap that refuses. With `types FILE SIZE` it types for ever, and says after each edit how many are kept; with `shows FILE`
 * it says what a file has. */
#define _DEFAULT_SOURCE
#include <errno.h>
#include <limits.h>
#include <signal.h>
#include <stdio.h>
#include <stdlib.h>
#include <string.h>
#include <sys/resource.h>
#include <sys/stat.h>
#include <sys/wait.h>
#include <unistd.h>

#include <vialshoal.h>

static void fail(int line, const char *what) {
    fprintf(stderr, "kept.c:%d: not so: %s\n", line, what);
    exit(1);
}

#define IS(what) ((what) ? (void)0 : fail(__LINE__, #what))
#define BYTES(text) ((const uint8_t *)(text))

enum { HEAD = 20, EDITS = 12, MOST = 1 << 20 };

/* -- a heap that refuses, once so many blocks were asked for -- */

static long until_refused = -1;

static bool is_refused(void) { return until_refused >= 0 && until_refused-- == 0; }
void *vialshoal_heap_malloc(size_t size) { return is_refused() ? NULL : malloc(size); }
void *vialshoal_heap_realloc(void *block, size_t size) { return is_refused() ? NULL : realloc(block, size); }
void vialshoal_heap_free(void *block) { free(block); }

/* -- what files have the library unpack, where the linker is told of it (--wrap): no more than a file has -- */

uint32_t __real_vialshoal_unpack(vialshoal_text *, const uint8_t *, size_t, vialshoal_unpacking *) __attribute__((weak));
uint32_t __wrap_vialshoal_unpack(vialshoal_text *text, const uint8_t *chunk, size_t length, vialshoal_unpacking *unpacking) {
    IS(length < MOST);
    return __real_vialshoal_unpack(text, chunk, length, unpacking);
}

/* -- files -- */

static uint8_t *bytes_of(const char *path, size_t *length) {
    uint8_t *bytes = malloc(MOST);
    FILE *file = fopen(path, "rb");
    IS(bytes != NULL && file != NULL);
    *length = fread(bytes, 1, MOST, file);
    IS(fclose(file) == 0);
    return bytes;
}

static void put(const char *path, const uint8_t *bytes, size_t length) {
    FILE *file = fopen(path, "wb");
    IS(file != NULL && fwrite(bytes, 1, length, file) == length && fclose(file) == 0);
}

static size_t length_of(const char *path) {
    struct stat it;
    IS(stat(path, &it) == 0);
    return (size_t)it.st_size;
}

/* -- a text and its file -- */

typedef struct {
    vialshoal_file file;
    vialshoal_text text;
} kept;

static kept opened(const char *path, uint16_t site) {
    kept it = {{0}, {0}};
    IS(vialshoal_open(&it.file, &it.text, path, 0, site) == 0);
    return it;
}

static uint32_t answer_of(const char *path, uint16_t text, uint16_t site) {
    kept it = {{0}, {0}};
    uint32_t number = vialshoal_open(&it.file, &it.text, path, text, site);
    IS((number == 0) == (it.file.at != NULL) && (number == 0) == (it.text.at != NULL));
    return number;
}

static void end(kept *it) { IS(vialshoal_close(&it->file) == 0 && vialshoal_free(&it->text) == 0); }

static void edit(kept *it, const char *what) {
    uint32_t sent;
    IS(vialshoal_insert(&it->text, 0, BYTES(what), strlen(what), &sent) == 0 && sent == 1);
}

/* Edits, keeps it, and hands it out. */
static void go_on(kept *it, const char *what) {
    edit(it, what);
    IS(vialshoal_keep(&it->file, &it->text) == 0 && vialshoal_let_go(&it->text) == 0);
}

static uint32_t front_of(const kept *it) {
    uint32_t front;
    IS(vialshoal_front(&it->text, 1, &front) == 0);
    return front;
}

static bool shows(const kept *it, const char *what) {
    uint64_t length, need;
    uint8_t shown[64];
    IS(vialshoal_length(&it->text, &length) == 0);
    IS(length < sizeof shown && vialshoal_bytes(&it->text, 0, length, shown, sizeof shown, &need) == 0);
    return length == strlen(what) && memcmp(shown, what, length) == 0;
}

static char note[PATH_MAX + 8], other[PATH_MAX + 8];

static void goes_on(void) {
    kept it = {{0}, {0}};
    IS(answer_of(note, 0, 0) == VIALSHOAL_READ_FAULT && errno == ENOENT && access(note, F_OK) != 0);
    IS(vialshoal_open(&it.file, &it.text, note, 7, 1) == 0);
    IS(vialshoal_open(&it.file, &it.text, note, 7, 1) == VIALSHOAL_ALREADY_OPEN);
    IS(answer_of(note, 7, 1) == VIALSHOAL_READ_FAULT && errno == EAGAIN);
    go_on(&it, "ron");
    edit(&it, "be");
    IS(vialshoal_keep(&it.file, &it.text) == 0 && vialshoal_keep(&it.file, &it.text) == 0);
    edit(&it, "O");
    IS(vialshoal_keep(&it.file, &it.text) == 0);
    edit(&it, "lost ");
    end(&it);
    IS(vialshoal_close(&it.file) == VIALSHOAL_NOT_OPEN && vialshoal_keep(&it.file, &it.text) == VIALSHOAL_NOT_OPEN);
    IS(answer_of(note, 7, 2) == VIALSHOAL_NO_NUMBER && answer_of(note, 1, 0) == VIALSHOAL_NO_NUMBER);
    it = opened(note, 1);
    IS(shows(&it, "Oberon") && front_of(&it) == 3);
    end(&it);
    put(other, BYTES(""), 0);
    IS(answer_of(other, 0, 0) == VIALSHOAL_NO_NUMBER);
    IS(answer_of("/none/none", 0, 1) == VIALSHOAL_READ_FAULT && unlink(note) == 0);
}

/* What was kept is there, also by a process that was forked off, which may write nothing. */
static void is_forked(void) {
    kept it = opened(note, 1);
    int status;
    pid_t process = fork();
    if (process == 0) {
        edit(&it, "y");
        bool is_refused = vialshoal_keep(&it.file, &it.text) == VIALSHOAL_WRITE_FAULT && errno == EPERM;
        _exit(is_refused && vialshoal_close(&it.file) == 0 ? 0 : 1);
    }
    IS(waitpid(process, &status, 0) == process && status == 0);
    go_on(&it, "x");
    IS(answer_of(note, 0, 1) == VIALSHOAL_READ_FAULT && errno == EAGAIN && rename(note, other) == 0);
    edit(&it, "z");
    IS(vialshoal_keep(&it.file, &it.text) == VIALSHOAL_WRITE_FAULT && errno == ENOENT && rename(other, note) == 0);
    IS(vialshoal_keep(&it.file, &it.text) == 0);
    end(&it);
    it = opened(note, 0);
    IS(shows(&it, "zx"));
    end(&it);
    IS(unlink(note) == 0);
}

/* Cut off anywhere it has what was kept before, and goes on; changed anywhere it is told, or has what was kept before the last entry. */
static void is_cut_off(void) {
    size_t had[EDITS + 1], length;
    kept it = opened(note, 1);
    for (int i = 0; i <= EDITS; i++) {
        had[i] = length_of(note);
        if (i < EDITS) go_on(&it, "abcdefgh" + i % 8);
    }
    end(&it);
    uint8_t *whole = bytes_of(note, &length);
    IS(had[0] == HEAD && had[EDITS] == length);
    for (size_t cut = 0; cut <= length; cut++) {
        uint32_t front = 0;
        put(other, whole, cut);
        while (front < EDITS && had[front + 1] <= cut) front++;
        it = opened(other, 1);
        IS(front_of(&it) == front);
        go_on(&it, "new");
        end(&it);
        it = opened(other, 0);
        IS(front_of(&it) == front + 1);
        end(&it);
    }
    for (size_t at = 0; at < length; at++) {
        it = (kept){{0}, {0}};
        whole[at] ^= 0x10;
        put(other, whole, length);
        uint32_t number = vialshoal_open(&it.file, &it.text, other, 0, 0);
        whole[at] ^= 0x10;
        IS(number == VIALSHOAL_BAD_FILE || (number == 0 && at >= had[EDITS - 1] && front_of(&it) == EDITS - 1));
        if (number == 0) end(&it);
    }
    free(whole);
    IS(unlink(note) == 0);
}

static uint32_t sum_of(const uint8_t *at, size_t length) {
    uint32_t sum = ~0u;
    for (size_t i = 0; i < 8 * length; i++) sum = sum >> 1 ^ (0xedb88320u & -((sum ^ at[i / 8] >> i % 8) & 1));
    return ~sum;
}

static void put_word(uint8_t *at, uint32_t word) {
    for (int i = 0; i < 4; i++) at[i] = (uint8_t)(word >> (24 - 8 * i));
}

/* Rows of chunks that end within one are told, where all sums are right: in the history, and in an entry. */
static void ends_within_a_chunk(void) {
    static const uint8_t rows[][3] = {{'x'}, {0, 1}, {5, 0, 'x'}};
    for (size_t row = 0; row < 3; row++) {
        for (int is_entry = 0; is_entry < 2; is_entry++) {
            size_t length = row + 1, history = is_entry ? 0 : length, at = HEAD + (is_entry ? 8 : 0);
            uint8_t *file = malloc(at + length), entry[11] = {0, 1, 0, 1};
            IS(file != NULL);
            memcpy(file, "OTJ1\0\1\0\1", 8);
            memcpy(file + at, rows[row], length);
            put_word(file + 8, (uint32_t)history);
            put_word(file + 12, sum_of(file + HEAD, history));
            put_word(file + 16, sum_of(file, 16));
            put_word(entry + 4, (uint32_t)length);
            memcpy(entry + 8, rows[row], length);
            if (is_entry) {
                put_word(file + HEAD, (uint32_t)length);
                put_word(file + HEAD + 4, sum_of(entry, 8 + length));
            }
            put(other, file, at + length);
            free(file);
            IS(answer_of(other, 0, 0) == VIALSHOAL_BAD_FILE);
        }
    }
}

/* A full disk is told, and loses nothing. */
static void is_full(void) {
    struct rlimit limit, old;
    kept it = opened(note, 1);
    IS(signal(SIGXFSZ, SIG_IGN) != SIG_ERR && getrlimit(RLIMIT_FSIZE, &old) == 0);
    go_on(&it, "kept ");
    for (size_t room = 0; room < 30; room += 7) {
        size_t length = length_of(note);
        limit = (struct rlimit){length + room, old.rlim_max};
        edit(&it, "abcdefghijklmnopqrstuvwxyz0123456789");
        IS(setrlimit(RLIMIT_FSIZE, &limit) == 0);
        IS(vialshoal_keep(&it.file, &it.text) == VIALSHOAL_WRITE_FAULT && errno == EFBIG && length_of(note) == length);
        IS(setrlimit(RLIMIT_FSIZE, &old) == 0);
    }
    IS(vialshoal_keep(&it.file, &it.text) == 0 && front_of(&it) == 6);
    end(&it);
    it = opened(note, 0);
    IS(front_of(&it) == 6);
    end(&it);
    IS(unlink(note) == 0);
}

/* A copy that the other one is ahead of is told, and stays as it is; so is one whose messages went before they were kept. */
static void is_copied(void) {
    size_t length;
    uint64_t taken;
    kept it = opened(note, 1), copy;
    vialshoal_text server = {0};
    go_on(&it, "both");
    uint8_t *bytes = bytes_of(note, &length);
    put(other, bytes, length);
    free(bytes);
    go_on(&it, "went on, ");
    IS(vialshoal_new(&server, 1, 2) == 0 && vialshoal_merge(&server, &it.text, &taken) == 0);
    copy = opened(other, 0);
    IS(vialshoal_merge(&copy.text, &server, &taken) == 0 && taken == 1);
    IS(vialshoal_keep(&copy.file, &copy.text) == VIALSHOAL_BEHIND);
    edit(&copy, "more");
    IS(vialshoal_keep(&copy.file, &copy.text) == VIALSHOAL_BEHIND);
    end(&copy);
    copy = opened(other, 0);
    IS(shows(&copy, "both"));
    edit(&copy, "x");
    IS(vialshoal_let_go(&copy.text) == 0 && vialshoal_keep(&copy.file, &copy.text) == VIALSHOAL_BEHIND);
    end(&copy);
    end(&it);
    IS(vialshoal_free(&server) == 0 && unlink(note) == 0);
}

/* What others made is kept, too; and the list becomes one packed file, under its name and with its mode. */
static void is_packed(void) {
    static uint8_t long_one[3000];
    size_t most = 0;
    uint32_t sent;
    uint64_t taken;
    char link[sizeof note + 8];
    vialshoal_text server = {0};
    snprintf(link, sizeof link, "%s.link", note);
    IS(symlink(note, link) == 0 && vialshoal_new(&server, 1, 2) == 0);
    kept it = opened(link, 1);
    IS(chmod(note, 0640) == 0);
    srand(1);
    for (int i = 0; i < 40; i++) {
        for (size_t at = 0; at < sizeof long_one; at++) long_one[at] = (uint8_t)rand();
        IS(vialshoal_insert(i % 2 == 0 ? &it.text : &server, 0, long_one, sizeof long_one, &sent) == 0);
        IS(vialshoal_merge(&it.text, &server, &taken) == 0 && vialshoal_keep(&it.file, &it.text) == 0);
        IS(vialshoal_let_go(&it.text) == 0);
        if (length_of(note) > most) most = length_of(note);
    }
    struct stat of;
    uint64_t length, its;
    IS(vialshoal_length(&it.text, &length) == 0 && length == 40 * sizeof long_one);
    IS(lstat(note, &of) == 0 && S_ISREG(of.st_mode) && (of.st_mode & 07777) == 0640);
    end(&it);
    uint8_t *bytes = bytes_of(note, &most);
    IS(memcmp(bytes + HEAD, "OTP1", 4) == 0);
    free(bytes);
    it = opened(note, 0);
    IS(vialshoal_length(&it.text, &its) == 0 && its == length && vialshoal_merge(&it.text, &server, &taken) == 0 && taken == 0);
    end(&it);
    IS(vialshoal_free(&server) == 0 && unlink(link) == 0 && unlink(note) == 0);
}

/* Where memory is refused nothing is left open, and what wasn't kept is kept by the next call. */
static void is_refused_memory(void) {
    kept it = opened(note, 1);
    go_on(&it, "x");
    edit(&it, "y");
    for (long blocks = 0;; blocks++) {
        until_refused = blocks;
        uint32_t number = vialshoal_keep(&it.file, &it.text);
        bool was_refused = until_refused < 0;
        until_refused = -1;
        if (!was_refused) break;
        IS(number == VIALSHOAL_OUT_OF_MEMORY || number == 0);
    }
    IS(vialshoal_keep(&it.file, &it.text) == 0);
    end(&it);
    for (long blocks = 0;; blocks++) {
        it = (kept){{0}, {0}};
        until_refused = blocks;
        uint32_t number = vialshoal_open(&it.file, &it.text, note, 0, 0);
        bool was_refused = until_refused < 0;
        until_refused = -1;
        IS(number == 0 ? shows(&it, "yx") : was_refused && number == VIALSHOAL_OUT_OF_MEMORY && it.file.at == NULL && it.text.at == NULL);
        if (number == 0) end(&it);
        if (!was_refused) break;
    }
    IS(unlink(note) == 0);
}

static void types(const char *path, size_t size) {
    kept it = opened(path, 1);
    uint8_t *digits = malloc(10 * size);
    IS(digits != NULL);
    for (size_t i = 0; i < 10 * size; i++) digits[i] = (uint8_t)('0' + i % 10);
    for (uint64_t length; vialshoal_length(&it.text, &length) == 0;) {
        uint32_t sent;
        IS(vialshoal_insert(&it.text, length, digits, 10 * size, &sent) == 0);
        IS(vialshoal_keep(&it.file, &it.text) == 0 && vialshoal_let_go(&it.text) == 0);
        printf("%u\n", front_of(&it));
        fflush(stdout);
    }
}

static void show(const char *path) {
    kept it = opened(path, 0);
    uint64_t length, need;
    IS(vialshoal_length(&it.text, &length) == 0);
    uint8_t *shown = malloc(length + 1);
    IS(shown != NULL && vialshoal_bytes(&it.text, 0, length, shown, length, &need) == 0);
    printf("%u\n", front_of(&it));
    fwrite(shown, 1, length, stdout);
    free(shown);
    end(&it);
}

int main(int count, char **words) {
    if (count == 4 && strcmp(words[1], "types") == 0) types(words[2], (size_t)atol(words[3]));
    if (count == 3 && strcmp(words[1], "shows") == 0) {
        show(words[2]);
        return 0;
    }
    char folder[PATH_MAX];
    IS(count == 2 && realpath(words[1], folder) != NULL);
    snprintf(note, sizeof note, "%s/note", folder);
    snprintf(other, sizeof other, "%s/other", folder);
    goes_on();
    is_forked();
    is_cut_off();
    ends_within_a_chunk();
    is_full();
    is_copied();
    is_packed();
    is_refused_memory();
    puts("kept: all is so");
    return 0;
}
