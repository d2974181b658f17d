/* A text that is kept in a file (docs/FORMATS.md, "Files of open texts"). The packages for Python and Node have the same. */
#define _DEFAULT_SOURCE
#include "crate.h"

#include <errno.h>
#include <fcntl.h>
#include <limits.h>
#include <stdio.h>
#include <stdlib.h>
#include <string.h>
#include <sys/file.h>
#include <sys/stat.h>
#include <unistd.h>

/* How long the head is, what stands before an entry's chunks, and before a chunk. */
enum { BEGIN = 20, SUMMED = 16, ENTRY = 8, CHUNK = 2 };
/* At how many places a whole entry is looked for behind one that isn't. A journal that is shorter isn't worth a new file. */
enum { MOST_TRIED = 4096, LEAST = 1 << 16, ROOM = 1 << 14 };

static const char BESIDE[] = ".new";

typedef struct {
    vialshoal_site_front *at;
    size_t count;
} fronts;

typedef struct {
    int fd;
    pid_t process;
    uint16_t text, site;
    /* Where the history ends, and the last entry that is whole; and how long a journal is left as it is. */
    uint64_t history_end, end, most;
    /* Up to where it has the text. */
    fronts kept;
    /* Whether the disk knows it by its name. */
    bool is_named;
    uint8_t *room;
    size_t length;
    char path[PATH_MAX], beside[PATH_MAX + sizeof BESIDE];
} journal;

/* -- bytes -- */

static uint32_t number_at(const uint8_t *at, int size) {
    uint32_t number = 0;
    for (int i = 0; i < size; i++) number = number << 8 | at[i];
    return number;
}

static void put_number(uint8_t *at, int size, uint32_t number) {
    for (int i = size; i-- > 0; number >>= 8) at[i] = (uint8_t)number;
}

/* The CRC-32 of bytes behind others, whose one it is. */
static uint32_t crc32(uint32_t crc, const uint8_t *at, size_t length) {
    crc = ~crc;
    for (size_t i = 0; i < length; i++) {
        crc ^= at[i];
        for (int bit = 0; bit < 8; bit++) crc = crc >> 1 ^ (0xedb88320u & -(crc & 1));
    }
    return ~crc;
}

static void put_head(const journal *it, uint8_t *head, const uint8_t *history, size_t length) {
    memcpy(head, "OTJ1", 4);
    put_number(head + 4, 2, it->text);
    put_number(head + 6, 2, it->site);
    put_number(head + 8, 4, (uint32_t)length);
    put_number(head + 12, 4, crc32(0, history, length));
    put_number(head + SUMMED, 4, crc32(0, head, SUMMED));
}

static uint32_t entry_sum(const journal *it, const uint8_t *chunks, size_t length) {
    uint8_t begin[8];
    put_number(begin, 2, it->text);
    put_number(begin + 2, 2, it->site);
    put_number(begin + 4, 4, (uint32_t)length);
    return crc32(crc32(0, begin, sizeof begin), chunks, length);
}

/* How long the chunks of the entry are that begins here; 0 where no whole one does. */
static size_t entry_length(const journal *it, const uint8_t *at, size_t length) {
    if (length < ENTRY) return 0;
    size_t chunks = number_at(at, 4);
    bool is_whole = chunks > 0 && chunks <= length - ENTRY && number_at(at + 4, 4) == entry_sum(it, at + ENTRY, chunks);
    return is_whole ? chunks : 0;
}

/* Whether what isn't a whole entry isn't the begin of one, either: it is longer than that says, or a whole one comes later. */
static bool has_more(const journal *it, const uint8_t *torn, size_t length) {
    uint8_t begin[4] = {0};
    memcpy(begin, torn, length < 4 ? length : 4);
    size_t said = number_at(begin, 4);
    if (said > 0 && length > ENTRY && said < length - ENTRY) return true;
    for (size_t at = 1, tried = 0; at + ENTRY + CHUNK + 4 <= length && tried < MOST_TRIED; at++) {
        if (memcmp(torn + at + ENTRY + CHUNK, "OTC1", 4) != 0) continue;
        tried++;
        if (entry_length(it, torn + at, length - at) > 0) return true;
    }
    return false;
}

/* -- the file. What fails here leaves the reason in errno. -- */

static bool has_name(const journal *it) {
    struct stat file, named;
    return fstat(it->fd, &file) == 0 && stat(it->path, &named) == 0 && file.st_dev == named.st_dev && file.st_ino == named.st_ino;
}

/* Opens the file that has a name, once nobody else has it open. */
static bool is_locked(journal *it, const char *path, bool may_be_made) {
    for (;;) {
        it->fd = open(path, O_RDWR | O_CLOEXEC | (may_be_made ? O_CREAT : 0), 0666);
        if (it->fd < 0 || flock(it->fd, LOCK_EX | LOCK_NB) != 0 || (realpath(path, it->path) == NULL && errno != ENOENT)) return false;
        /* (the one who had it open may have put another file in its place) */
        if (has_name(it)) break;
        close(it->fd);
    }
    memcpy(it->beside, it->path, strlen(it->path) + 1);
    strcat(it->beside, BESIDE);
    return true;
}

/* Has a file end with these bytes, and the disk have them. */
static bool put(int fd, uint64_t at, const uint8_t *bytes, size_t length) {
    if (ftruncate(fd, (off_t)at) != 0) return false;
    for (size_t done = 0; done < length;) {
        ssize_t more = pwrite(fd, bytes + done, length - done, (off_t)(at + done));
        if (more < 0 && errno != EINTR) return false;
        done += more < 0 ? 0 : (size_t)more;
    }
    return fdatasync(fd) == 0;
}

/* Has the disk know the file by its name. */
static bool is_name_kept(journal *it) {
    if (it->is_named) return true;
    char folder[PATH_MAX];
    size_t length = (size_t)(strrchr(it->path, '/') - it->path);
    memcpy(folder, it->path, length + 1);
    folder[length > 0 ? length : 1] = 0;
    int fd = open(folder, O_RDONLY | O_CLOEXEC);
    it->is_named = fd >= 0 && fsync(fd) == 0;
    if (fd >= 0) close(fd);
    return it->is_named;
}

/* Whether it is this process's, and still where it was. */
static bool is_own(const journal *it) {
    if (getpid() == it->process && has_name(it)) return true;
    errno = getpid() == it->process ? ENOENT : EPERM;
    return false;
}

/* Writes at the end. Where it can't, the file has what it had. */
static uint32_t write_at(journal *it, uint64_t at, const uint8_t *bytes, size_t length) {
    if (!is_own(it)) return VIALSHOAL_WRITE_FAULT;
    if (put(it->fd, at, bytes, length) && is_name_kept(it)) return 0;
    int why = errno;
    if (ftruncate(it->fd, (off_t)at) == 0) fdatasync(it->fd);
    errno = why;
    return VIALSHOAL_WRITE_FAULT;
}

static void has(journal *it, size_t history) {
    it->history_end = it->end = BEGIN + history;
    it->most = history > LEAST ? history : LEAST;
}

/* -- rooms -- */

static uint32_t grow(journal *it, size_t length) {
    if (length <= it->length) return 0;
    uint8_t *room = vialshoal_heap_realloc(it->room, length);
    if (room == NULL) return VIALSHOAL_OUT_OF_MEMORY;
    it->room = room;
    it->length = length;
    return 0;
}

/* Puts all of a text, or chunks of what is past some fronts, behind the begin of the room. */
static uint32_t fill(journal *it, const vialshoal_text *text, const fronts *past, size_t begin, uint64_t *need) {
    for (;;) {
        uint8_t *room = it->room + begin;
        size_t length = it->length - begin;
        uint32_t number = past == NULL ? vialshoal_store_packed(text, room, length, need)
                                       : vialshoal_pack(text, past->at, past->count, room, length, need);
        if (number != VIALSHOAL_TOO_SHORT) return number;
        if ((number = grow(it, begin + *need + *need / 8)) != 0) return number;
    }
}

static uint32_t fronts_of(const vialshoal_text *text, fronts *found) {
    uint64_t count;
    uint32_t number = vialshoal_sites(text, NULL, 0, &count);
    *found = (fronts){NULL, 0};
    if (number != VIALSHOAL_TOO_SHORT) return number;
    uint16_t *sites = vialshoal_heap_malloc(count * sizeof *sites);
    found->at = vialshoal_heap_malloc(count * sizeof *found->at);
    number = sites == NULL || found->at == NULL ? VIALSHOAL_OUT_OF_MEMORY : vialshoal_sites(text, sites, count, &count);
    for (; number == 0 && found->count < count; found->count++) {
        vialshoal_site_front *front = found->at + found->count;
        front->site = sites[found->count];
        number = vialshoal_front(text, front->site, &front->seq);
    }
    vialshoal_heap_free(sites);
    return number;
}

static uint32_t front_in(const fronts *all, uint16_t site) {
    for (size_t i = 0; i < all->count; i++) {
        if (all->at[i].site == site) return all->at[i].seq;
    }
    return 0;
}

/* Whether two are alike, of which the one came from the other: fronts only rise, and none goes. */
static bool are_alike(const fronts *one, const fronts *other) {
    bool are = one->count == other->count;
    for (size_t i = 0; are && i < one->count; i++) are = one->at[i].seq == other->at[i].seq;
    return are;
}

/* -- opening -- */

static uint32_t unpack(vialshoal_text *text, const uint8_t *chunks, size_t length) {
    vialshoal_unpacking unpacking;
    for (size_t at = 0; at < length;) {
        if (length - at < CHUNK) return VIALSHOAL_BAD_FILE;
        size_t one = chunks[at] + 256u * chunks[at + 1];
        if (one > length - at - CHUNK) return VIALSHOAL_BAD_FILE;
        uint32_t number = vialshoal_unpack(text, chunks + at + CHUNK, one, &unpacking);
        if (number != 0) return number;
        at += CHUNK + one;
    }
    return 0;
}

static uint32_t load(const journal *it, vialshoal_text *text, const uint8_t *history, size_t length) {
    if (length >= 8 && memcmp(history, "OTP1", 4) == 0) {
        bool is_its = number_at(history + 4, 2) == it->text && number_at(history + 6, 2) == it->site;
        return is_its ? vialshoal_load(text, history, length) : VIALSHOAL_BAD_FILE;
    }
    uint32_t number = vialshoal_new(text, it->text, it->site);
    return number != 0 ? number : unpack(text, history, length);
}

/* Has the text be what the file has. */
static uint32_t take(journal *it, vialshoal_text *text, const uint8_t *file, size_t length) {
    uint8_t head[BEGIN];
    size_t history = number_at(file + 8, 4), chunks;
    it->text = (uint16_t)number_at(file + 4, 2);
    it->site = (uint16_t)number_at(file + 6, 2);
    if (history > length - BEGIN) return VIALSHOAL_BAD_FILE;
    put_head(it, head, file + BEGIN, history);
    if (memcmp(head, file, BEGIN) != 0) return VIALSHOAL_BAD_FILE;
    has(it, history);
    uint32_t number = load(it, text, file + BEGIN, history);
    while (number == 0 && (chunks = entry_length(it, file + it->end, length - it->end)) > 0) {
        number = unpack(text, file + it->end + ENTRY, chunks);
        it->end += ENTRY + chunks;
    }
    uint32_t waiting = 0;
    if (number == 0 && has_more(it, file + it->end, length - it->end)) number = VIALSHOAL_BAD_FILE;
    if (number == 0) number = vialshoal_waiting(text, &waiting);
    if (number == VIALSHOAL_OUT_OF_MEMORY) return number;
    return number != 0 || waiting > 0 ? VIALSHOAL_BAD_FILE : 0;
}

/* Begins a file that has nothing yet. */
static uint32_t begin(journal *it, vialshoal_text *text, uint16_t text_number, uint16_t site) {
    it->text = text_number == 0 ? 1 : text_number;
    it->site = site;
    uint32_t number = vialshoal_new(text, it->text, site);
    if (number != 0) return number;
    has(it, 0);
    put_head(it, it->room, NULL, 0);
    return write_at(it, 0, it->room, BEGIN);
}

static uint32_t read_all(journal *it, size_t *length) {
    struct stat file;
    if (fstat(it->fd, &file) != 0) return VIALSHOAL_READ_FAULT;
    uint32_t number = grow(it, (size_t)file.st_size);
    if (number != 0) return number;
    for (*length = 0; *length < (size_t)file.st_size;) {
        ssize_t more = pread(it->fd, it->room + *length, (size_t)file.st_size - *length, (off_t)*length);
        if (more == 0) break;
        if (more < 0 && errno != EINTR) return VIALSHOAL_READ_FAULT;
        *length += more < 0 ? 0 : (size_t)more;
    }
    return 0;
}

static uint32_t open_text(journal *it, vialshoal_text *text, uint16_t text_number, uint16_t site) {
    size_t length = 0;
    uint32_t number = grow(it, ROOM);
    if (number == 0) number = read_all(it, &length);
    if (number != 0) return number;
    bool has_tag = memcmp(it->room, "OTJ1", length < 4 ? length : 4) == 0;
    if (length < BEGIN && has_tag) return begin(it, text, text_number, site);
    number = length < BEGIN || !has_tag ? VIALSHOAL_BAD_FILE : take(it, text, it->room, length);
    if (number != 0) return number;
    bool is_meant = (text_number == 0 || text_number == it->text) && (site == 0 || site == it->site);
    return is_meant ? fronts_of(text, &it->kept) : VIALSHOAL_NO_NUMBER;
}

static void end(journal *it) {
    /* (a process that was forked off has the same lock, and would hold it on) */
    if (it->fd >= 0 && getpid() == it->process) flock(it->fd, LOCK_UN);
    if (it->fd >= 0) close(it->fd);
    vialshoal_heap_free(it->kept.at);
    vialshoal_heap_free(it->room);
    vialshoal_heap_free(it);
}

uint32_t vialshoal_open(vialshoal_file *file, vialshoal_text *text, const char *path, uint16_t text_number, uint16_t site_number) {
    if (file->at != NULL || text->at != NULL) return VIALSHOAL_ALREADY_OPEN;
    journal *it = vialshoal_heap_malloc(sizeof *it);
    if (it == NULL) return VIALSHOAL_OUT_OF_MEMORY;
    *it = (journal){.fd = -1, .process = getpid()};
    uint32_t number = is_locked(it, path, site_number != 0) ? open_text(it, text, text_number, site_number) : VIALSHOAL_READ_FAULT;
    if (number == 0) {
        file->at = it;
        return 0;
    }
    int why = errno;
    vialshoal_free(text);
    end(it);
    errno = why;
    return number;
}

uint32_t vialshoal_close(vialshoal_file *file) {
    if (file->at == NULL) return VIALSHOAL_NOT_OPEN;
    end(file->at);
    file->at = NULL;
    return 0;
}

/* -- keeping -- */

/* Whether edits here made all of the site's operations that the file hasn't: the text keeps their messages. */
static bool are_made_here(journal *it, const vialshoal_text *text, uint32_t kept, uint32_t front) {
    uint64_t count, need;
    if (front == kept) return true;
    if (vialshoal_messages(text, &count) != 0 || count < front - kept) return false;
    return vialshoal_message(text, count - (front - kept), it->room, it->length, &need) == 0 && number_at(it->room + 8, 4) == kept + 1;
}

static uint32_t add(journal *it, const vialshoal_text *text, const fronts *now) {
    uint64_t length;
    if (!are_made_here(it, text, front_in(&it->kept, it->site), front_in(now, it->site))) return VIALSHOAL_BEHIND;
    uint32_t number = fill(it, text, &it->kept, ENTRY, &length);
    if (number != 0) return number;
    put_number(it->room, 4, (uint32_t)length);
    put_number(it->room + 4, 4, entry_sum(it, it->room + ENTRY, length));
    number = write_at(it, it->end, it->room, ENTRY + length);
    if (number == 0) it->end += ENTRY + length;
    return number;
}

/* Puts a file that has these bytes in place of this one; -1 where it can't. */
static int put_in_place(const journal *it, size_t length) {
    struct stat old;
    int fd = fstat(it->fd, &old) == 0 ? open(it->beside, O_RDWR | O_CREAT | O_CLOEXEC, 0600) : -1;
    if (fd < 0) return -1;
    /* (locked before it has the name, so that nobody else comes in between) */
    bool is_done = flock(fd, LOCK_EX | LOCK_NB) == 0 && put(fd, 0, it->room, length) && fchmod(fd, old.st_mode & 07777) == 0;
    if (old.st_uid != geteuid() || old.st_gid != getegid()) is_done = is_done && fchown(fd, old.st_uid, old.st_gid) == 0;
    if (is_done && rename(it->beside, it->path) == 0) return fd;
    close(fd);
    unlink(it->beside);
    return -1;
}

/* Where the journal has grown a file of the history alone takes its place; where that can't be done now, this one goes on. */
static void shorten(journal *it, const vialshoal_text *text) {
    static const fronts none = {NULL, 0};
    uint64_t length;
    if (it->end - it->history_end <= it->most) return;
    uint32_t number = fill(it, text, NULL, BEGIN, &length);
    if (number == VIALSHOAL_BAD_FILE) number = fill(it, text, &none, BEGIN, &length);
    int fd = -1;
    if (number == 0) {
        put_head(it, it->room, it->room + BEGIN, length);
        fd = put_in_place(it, BEGIN + length);
    }
    if (fd < 0) {
        it->most = 2 * (it->end - it->history_end);
        return;
    }
    close(it->fd);
    it->fd = fd;
    it->is_named = false;
    has(it, length);
}

uint32_t vialshoal_keep(vialshoal_file *file, const vialshoal_text *text) {
    journal *it = file->at;
    fronts now;
    if (it == NULL || text->at == NULL) return VIALSHOAL_NOT_OPEN;
    uint32_t number = fronts_of(text, &now);
    bool is_kept = number == 0 && are_alike(&now, &it->kept);
    if (number == 0 && !is_kept) number = add(it, text, &now);
    if (is_kept || number != 0) {
        vialshoal_heap_free(now.at);
        return number;
    }
    vialshoal_heap_free(it->kept.at);
    it->kept = now;
    shorten(it, text);
    return 0;
}
