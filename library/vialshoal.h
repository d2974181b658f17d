/* Vialshoal for C: texts that sites edit and merge, each behind a handle.
 *
 * A text is a list of bytes with looks. Each of its sites has a replica of it, which a handle holds. An edit changes that
 * replica and makes messages; another site's replica takes these messages in, in any order and any number of times, and
 * replicas that took in the same show the same bytes.
 *
 * Units. Positions and lengths count bytes (which are the text's characters), from 0; a range goes from `beg` up to `end`,
 * without it. A text and a site have numbers, 1 to 65535; all sites of a text have its number, and each one its own.
 *
 * Answers. Each call answers a number. 0: it was done. 1 to 23: the replica refused it (VIALSHOAL_MALFORMED and so on). From
 * 101 on: it was misused (VIALSHOAL_NOT_OPEN and so on). A call that was refused or misused changed nothing, but for an edit
 * or a chunk of which a part stands: see `sent` and `done`. vialshoal_strerror has words for each number.
 *
 * Memory. The library allocates what a handle holds, by the program's malloc, realloc and free (or by others, see
 * vialshoal_heap_malloc), and vialshoal_free, or vialshoal_past_free, frees it. All else is the caller's: what is written goes
 * into rooms that the caller passes. `need` is set to how many elements there are to be written; where the room is shorter,
 * nothing is written and the number is VIALSHOAL_TOO_SHORT, so a length of 0 asks how long a room has to be.
 *
 * What the caller owes, and nothing checks: a handle is {0} before it is used first, and isn't copied, since of two copies
 * the one wouldn't know that the other one was freed (hand on a pointer to it); every pointer points to as much memory as the
 * call reads or writes, and isn't null, but for one beside a length of 0; what is written lies apart from all else that the
 * same call is given, so the two handles of vialshoal_merge are two; no call beside one that changes its handle (see below);
 * malloc, realloc and free are of one allocator, which aligns as C says.
 *
 * Threads. Any thread may call with any handle. A call that takes a handle through a pointer to const reads it, and any number
 * of these may run beside each other. A call that takes it otherwise changes it, and has it alone: all others with that handle
 * come before or after, and each thread sees what was done before (a lock for readers and writers does both). An edit and the
 * calls that take its messages are one turn, or else vialshoal_hand_out takes the messages: vialshoal_let_go lets those of all
 * edits go. Calls of different handles may run beside each other. What vialshoal_past opens shares nothing with the text.
 */
#ifndef VIALSHOAL_H
#define VIALSHOAL_H

#include <stdbool.h>
#include <stddef.h>
#include <stdint.h>

#ifdef __cplusplus
extern "C" {
#endif

/* The version of this header. Its first number is that of the shared library's name (libvialshoal.so.0), and moves when
 * programs have to be compiled anew; the second moves when there is more than before. */
#define VIALSHOAL_VERSION_MAJOR 0
#define VIALSHOAL_VERSION_MINOR 1
#define VIALSHOAL_VERSION_PATCH 0
#define VIALSHOAL_VERSION (VIALSHOAL_VERSION_MAJOR * 1000000u + VIALSHOAL_VERSION_MINOR * 1000u + VIALSHOAL_VERSION_PATCH)

/* The version of the library, as VIALSHOAL_VERSION has that of the header. */
uint32_t vialshoal_version(void);

/* Whether the library has all that this header says. */
static inline bool vialshoal_fits(void) {
    uint32_t version = vialshoal_version();
    return version / 1000000u == VIALSHOAL_VERSION_MAJOR && version >= VIALSHOAL_VERSION;
}

/* What a number means, in a few words, which are the library's and stay. */
const char *vialshoal_strerror(uint32_t number);

/* By these the library has all its memory; they call the program's malloc, realloc and free. A program that defines all three
 * itself gives the library another heap, whether it is linked with the archive or with the shared library. They owe what C says
 * of malloc, realloc and free; they are called in the thread that calls the library, with no lock held. */
void *vialshoal_heap_malloc(size_t size);
void *vialshoal_heap_realloc(void *block, size_t size);
void vialshoal_heap_free(void *block);

/* A replica of a text, or none, which is {0}. The word is the library's alone. */
typedef struct vialshoal_text {
    void *at;
} vialshoal_text;

/* A text as it was, or none, which is {0}. The word is the library's alone. It is only read, and what is owed for a
 * handle of the other kind is owed for this one. */
typedef struct vialshoal_past_text {
    void *at;
} vialshoal_past_text;

/* A note, or none, which is {0}. The word is the library's alone. What is owed for a text's handle is owed for this one. */
typedef struct vialshoal_note {
    void *at;
} vialshoal_note;

/* The file of a text that is kept, or none, which is {0}. The word is the library's alone. */
typedef struct vialshoal_file {
    void *at;
} vialshoal_file;

/* Numbers of refusals, as docs/FORMATS.md, "Refusals", has them. Those from 14 to 20, which are about viewers and events, no
 * call here answers. */
enum {
    VIALSHOAL_MALFORMED = 1,        /* the bytes are no message or no chunk, or a chunk's are over 16,000 */
    VIALSHOAL_WRONG_TEXT = 2,       /* the message or the chunk is of another text */
    VIALSHOAL_CONFLICT = 3,         /* another operation has this identity */
    VIALSHOAL_BAD_OFFSET = 4,       /* an insertion begins elsewhere than its site's file ends, or a name lies beyond */
    VIALSHOAL_BAD_STAMP = 5,        /* the stamp isn't above each cause's */
    VIALSHOAL_ROOM_FULL = 6,        /* 64 messages wait already */
    VIALSHOAL_OUT_OF_MEMORY = 7,    /* memory was refused, or a text would have 2^32 pieces, or more operations */
    VIALSHOAL_BEHIND = 8,           /* what waits shows that the site was further once */
    VIALSHOAL_STAMPS_SPENT = 9,     /* the greatest stamp was taken in */
    VIALSHOAL_FILE_SPENT = 10,      /* the site's file, or a stretch, would pass 2^24 bytes */
    VIALSHOAL_OUT_OF_RANGE = 11,    /* a position lies outside its text; of misuse it is VIALSHOAL_OUT_OF_TEXT */
    VIALSHOAL_SCATTERED = 12,       /* a set of names needs more than 1,024 ranges */
    VIALSHOAL_BAD_FILE = 13,        /* the file is no site's; the text is too long, or has too many operations, for a file */
    VIALSHOAL_NO_ROOM = 14,         /* no viewer may open there, or no top may move there */
    VIALSHOAL_NO_VIEWER = 15,       /* no viewer has this number or this cell */
    VIALSHOAL_UNKNOWN_COMMAND = 16, /* no command's word is in the cell */
    VIALSHOAL_BAD_PARAMETER = 17,   /* the command can't take this parameter */
    VIALSHOAL_NO_SELECTION = 18,    /* nothing is selected that is shown */
    VIALSHOAL_NO_CARET = 19,        /* there is no caret */
    VIALSHOAL_BAD_EVENT = 20,       /* the line spells no event */
    VIALSHOAL_READ_FAULT = 21,      /* a file wasn't read; errno says why */
    VIALSHOAL_WRITE_FAULT = 22,     /* a file wasn't written; errno says why */
    VIALSHOAL_SEQ_SPENT = 23        /* the site has made its last operation in the text */
};

/* Numbers of misuse. */
enum {
    VIALSHOAL_NOT_OPEN = 101,     /* the handle is {0}: it wasn't opened, or was freed */
    VIALSHOAL_ALREADY_OPEN = 102, /* the handle holds a text already */
    VIALSHOAL_OUT_OF_TEXT = 103,  /* a position lies outside the text, or a range ends before its begin */
    VIALSHOAL_TOO_LONG = 104,     /* more than 2^24 bytes are to be put in */
    VIALSHOAL_NO_NUMBER = 105,    /* a number is that of no text, site, name, selection or colour; a font is none */
    VIALSHOAL_NO_NAME = 106,      /* the name is that of no character that was taken in */
    VIALSHOAL_TOO_SHORT = 107,    /* the room is too short, and nothing was changed; see `need` */
    VIALSHOAL_NO_MESSAGE = 108,   /* no message that is kept has this index, or none is left */
    VIALSHOAL_STILL_NOTED = 109   /* changes are noted, so vialshoal_changes tells them */
};

/* What the taking of a message did. */
enum {
    VIALSHOAL_TAKEN = 1,  /* its operation was taken in, and then those that waited for it */
    VIALSHOAL_REPEAT = 2, /* it is held already */
    VIALSHOAL_WAITS = 3   /* it waits for an operation that it builds on */
};

/* What a change did. */
enum {
    VIALSHOAL_INSERT = 1, /* bytes were put in: the range is theirs after the change */
    VIALSHOAL_DELETE = 2, /* the range was cut out: it is as before the change */
    VIALSHOAL_REPLACE = 3 /* the bytes of the range have other looks */
};

/* Which looks an edit gives. */
enum {
    VIALSHOAL_FONT = 1,
    VIALSHOAL_COLOUR = 2,
    VIALSHOAL_OFFSET = 4
};

typedef struct vialshoal_taking {
    uint32_t kind;    /* VIALSHOAL_TAKEN, _REPEAT or _WAITS; 0 where the message was refused */
    uint32_t drained; /* how many operations that waited were taken in after it */
    uint32_t dropped; /* how many operations that waited were thrown away */
    bool stopped;     /* whether that ended early, for want of memory */
} vialshoal_taking;

typedef struct vialshoal_settling {
    uint32_t drained;
    uint32_t dropped;
    bool stopped;
} vialshoal_settling;

/* What the unpacking of a chunk did. Where it was refused, all but `done` are 0. */
typedef struct vialshoal_unpacking {
    uint64_t taken;   /* how many operations were taken in, those that had waited among them */
    uint64_t known;   /* how many of the chunk's are held already, or wait already */
    uint64_t waiting; /* how many of the chunk's were put among those that wait */
    uint64_t done;    /* where one was refused, how many of the chunk's were handed in before it, which stand; else 0 */
    bool stopped;     /* whether taking in what waited ended early, for want of memory */
} vialshoal_unpacking;

/* The lasting name of a character: the site that put it in, and how many the site had put into the text before. */
typedef struct vialshoal_name {
    uint16_t site;
    uint32_t offset;
} vialshoal_name;

/* The names of neighbouring characters: a site, an offset, and how many from there on. */
typedef struct vialshoal_name_range {
    uint16_t site;
    uint32_t offset;
    uint32_t length;
} vialshoal_name_range;

/* How far a site's operations go: the number of the last that is meant, 0 for none. Fronts are some of these, in any
 * order; a site that they don't name has the front 0, of one that they name twice the first counts, and a number above
 * that of the last operation that was taken in means this one. */
typedef struct vialshoal_site_front {
    uint16_t site;
    uint32_t seq;
} vialshoal_site_front;

typedef struct vialshoal_place {
    uint64_t pos;  /* how many shown characters are this one or stand before it */
    bool is_shown; /* whether it is shown itself, at pos - 1 then */
} vialshoal_place;

typedef struct vialshoal_change {
    uint32_t kind; /* VIALSHOAL_INSERT, _DELETE or _REPLACE */
    uint64_t beg;
    uint64_t end;
} vialshoal_change;

/* All that was reported last gives way to all that is shown: one deletion and one insertion at most. */
typedef struct vialshoal_replacing {
    uint64_t deleted;  /* how many characters are deleted, from 0 on */
    uint64_t inserted; /* how many are inserted at 0 then */
} vialshoal_replacing;

typedef struct vialshoal_looks_run {
    uint64_t end;   /* one past the last character that looks so */
    uint8_t colour; /* 0 to 15 */
    int8_t offset;
} vialshoal_looks_run;

/* A hash or a key. */
typedef struct vialshoal_hash {
    uint8_t bytes[32];
} vialshoal_hash;

/* The head of an entry of messages, as docs/NOTES.md has it. */
typedef struct vialshoal_head {
    vialshoal_hash author; /* its author's key */
    vialshoal_hash before; /* the hash of the message before its first one, zeros before seq 1 */
    uint32_t first;        /* the seq of its first message */
    uint16_t count;        /* how many messages it has */
    uint16_t site;
    uint16_t text; /* 1 to 16 */
} vialshoal_head;

/* -- A text is made and freed -- */

/* Opens an empty handle with the text of this number, empty, at the site of this number.
 * VIALSHOAL_ALREADY_OPEN; VIALSHOAL_NO_NUMBER for 0; 7 where memory was refused. */
uint32_t vialshoal_new(vialshoal_text *text, uint16_t text_number, uint16_t site_number);

/* Frees what the handle holds; it is {0} then. VIALSHOAL_NOT_OPEN. */
uint32_t vialshoal_free(vialshoal_text *text);

/* -- A text is kept as its site's file, and opened again. A site is to be opened from the file that it kept last, with no
 * edit made since: its next one would have a number that is used. -- */

/* Puts the site's file of the text into the room; docs/FORMATS.md has its format. 13 for more than 2^32 - 1 operations, 7
 * where memory was refused. VIALSHOAL_TOO_SHORT: *need is then how long the file is. What waits, what was deleted last and
 * the messages that are kept aren't in it. */
uint32_t vialshoal_store(const vialshoal_text *text, uint8_t *room, size_t length, uint64_t *need);

/* The same in a packed file, which has a byte for most keystrokes where the other has some 50; 13 for more than 2^22
 * operations. */
uint32_t vialshoal_store_packed(const vialshoal_text *text, uint8_t *room, size_t length, uint64_t *need);

/* Opens an empty handle with the text and the site of a file of either form. 13 where it is none; 7;
 * VIALSHOAL_ALREADY_OPEN. */
uint32_t vialshoal_load(vialshoal_text *text, const uint8_t *file, size_t length);

/* -- A text is kept in a file, for its site to go on wherever the program or the machine ends. Python and Node open the same files. --
 *
 * After each edit, and before its messages are handed out or let go, vialshoal_keep is called; and after what others made was taken in,
 * before anything that builds on it goes out. Where it can't keep, nothing is lost: it is called again later. */

/* Opens an empty handle with the file at this path, and an empty one with its text, for its site to go on. Where a site is said, a file
 * that isn't there, or has nothing, is begun for it and for this text, or for text 1 where that is 0; else they are those of the file.
 * What was begun to be kept last, and wasn't, is gone. VIALSHOAL_READ_FAULT, with EAGAIN where it is open already, here or elsewhere;
 * VIALSHOAL_WRITE_FAULT; 13 where it isn't such a file, or something else changed it; VIALSHOAL_NO_NUMBER where it is of another text or
 * site, or has nothing and none is said; VIALSHOAL_ALREADY_OPEN; 7. */
uint32_t vialshoal_open(vialshoal_file *file, vialshoal_text *text, const char *path, uint16_t text_number, uint16_t site_number);

/* Has the disk have all that the file's text holds; what waits isn't kept. VIALSHOAL_WRITE_FAULT: the file has what it had. 8 where the
 * site's operations came from elsewhere, since this is a copy, or an older state, of a file that went on, or where their messages were let
 * go: nothing is kept from then on. VIALSHOAL_NOT_OPEN; 7. */
uint32_t vialshoal_keep(vialshoal_file *file, const vialshoal_text *text);

/* Closes the file, and keeps nothing; the handle is {0} then. The text stays, until it is freed. A process that was forked off closes it
 * for itself alone. VIALSHOAL_NOT_OPEN. */
uint32_t vialshoal_close(vialshoal_file *file);

/* -- Edits. `*sent` is set to how many messages the edit made. They come after those that are kept (below). An edit that
 * is refused with *sent above 0 stands as far as these messages say, and the rest of it wasn't done; with *sent 0 nothing
 * was. Refused as the edits of docs/FORMATS.md; VIALSHOAL_NOT_OPEN, VIALSHOAL_OUT_OF_TEXT. -- */

/* Puts bytes in default looks after the first `pos` ones. VIALSHOAL_TOO_LONG. */
uint32_t vialshoal_insert(vialshoal_text *text, uint64_t pos, const uint8_t *bytes, size_t length, uint32_t *sent);

/* Puts bytes in these looks after the first `pos` ones: a font's name (1 to 31 letters, digits and full stops, the first a
 * letter), a colour (0 to 15), an offset. VIALSHOAL_NO_NUMBER where the font or the colour is none; else
 * VIALSHOAL_TOO_LONG, VIALSHOAL_OUT_OF_TEXT; 7, which may come wherever `length` isn't 0. */
uint32_t vialshoal_insert_in_looks(vialshoal_text *text, uint64_t pos, const uint8_t *bytes, size_t length,
                                   const uint8_t *font, size_t font_length, uint8_t colour, int8_t offset, uint32_t *sent);

/* Deletes the range. */
uint32_t vialshoal_delete(vialshoal_text *text, uint64_t beg, uint64_t end, uint32_t *sent);

/* Gives the range the looks of these that `selected` names, a sum of VIALSHOAL_FONT, _COLOUR and _OFFSET: a font's name
 * (1 to 31 letters, digits and full stops, the first a letter), a colour (0 to 15), an offset. What isn't selected isn't
 * read. VIALSHOAL_NO_NUMBER. */
uint32_t vialshoal_change_looks(vialshoal_text *text, uint64_t beg, uint64_t end, uint8_t selected, const uint8_t *font,
                                size_t font_length, uint8_t colour, int8_t offset, uint32_t *sent);

/* Shows again, each at its own place, what vialshoal_delete took out last. */
uint32_t vialshoal_restore(vialshoal_text *text, uint32_t *sent);

/* Puts a copy of what vialshoal_delete took out last after the first `pos` bytes. */
uint32_t vialshoal_recall(vialshoal_text *text, uint64_t pos, uint32_t *sent);

/* Deletes the characters of these names that are shown, wherever they stand, by one operation and so one message; none
 * where nothing of them is shown. Names may come in any order and more than once. What vialshoal_restore and
 * vialshoal_recall give stays as it was. VIALSHOAL_NO_NUMBER where a range is that of no names: a site of 0, a length of
 * 0, or an end past 2^24; else VIALSHOAL_NO_NAME where a name is that of no character that was taken in. 12 for more
 * than 1,024 ranges of names that change, however they were told; 7, which may come wherever `count` isn't 0. */
uint32_t vialshoal_delete_names(vialshoal_text *text, const vialshoal_name_range *names, size_t count, uint32_t *sent);

/* Shows the characters of these names again that aren't shown, each at its own place; else as vialshoal_delete_names. */
uint32_t vialshoal_restore_names(vialshoal_text *text, const vialshoal_name_range *names, size_t count, uint32_t *sent);

/* -- Messages that edits made. They are kept, in order, until they are let go. -- */

/* How many are kept. */
uint32_t vialshoal_messages(const vialshoal_text *text, uint64_t *count);

/* The bytes of the message at this index, from 0. VIALSHOAL_NO_MESSAGE, VIALSHOAL_TOO_SHORT; no message has more than
 * 10,297 bytes. */
uint32_t vialshoal_message(const vialshoal_text *text, uint64_t index, uint8_t *room, size_t length, uint64_t *need);

/* Lets all of them go. */
uint32_t vialshoal_let_go(vialshoal_text *text);

/* Puts all of them into the room, each after its length in two bytes, the low one first, and lets them go: so each is handed out
 * once, whichever threads edit. Where none is kept *need is 0. VIALSHOAL_TOO_SHORT: all are kept then. */
uint32_t vialshoal_hand_out(vialshoal_text *text, uint8_t *room, size_t length, uint64_t *need);

/* -- What other replicas made -- */

/* Takes a message in, or lets it wait for what it builds on. Refused as the messages of docs/ORDER.md. */
uint32_t vialshoal_take(vialshoal_text *text, const uint8_t *message, size_t length, vialshoal_taking *taking);

/* Takes the operations of a chunk (see vialshoal_pack) in, one after the other, or lets them wait for what they build on. 1
 * where the bytes are no chunk, 2 where it is another text's, 7; and refused as the messages of docs/ORDER.md at the first
 * operation that is, before which unpacking->done of them were handed in. */
uint32_t vialshoal_unpack(vialshoal_text *text, const uint8_t *chunk, size_t length, vialshoal_unpacking *unpacking);

/* Takes in what waits, as far as it is ready; after a merge, or where memory was refused, such may be there. */
uint32_t vialshoal_settle(vialshoal_text *text, vialshoal_settling *settling);

/* Throws away all that waits; it may come again. */
uint32_t vialshoal_forget(vialshoal_text *text, uint32_t *count);

/* Takes in all that another handle's replica of the same text holds, which stays as it is. `*taken` is set to how many
 * operations were new. 2 for another text, 3 where two sites used one number; 7 where memory was refused after *taken of
 * them, which stand. */
uint32_t vialshoal_merge(vialshoal_text *text, const vialshoal_text *other, uint64_t *taken);

/* How many messages wait. */
uint32_t vialshoal_waiting(const vialshoal_text *text, uint32_t *count);

/* The sites of which operations were taken in, rising; with their fronts they say what a replica has. 7;
 * VIALSHOAL_TOO_SHORT. */
uint32_t vialshoal_sites(const vialshoal_text *text, uint16_t *room, size_t length, uint64_t *need);

/* The front of a site: how many of its operations were taken in. VIALSHOAL_NO_NUMBER for 0. */
uint32_t vialshoal_front(const vialshoal_text *text, uint16_t site, uint32_t *front);

/* A message of what was taken in past these fronts, in the order of taking: what brings a replica that has the operations
 * up to them to what this one has, if it takes all. One a call: `*index` is 0 at first, and each call that is done moves
 * it on to where the next one looks. What is taken in between two calls comes after the rest. VIALSHOAL_NO_MESSAGE where
 * none is left, VIALSHOAL_TOO_SHORT, and *index stays; no message has more than 10,297 bytes. VIALSHOAL_NO_NUMBER for a
 * site of 0; 7. */
uint32_t vialshoal_since(const vialshoal_text *text, const vialshoal_site_front *fronts, size_t count, uint64_t *index,
                         uint8_t *room, size_t length, uint64_t *need);

/* Puts what was taken in past these fronts into the room, in the order of taking, in chunks: what brings a replica to what
 * this one has as the messages of vialshoal_since do, in a byte for most keystrokes where these have some 50. Each chunk,
 * of 16,000 bytes at most, stands after its length in two bytes, the low one first. Where nothing is past the fronts *need
 * is 0. VIALSHOAL_TOO_SHORT; VIALSHOAL_NO_NUMBER for a site of 0; 7. */
uint32_t vialshoal_pack(const vialshoal_text *text, const vialshoal_site_front *fronts, size_t count, uint8_t *room,
                        size_t length, uint64_t *need);

/* -- What is shown -- */

/* How many bytes are shown. */
uint32_t vialshoal_length(const vialshoal_text *text, uint64_t *length);

/* The bytes of the range. VIALSHOAL_OUT_OF_TEXT, VIALSHOAL_TOO_SHORT. */
uint32_t vialshoal_bytes(const vialshoal_text *text, uint64_t beg, uint64_t end, uint8_t *room, size_t length, uint64_t *need);

/* What the character at `pos` looks like, and where others begin: *run is written, and the font's name put into `font`,
 * which 31 bytes are enough for. VIALSHOAL_OUT_OF_TEXT; VIALSHOAL_TOO_SHORT, with *run written. */
uint32_t vialshoal_looks(const vialshoal_text *text, uint64_t pos, vialshoal_looks_run *run, uint8_t *font, size_t length,
                         uint64_t *need);

/* The names of the characters of the range. VIALSHOAL_OUT_OF_TEXT, VIALSHOAL_TOO_SHORT. */
uint32_t vialshoal_names(const vialshoal_text *text, uint64_t beg, uint64_t end, vialshoal_name *room, size_t length,
                         uint64_t *need);

/* Where the character of this name is. VIALSHOAL_NO_NAME where it wasn't taken in; VIALSHOAL_NO_NUMBER where the numbers
 * are those of no name. */
uint32_t vialshoal_find(const vialshoal_text *text, uint16_t site, uint32_t offset, vialshoal_place *place);

/* What changed of what is shown since the changes were last asked for: own edits, messages and merges, one after the
 * other. They are handed out once. Where the room is too short they stay, and are what the next call hands out, before
 * any that come later: so call until `need` is 0. VIALSHOAL_TOO_SHORT. */
uint32_t vialshoal_changes(vialshoal_text *text, vialshoal_change *room, size_t length, uint64_t *need);

/* Ends the noting of changes, for good: those that weren't handed out are let go with their memory, and vialshoal_changes has
 * none from now on. Until then a change that nobody asks for takes 24 bytes, and few bytes from another site can make many:
 * to restore all that was deleted is a change for each stretch. `shown` is how many characters the caller shows, 0 where it
 * shows none yet; vialshoal_replacement goes on from there. */
uint32_t vialshoal_end_noting(vialshoal_text *text, uint64_t shown);

/* Where noting has ended, how many characters were reported last and how many are shown: the former are to give way to the
 * latter, which are then reported. It says so even where nothing changed. VIALSHOAL_STILL_NOTED. */
uint32_t vialshoal_replacement(vialshoal_text *text, vialshoal_replacing *replacing);

/* Puts the text as an Oberon text file into the room: its characters with their looks, and nothing of who wrote them
 * (docs/FORMATS.md, "Text files"). 13 for more than 2^20 characters; 7; VIALSHOAL_TOO_SHORT. */
uint32_t vialshoal_save(const vialshoal_text *text, uint8_t *room, size_t length, uint64_t *need);

/* -- A text as it was. It is a copy of its own: it stays as it is when the text changes or is freed. -- */

/* Opens an empty past handle with the text as it was, up to these fronts: what of the operations within them can be taken
 * in, which leaves out one that builds on an operation past them. It takes as long as taking these operations in.
 * VIALSHOAL_NOT_OPEN of the text, VIALSHOAL_ALREADY_OPEN of the past; VIALSHOAL_NO_NUMBER for a site of 0; 7. */
uint32_t vialshoal_past(const vialshoal_text *text, const vialshoal_site_front *fronts, size_t count, vialshoal_past_text *past);

/* Frees what the handle holds; it is {0} then. VIALSHOAL_NOT_OPEN. */
uint32_t vialshoal_past_free(vialshoal_past_text *past);

/* These ask the text as it was what vialshoal_length, _bytes, _looks, _names and _find ask a text, and answer as they do. */
uint32_t vialshoal_past_length(const vialshoal_past_text *past, uint64_t *length);
uint32_t vialshoal_past_bytes(const vialshoal_past_text *past, uint64_t beg, uint64_t end, uint8_t *room, size_t length,
                              uint64_t *need);
uint32_t vialshoal_past_looks(const vialshoal_past_text *past, uint64_t pos, vialshoal_looks_run *run, uint8_t *font,
                              size_t length, uint64_t *need);
uint32_t vialshoal_past_names(const vialshoal_past_text *past, uint64_t beg, uint64_t end, vialshoal_name *room, size_t length,
                              uint64_t *need);
uint32_t vialshoal_past_find(const vialshoal_past_text *past, uint16_t site, uint32_t offset, vialshoal_place *place);

/* -- A note that several people edit: 16 texts, and which messages of its entries count, as docs/NOTES.md says. What opens, seals, signs
 * and carries entries is the caller's. Two notes of one key, opening and base that were given the same entries, in any order and however
 * often, show the same. -- */

/* Opens an empty handle with a note as the site of this number has it, of no entries but its opening and its base. `key` is the key of its
 * hashes; `founder` the founder's key, `number` his number, 0 for none. The base is in chunks, each after its length in two bytes, the low
 * one first; `base_key` is the key of its hashes, `root` the hash of its last message, zeros where there is none. That it is in order, texts
 * and each one's sites rising, is for the caller to see (docs/NOTES.md). 1 where the bytes are none of such a base; VIALSHOAL_NO_NUMBER for
 * a site of 0; VIALSHOAL_ALREADY_OPEN; 7. */
uint32_t vialshoal_note_new(vialshoal_note *note, uint16_t site, const vialshoal_hash *key, const vialshoal_hash *founder, uint16_t number,
                            const vialshoal_hash *base_key, const vialshoal_hash *root, const uint8_t *base, size_t length);

/* Frees what the handle holds; it is {0} then. VIALSHOAL_NOT_OPEN. */
uint32_t vialshoal_note_free(vialshoal_note *note);

/* A claim of a number came; its rank is the hash that was searched for. It counts after the next vialshoal_note_update.
 * VIALSHOAL_NO_NUMBER for 0; 7, and then it didn't come. */
uint32_t vialshoal_note_claim(vialshoal_note *note, const vialshoal_hash *author, uint16_t site, const vialshoal_hash *rank);

/* An entry of messages came, with this head and this body; own ones too. They count after the next vialshoal_note_update. 1 where the body
 * isn't one of such an entry; VIALSHOAL_NO_NUMBER for a site or a text of 0; 7, where a part may have come: so give it again. */
uint32_t vialshoal_note_add(vialshoal_note *note, const vialshoal_head *head, const uint8_t *body, size_t length);

/* What counts of the entries that came is admitted, and the texts show it: call it once after many came. 7: what counts isn't all shown, so
 * call it again. */
uint32_t vialshoal_note_update(vialshoal_note *note);

/* -- Own edits, as those of a text, of which `text` is the number. They are shown at once. vialshoal_note_own has what they say; that is to
 * be added before the next vialshoal_note_update, which takes back what wasn't. VIALSHOAL_NO_NUMBER where the note has no such text. -- */

uint32_t vialshoal_note_insert(vialshoal_note *note, uint16_t text, uint64_t pos, const uint8_t *bytes, size_t length, uint32_t *sent);
uint32_t vialshoal_note_delete(vialshoal_note *note, uint16_t text, uint64_t beg, uint64_t end, uint32_t *sent);
uint32_t vialshoal_note_change_looks(vialshoal_note *note, uint16_t text, uint64_t beg, uint64_t end, uint8_t selected,
                                     const uint8_t *font, size_t font_length, uint8_t colour, int8_t offset, uint32_t *sent);
uint32_t vialshoal_note_delete_names(vialshoal_note *note, uint16_t text, const vialshoal_name_range *names, size_t count,
                                     uint32_t *sent);
uint32_t vialshoal_note_restore_names(vialshoal_note *note, uint16_t text, const vialshoal_name_range *names, size_t count,
                                      uint32_t *sent);

/* The head and the body of one of the entries by `author` that say the messages of own edits of the text which don't count yet; the index is
 * from 0, and mostly there is one. A body has 16,172 bytes at most. Get all, add all by vialshoal_note_add, and then update; seal, sign and
 * keep them as soon as you can. VIALSHOAL_NO_MESSAGE where there is none of this index, so at 0 where all counts; 8 where a message mentions
 * another's character that doesn't count; VIALSHOAL_TOO_SHORT; VIALSHOAL_NO_NUMBER; 7. */
uint32_t vialshoal_note_own(const vialshoal_note *note, uint16_t text, const vialshoal_hash *author, uint64_t index, vialshoal_head *head,
                            uint8_t *room, size_t length, uint64_t *need);

/* What changed of what a text shows, as vialshoal_changes has it, own edits too. *is_anew says that the text was begun anew since it was
 * asked last, as where a lesser hash takes messages out of the count: then all that was shown gives way to all that is. Changes that a room
 * was too short for are handed out before that is said, also where the text was begun anew meanwhile, and then their places aren't those of
 * the text as it is: so call until `need` is 0, and read the text by them only where no call said *is_anew. */
uint32_t vialshoal_note_changes(vialshoal_note *note, uint16_t text, bool *is_anew, vialshoal_change *room, size_t length, uint64_t *need);

/* These ask a text what vialshoal_length, _bytes, _looks, _names, _find, _front, _sites and _past ask, and answer as they do;
 * VIALSHOAL_NO_NUMBER where the note has no such text. */
uint32_t vialshoal_note_length(const vialshoal_note *note, uint16_t text, uint64_t *length);
uint32_t vialshoal_note_bytes(const vialshoal_note *note, uint16_t text, uint64_t beg, uint64_t end, uint8_t *room, size_t length,
                              uint64_t *need);
uint32_t vialshoal_note_looks(const vialshoal_note *note, uint16_t text, uint64_t pos, vialshoal_looks_run *run, uint8_t *font,
                              size_t length, uint64_t *need);
uint32_t vialshoal_note_names(const vialshoal_note *note, uint16_t text, uint64_t beg, uint64_t end, vialshoal_name *room, size_t length,
                              uint64_t *need);
uint32_t vialshoal_note_find(const vialshoal_note *note, uint16_t text, uint16_t site, uint32_t offset, vialshoal_place *place);
uint32_t vialshoal_note_front(const vialshoal_note *note, uint16_t text, uint16_t site, uint32_t *front);
uint32_t vialshoal_note_sites(const vialshoal_note *note, uint16_t text, uint16_t *room, size_t length, uint64_t *need);
uint32_t vialshoal_note_past(const vialshoal_note *note, uint16_t text, const vialshoal_site_front *fronts, size_t count,
                             vialshoal_past_text *past);

#ifdef __cplusplus
}
#endif

#endif
