/* hechdoram.h: a store of keys and values in a folder. C11 and C++14.
 *
 *   hechdoram *store;                                       // to write, over a child process
 *   int got = hechdoram_open("folder", NULL, &store);
 *   if (got == HECHDORAM_OK) got = hechdoram_put(store, "key", 3, "value", 5);
 *   if (got == HECHDORAM_OK) got = hechdoram_close(&store); // durable from here on
 *   if (got != HECHDORAM_OK) fprintf(stderr, "%s\n", hechdoram_said(store));
 *   hechdoram_abandon(&store);
 *
 *   hechdoram_reader reader = HECHDORAM_CLOSED_READER;      // to read only, in this process
 *   if (hechdoram_reader_open("folder", &reader) == HECHDORAM_OK) ..
 *
 * Link with -lhechdoram (pkg-config hechdoram), and with -lhechdoram_read too if a call of a
 * reader is used (pkg-config hechdoram_read). clients/c/example.c is a program.
 *
 * Answers. A call answers HECHDORAM_OK, or HECHDORAM_NOT_FOUND if there is no such pair, or a
 *   number below 0, whose text hechdoram_error_text gives; hechdoram_said gives what the store
 *   said itself. If it is not HECHDORAM_OK, what the caller's memory then has says nothing.
 * Bytes. A key has 1 to HECHDORAM_MAX_KEY bytes, a value 0 to HECHDORAM_MAX_VALUE, any bytes, and
 *   no 0 ends one. Keys stand in the order of memcmp; of two that begin alike the shorter comes
 *   first. No pair has a key of another length: a look-up finds none, and a put is
 *   HECHDORAM_TOO_LONG. A length follows its pointer.
 * The store. The program `bwlog serve` has the folder for itself, as a child of this process.
 *   What was put is seen at once, and durable once hechdoram_keep or hechdoram_close has answered
 *   HECHDORAM_OK. Many at once are sent in one burst, and cost a few microseconds each in place
 *   of some thirty. A store that is null is one that was closed: HECHDORAM_ENDED.
 * Calls that are left. A call that is left before its answer was read, as by a longjmp out of a
 *   handler, ends the store: an answer could be taken for that of another request. From then on
 *   each call of that thread is HECHDORAM_ENDED, and nothing is asked, up to hechdoram_abandon.
 * Threads. Threads that share a store take a lock of their own round each call. A call beside
 *   that of another thread is HECHDORAM_BUSY, and nothing was asked. Any number of threads may
 *   ask one reader.
 * Memory. No pointer is kept that the caller gave; what is answered is copied into the caller's
 *   memory. Memory is taken by malloc.
 * Forks and signals. No call in the child of a fork, nor in a handler. No signal is raised, and
 *   no handler is set.
 */
#ifndef HECHDORAM_H
#define HECHDORAM_H

#include <hechdoram_read.h>

#ifdef __cplusplus
extern "C" {
#endif

enum { HECHDORAM_MAX_KEY = BW_MAX_KEY, HECHDORAM_MAX_VALUE = BW_MAX_VALUE };

/* The most bytes of a table's name, of a key of a table, and of a value of one. */
enum {
    HECHDORAM_MAX_NAME = 127,
    HECHDORAM_MAX_TABLE_KEY = 124,
    HECHDORAM_MAX_TABLE_VALUE = 16777216
};

enum hechdoram_answer {
    HECHDORAM_OK = BW_OK,
    HECHDORAM_NOT_FOUND = BW_NOT_FOUND, /* no error */
    HECHDORAM_NO_MEMORY = BW_NO_MEMORY,
    HECHDORAM_REFUSED = -2,             /* by the store, for a reason that has no number here */
    HECHDORAM_FULL = -3,                /* refused E5 NoSegment */
    HECHDORAM_FAILED = -4,              /* refused E6 Device, E7 Failed: hechdoram_reopen */
    HECHDORAM_ENDED = -5,               /* no further request is answered */
    HECHDORAM_TOO_LONG = BW_BAD_LENGTH, /* a key, a value, or a group */
    HECHDORAM_BUSY = -7,                /* a call of another thread goes on */
    HECHDORAM_NO_TABLE = -8,            /* refused E21 NoTable */
    HECHDORAM_TABLE_EXISTS = -9,        /* refused E22 Exists */
    HECHDORAM_NO_STORE = BW_NO_STORE,
    HECHDORAM_DAMAGED = BW_DAMAGED,
    HECHDORAM_SYSTEM = BW_IO,           /* errno says why */
    HECHDORAM_IN_USE = BW_IN_USE,
    HECHDORAM_BAD_PATH = BW_BAD_PATH,
    HECHDORAM_MISUSE = BW_MISUSE        /* a pointer is null, or what it points to is closed */
};

/* The text of an answer; never null. */
const char *hechdoram_error_text(int answer);

/* ---- The store */

typedef struct hechdoram hechdoram;

/* A pair: what looks and walks write. */
typedef bw_pair hechdoram_pair;

/* Options of `bwlog serve` (docs/USING.md, "Options"). What is 0 is the program's default. */
typedef struct hechdoram_options {
    const char *program; /* by its path, or as it is found along PATH; `bwlog` if null */
    unsigned capacity, segments, most_segments, m, frame, places;
} hechdoram_options;

/* A key with a value, or with none if it is deleted: its pointer is null then. */
typedef struct hechdoram_change {
    const void *key;
    size_t key_len;
    const void *value;
    size_t value_len;
} hechdoram_change;

/* A key that is looked up with others. */
typedef struct hechdoram_key {
    const void *bytes;
    size_t len;
} hechdoram_key;

/* What was found at a key. */
typedef struct hechdoram_value {
    int is_found;
    size_t len;
    uint8_t bytes[BW_MAX_VALUE];
} hechdoram_value;

/* Opens the store of a folder, which is made if it is missing. The options may be null. Unless
 * memory was refused or a pointer is null, a store is written also if it is not HECHDORAM_OK, as
 * HECHDORAM_IN_USE, HECHDORAM_DAMAGED or HECHDORAM_SYSTEM: it has said why, and wants
 * hechdoram_abandon. */
int hechdoram_open(const char *folder, const hechdoram_options *options, hechdoram **store);

/* What was said last: a refusal's words, those of a program that ended, or an answer's text. */
const char *hechdoram_said(const hechdoram *store);

/* Keeps what was put, ends the child, gives the memory back, and writes null. If keeping is refused
 * the store stays open. Of null it does nothing: so a second close is none. */
int hechdoram_close(hechdoram **store);

/* Ends the child, gives the memory back, and writes null, without keeping anything more. It is never
 * refused. */
void hechdoram_abandon(hechdoram **store);

int hechdoram_put(hechdoram *store, const void *key, size_t key_len, const void *value,
                  size_t value_len);

/* Deletes a key, if it is there. */
int hechdoram_delete(hechdoram *store, const void *key, size_t key_len);

/* Makes one to four changes in one step: whatever happens, all are there or none. More are
 * HECHDORAM_TOO_LONG; so are four of together more than a line holds, 4,096 bytes, in which a byte
 * that is not printable takes two. */
int hechdoram_group(hechdoram *store, const hechdoram_change *changes, size_t count);

/* Makes many changes in groups, in their order, each with as many as one step takes. Whatever stops
 * them, a beginning is there. The first refusal ends the batch there. */
int hechdoram_batch(hechdoram *store, const hechdoram_change *changes, size_t count);

/* Makes many changes in one burst. It is no step: puts that follow one another stand in lines of up
 * to 64, and if one is refused those after it in its line are not made, and all others are. The
 * first refusal is what is answered. A length that no pair may have is refused before anything is
 * sent. */
int hechdoram_change_many(hechdoram *store, const hechdoram_change *changes, size_t count);

/* Writes as many of the value's bytes as there is room for, and to `value_len` how many it has.
 * Either may be null: the value if there is no room, the length if it is not asked. */
int hechdoram_get(hechdoram *store, const void *key, size_t key_len, void *value, size_t room,
                  size_t *value_len);

/* Looks many keys up in one burst, and writes as many values. */
int hechdoram_get_many(hechdoram *store, const hechdoram_key *keys, size_t count,
                       hechdoram_value *values);

/* The pair with the least key at or above these bytes; with the greatest at or below them; with the
 * greatest below them. There may be no bytes, or more than a key has. */
int hechdoram_at_or_above(hechdoram *store, const void *key, size_t key_len, hechdoram_pair *pair);
int hechdoram_at_or_below(hechdoram *store, const void *key, size_t key_len, hechdoram_pair *pair);
int hechdoram_below(hechdoram *store, const void *key, size_t key_len, hechdoram_pair *pair);

int hechdoram_count(hechdoram *store, uint64_t *count);

/* Makes durable what was put: the number of the last frame, or 0 if nothing was new. `frame` may be
 * null. */
int hechdoram_keep(hechdoram *store, uint64_t *frame);

/* Opens the folder once more, in the same child. It is for a store that HECHDORAM_FAILED, and
 * goes on from all that is durable: the last frame, and how many changes that had been taken are
 * gone. What can still be kept is, before. Either may be null. */
int hechdoram_reopen(hechdoram *store, uint64_t *frame, uint64_t *lost);

/* The store's numbers: docs/USING.md, "Requests". `durable` is the last frame; `failed` is 1
 * after a write that failed. */
typedef struct hechdoram_numbers {
    uint64_t history, durable, segments, spares, pages;
    int failed;
} hechdoram_numbers;

int hechdoram_stats(hechdoram *store, hechdoram_numbers *numbers);

/* Gives up the oldest segment, whose room is free again: how many bytes that won. It may be
 * null. */
int hechdoram_clean(hechdoram *store, uint64_t *won);

/* Adds a segment: its number. It may be null. */
int hechdoram_add(hechdoram *store, uint64_t *segment);

/* What a backup holds. */
typedef struct hechdoram_copied { uint64_t frame, pages, pairs; } hechdoram_copied;

/* Keeps what was put, and copies the store into a new folder. `copied` may be null. */
int hechdoram_backup(hechdoram *store, const char *to, hechdoram_copied *copied);

/* ---- Walks */

/* Which pairs a walk has: those whose key begins with a prefix, is not below a start, and is
 * below a stop, the greatest first if `is_back`. If a pointer is null there is no such bound. */
typedef struct hechdoram_range {
    const void *prefix;
    size_t prefix_len;
    const void *start;
    size_t start_len;
    const void *stop;
    size_t stop_len;
    int is_back;
} hechdoram_range;

typedef struct hechdoram_scan hechdoram_scan;

/* Begins a walk, which asks for many pairs at a time, and for one if it goes back. The range may be
 * null, which is all pairs. It wants hechdoram_scan_end before the store is closed. */
int hechdoram_scan_begin(hechdoram *store, const hechdoram_range *range, hechdoram_scan **scan);

/* The next pair of a walk; HECHDORAM_NOT_FOUND at its end. If it is refused the walk stands
 * where it stood. */
int hechdoram_scan_next(hechdoram_scan *scan, hechdoram_pair *pair);

/* Ends a walk, and writes null. Of null it does nothing. */
void hechdoram_scan_end(hechdoram_scan **scan);

/* ---- Tables
 *
 * A folder of tables has maps by their names, and no other pairs. A name has 1 to
 * HECHDORAM_MAX_NAME bytes, a key 1 to HECHDORAM_MAX_TABLE_KEY, a value 0 to
 * HECHDORAM_MAX_TABLE_VALUE. Each call is one step: whatever stops it, all of it is there or
 * nothing. Of the calls above those that look at the store itself, keep it and end it are for both
 * kinds of stores; any other is refused by a store of the other kind. A call on a table that is not
 * there is HECHDORAM_NO_TABLE. */

/* Opens the tables of a folder, as hechdoram_open else. A folder whose pairs are no tables is
 * HECHDORAM_ENDED, by the program's words. */
int hechdoram_open_tables(const char *folder, const hechdoram_options *options, hechdoram **store);

/* Makes a table with no key; HECHDORAM_TABLE_EXISTS if there is one of this name. */
int hechdoram_create_table(hechdoram *store, const void *name, size_t name_len);

/* Drops a table with all its keys. */
int hechdoram_drop_table(hechdoram *store, const void *name, size_t name_len);

/* The name of a table. */
typedef struct hechdoram_name {
    uint8_t bytes[HECHDORAM_MAX_NAME];
    size_t len;
} hechdoram_name;

/* The names of tables in order, those above another one if that is not null: as many as there is
 * room for, 1,024 at most, and to `count` how many these are. */
int hechdoram_tables(hechdoram *store, const void *above, size_t above_len, hechdoram_name *names,
                     size_t room, size_t *count);

int hechdoram_table_put(hechdoram *store, const void *name, size_t name_len, const void *key,
                        size_t key_len, const void *value, size_t value_len);

/* Deletes a key, if it is there. */
int hechdoram_table_delete(hechdoram *store, const void *name, size_t name_len, const void *key,
                           size_t key_len);

/* As hechdoram_get: as many of the value's bytes as there is room for, and how many it has. */
int hechdoram_table_get(hechdoram *store, const void *name, size_t name_len, const void *key,
                        size_t key_len, void *value, size_t room, size_t *value_len);

/* How many keys a table has. All its rows are looked at, and none of its long values. */
int hechdoram_table_count(hechdoram *store, const void *name, size_t name_len, uint64_t *count);

/* A change of a table. The key is deleted if the value is null. */
typedef struct hechdoram_table_change {
    const void *name;
    size_t name_len;
    const void *key;
    size_t key_len;
    const void *value;
    size_t value_len;
} hechdoram_table_change;

/* Makes up to 65,536 changes, in any tables, in one step. A later change of a key takes the place
 * of an earlier one. More are HECHDORAM_TOO_LONG, and so are keys and values of more than 64 MiB
 * together. */
int hechdoram_table_batch(hechdoram *store, const hechdoram_table_change *changes, size_t count);

/* A pair of a table, in the memory of a walk, up to its next call. */
typedef struct hechdoram_row {
    const uint8_t *key;
    size_t key_len;
    const uint8_t *value;
    size_t value_len;
} hechdoram_row;

typedef struct hechdoram_table_scan hechdoram_table_scan;

/* Begins a walk over a table, in the order of keys: of the range `is_back` has to be 0. It asks for
 * up to 512 pairs at a time, or as many as have 1 MiB. It wants hechdoram_table_scan_end before the
 * store is closed. */
int hechdoram_table_scan_begin(hechdoram *store, const void *name, size_t name_len,
                               const hechdoram_range *range, hechdoram_table_scan **scan);

/* The next pair of a walk; HECHDORAM_NOT_FOUND at its end. If it is refused the walk stands where it
 * stood. */
int hechdoram_table_scan_next(hechdoram_table_scan *scan, hechdoram_row *row);

/* Ends a walk, and writes null. Of null it does nothing. */
void hechdoram_table_scan_end(hechdoram_table_scan **scan);

/* ---- The reader: of the names above, those that a reader can have */

typedef struct hechdoram_reader { bw_reader of; } hechdoram_reader;
#define HECHDORAM_CLOSED_READER { BW_CLOSED_READER }

/* What walks and look-ups ask for the pair next to a key of 1 to HECHDORAM_MAX_KEY bytes: `kind`
 * is '>' for at or above it, '<' for below it; below no bytes is the last of all. */
typedef int hechdoram_nearest(const void *of, int kind, const void *key, size_t key_len,
                              hechdoram_pair *pair);

/* Looks and walks by such a call, over whatever it finds pairs in. The calls of a reader use them.
 * `kind` may be '=' too, for at or below the key. */
int hechdoram_find(hechdoram_nearest *nearest, const void *of, int kind, const void *key,
                   size_t key_len, hechdoram_pair *pair);
int hechdoram_scan_over(hechdoram_nearest *nearest, const void *of, const hechdoram_range *range,
                        hechdoram_scan **scan);

/* Reads the store in a folder, whole, and lets go of it: what is written later the reader does not
 * see. If it is open to be written, the pairs are those of one of its frames, as hechdoram_read.h
 * says. Nothing in it is changed. */
static inline int hechdoram_reader_open(const char *folder, hechdoram_reader *reader) {
    return reader ? bw_read_open(folder, &reader->of) : HECHDORAM_MISUSE;
}

/* Closes a reader that no other thread asks. One that is closed stays so. */
static inline void hechdoram_reader_close(hechdoram_reader *reader) {
    if (reader) bw_read_close(&reader->of);
}

/* Reads the folder once more. If that is refused, the reader stays as it was. No other thread may
 * ask it meanwhile. */
static inline int hechdoram_reader_refresh(const char *folder, hechdoram_reader *reader) {
    hechdoram_reader next = HECHDORAM_CLOSED_READER;
    if (!reader || !reader->of.at) return HECHDORAM_MISUSE;
    int got = bw_read_open(folder, &next.of);
    if (got != HECHDORAM_OK) return got;
    bw_read_close(&reader->of);
    *reader = next;
    return HECHDORAM_OK;
}

static inline int hechdoram_reader_get(const hechdoram_reader *reader, const void *key,
                                       size_t key_len, void *value, size_t room,
                                       size_t *value_len) {
    int got = reader ? bw_read_get(&reader->of, key, key_len, value, room, value_len)
                     : HECHDORAM_MISUSE;
    return got == BW_BAD_LENGTH ? HECHDORAM_NOT_FOUND : got;
}

static inline int hechdoram_reader_count(const hechdoram_reader *reader, uint64_t *count) {
    if (!reader || !reader->of.at || !count) return HECHDORAM_MISUSE;
    *count = bw_read_count(&reader->of);
    return HECHDORAM_OK;
}

static inline int hechdoram_reader_nearest(const void *of, int kind, const void *key,
                                           size_t key_len, hechdoram_pair *pair) {
    const bw_reader *reader = (const bw_reader *)of;
    return kind == '>' ? bw_read_at(reader, key, key_len, pair)
                       : bw_read_below(reader, key, key_len, pair);
}

/* As hechdoram_scan_begin. It wants hechdoram_scan_end before the reader is closed. */
static inline int hechdoram_reader_scan(const hechdoram_reader *reader,
                                        const hechdoram_range *range, hechdoram_scan **scan) {
    if (!reader || !reader->of.at) return HECHDORAM_MISUSE;
    return hechdoram_scan_over(hechdoram_reader_nearest, &reader->of, range, scan);
}

static inline int hechdoram_reader_find(const hechdoram_reader *reader, int kind, const void *key,
                                        size_t key_len, hechdoram_pair *pair) {
    if (!reader || !reader->of.at) return HECHDORAM_MISUSE;
    return hechdoram_find(hechdoram_reader_nearest, &reader->of, kind, key, key_len, pair);
}

/* As hechdoram_at_or_above and the two after it. */
static inline int hechdoram_reader_at_or_above(const hechdoram_reader *reader, const void *key,
                                               size_t key_len, hechdoram_pair *pair) {
    return hechdoram_reader_find(reader, '>', key, key_len, pair);
}

static inline int hechdoram_reader_at_or_below(const hechdoram_reader *reader, const void *key,
                                               size_t key_len, hechdoram_pair *pair) {
    return hechdoram_reader_find(reader, '=', key, key_len, pair);
}

static inline int hechdoram_reader_below(const hechdoram_reader *reader, const void *key,
                                         size_t key_len, hechdoram_pair *pair) {
    return hechdoram_reader_find(reader, '<', key, key_len, pair);
}

#ifdef __cplusplus
}
#endif
#endif
