/* hechdoram_read.h: the store in a folder, read in the process of its caller. C11 and C++14.
 *
 *   bw_reader reader = BW_CLOSED_READER;
 *   int got = bw_read_open("folder", &reader);
 *   if (got != BW_OK) { fprintf(stderr, "%s\n", bw_read_error(got)); return 1; }
 *   bw_pair pair;                                  // all pairs, in the order of their keys
 *   for (got = bw_read_first(&reader, &pair); got == BW_OK; got = bw_read_next(&reader, &pair))
 *       printf("%.*s=%.*s\n", (int)pair.key_len, (const char *)pair.key,
 *              (int)pair.value_len, (const char *)pair.value);
 *   bw_read_close(&reader);
 *
 * hechdoram.h has the same reader beside a store that can be written, with one face for both.
 * Link with -lhechdoram_read (pkg-config hechdoram_read).
 *
 * Answers. A call answers BW_OK, or BW_NOT_FOUND if there is no such pair, or a number below 0,
 *   whose text bw_read_error gives. Where it is not BW_OK, what the caller's memory then has says
 *   nothing.
 * Bytes. A key has 1 to BW_MAX_KEY bytes, a value 0 to BW_MAX_VALUE, any bytes, and no 0 ends one.
 *   Keys stand in the order of memcmp; of two that begin alike the shorter comes first. A length
 *   stands after its pointer.
 * Time. A folder is read whole when it is opened, and let go of: a reader has the pairs that were
 *   durable then, in memory, and sees nothing of what is written later. While it is read it is
 *   locked beside other readers. If it is open to be written, it is read without a lock, and no
 *   writer waits: the pairs are those of one frame, the last one that was durable when the opening
 *   began, or a later one, which need not be durable yet. If ten readings do not give that, it is
 *   refused, BW_IN_USE: nothing was ever durable there, it is damaged, or it is written faster than
 *   it is read. A first segment without a frame has no pairs. Nothing in it is changed.
 * Memory. No pointer is kept that the caller gave, and none goes out but the reader's own: what is
 *   answered is copied into the caller's memory. Memory is taken by malloc, and none after the
 *   opening; a want of it is BW_NO_MEMORY.
 * Threads. Any number of threads may ask one open reader at once; the opening comes before all of
 *   it, and the closing after it, by a lock, a join or a start. Several readers, of one folder
 *   too, do not concern one another.
 * Readers. A bw_reader is one word. An open one may be moved, but not used from two places. A
 *   closed one may be closed again, and every other call on it answers BW_MISUSE, as does a null
 *   pointer.
 * Forks and signals. No call in a signal handler, nor in the child of a fork of a process that has
 *   threads.
 */
#ifndef HECHDORAM_READ_H
#define HECHDORAM_READ_H

#include <errno.h>
#include <stddef.h>
#include <stdint.h>
#include <string.h>

#ifdef __cplusplus
extern "C" {
#endif

enum { BW_MAX_KEY = 128, BW_MAX_VALUE = 512 };

enum bw_answer {
    BW_OK = 0,
    BW_NOT_FOUND = 1,    /* no error */
    BW_NO_MEMORY = -1,
    BW_BAD_LENGTH = -6,
    BW_NO_STORE = -12,
    BW_DAMAGED = -13,
    BW_IO = -15,         /* errno says why */
    BW_IN_USE = -16,
    BW_BAD_PATH = -17,
    BW_MISUSE = -18
};

/* The text of an answer; never null. */
static inline const char *bw_read_error(int answer) {
    switch (answer) {
    case BW_OK: return "no error";
    case BW_NOT_FOUND: return "there is no such pair";
    case BW_NO_MEMORY: return "out of memory";
    case BW_BAD_LENGTH: return "a key has 1 to 128 bytes";
    case BW_NO_STORE: return "there is no store";
    case BW_DAMAGED: return "the store is damaged, or is none";
    case BW_IO: return "the system refused a call";
    case BW_IN_USE: return "the folder is open to be written";
    case BW_BAD_PATH: return "the path has a byte 0";
    case BW_MISUSE: return "the reader is closed or already open, or a pointer is null";
    default: return "an unknown answer";
    }
}

/* A folder that was read. */
typedef struct bw_reader { void *at; } bw_reader;
#define BW_CLOSED_READER { NULL }

typedef struct bw_pair {
    size_t key_len, value_len;
    uint8_t key[BW_MAX_KEY], value[BW_MAX_VALUE];
} bw_pair;

/* The library's own calls, for other languages and for the calls below. No pointer may be null, not
 * even if its length is 0; memory that is written overlaps no other; bw_raw_open writes the word
 * of a reader that is not open, and the others are given one that is. clients/c/hechdoram_read.c
 * has them. */
int32_t bw_raw_open(const uint8_t *path, size_t path_len, void **at, int32_t *reason);
int32_t bw_raw_get(const bw_reader *reader, const uint8_t *key, size_t key_len, uint8_t *value,
                   size_t value_room, size_t *value_len);
int32_t bw_raw_at_or_above(const bw_reader *reader, const uint8_t *key, size_t key_len,
                           uint8_t *key_out, size_t key_room, size_t *key_out_len,
                           uint8_t *value, size_t value_room, size_t *value_len);
/* The pair with the greatest key below this one; of no bytes, the last pair of all. */
int32_t bw_raw_below(const bw_reader *reader, const uint8_t *key, size_t key_len, uint8_t *key_out,
                     size_t key_room, size_t *key_out_len, uint8_t *value, size_t value_room,
                     size_t *value_len);
uint64_t bw_raw_count(const bw_reader *reader);
void bw_raw_close(bw_reader reader);

/* Reads the store in a folder. On BW_OK the reader is open; else it stays closed. */
static inline int bw_read_open(const char *folder, bw_reader *reader) {
    int32_t reason = 0;
    if (!folder || !reader || reader->at) return BW_MISUSE;
    int answer = (int)bw_raw_open((const uint8_t *)folder, strlen(folder), &reader->at, &reason);
    if (answer == BW_IO) errno = (int)reason;
    return answer;
}

/* Closes a reader, and gives its memory back. One that is closed stays so. */
static inline void bw_read_close(bw_reader *reader) {
    if (!reader || !reader->at) return;
    bw_raw_close(*reader);
    reader->at = NULL;
}

/* How many pairs there are. 0 of a closed reader. */
static inline uint64_t bw_read_count(const bw_reader *reader) {
    return reader && reader->at ? bw_raw_count(reader) : 0;
}

/* Writes as many of the value's bytes as there is room for, and to `value_len` how many it has.
 * Either may be null: the value if there is no room, the length if it is not asked. */
static inline int bw_read_get(const bw_reader *reader, const void *key, size_t key_len, void *value,
                              size_t room, size_t *value_len) {
    uint8_t none = 0;
    size_t len = 0;
    if (!reader || !reader->at || !key || (!value && room != 0)) return BW_MISUSE;
    int answer = (int)bw_raw_get(reader, (const uint8_t *)key, key_len,
                                 value ? (uint8_t *)value : &none, room, &len);
    if (answer == BW_OK && value_len) *value_len = len;
    return answer;
}

/* The pair with the least key at or above this one, which may lie in `pair`. */
static inline int bw_read_at(const bw_reader *reader, const void *key, size_t key_len,
                             bw_pair *pair) {
    uint8_t from[BW_MAX_KEY];
    if (!reader || !reader->at || !key || !pair) return BW_MISUSE;
    if (key_len == 0 || key_len > BW_MAX_KEY) return BW_BAD_LENGTH;
    memcpy(from, key, key_len);
    return (int)bw_raw_at_or_above(reader, from, key_len, pair->key, BW_MAX_KEY, &pair->key_len,
                                   pair->value, BW_MAX_VALUE, &pair->value_len);
}

/* The pair with the greatest key below this one, which may lie in `pair`; of no bytes, the last pair
 * of all. */
static inline int bw_read_below(const bw_reader *reader, const void *key, size_t key_len,
                                bw_pair *pair) {
    uint8_t from[BW_MAX_KEY] = {0};
    if (!reader || !reader->at || (!key && key_len != 0) || !pair) return BW_MISUSE;
    if (key_len > BW_MAX_KEY) return BW_BAD_LENGTH;
    if (key_len > 0) memcpy(from, key, key_len);
    return (int)bw_raw_below(reader, from, key_len, pair->key, BW_MAX_KEY, &pair->key_len,
                             pair->value, BW_MAX_VALUE, &pair->value_len);
}

/* The first pair of all. */
static inline int bw_read_first(const bw_reader *reader, bw_pair *pair) {
    return bw_read_at(reader, "", 1, pair);
}

/* The pair after the one in `pair`, which has to be one that a call wrote. */
static inline int bw_read_next(const bw_reader *reader, bw_pair *pair) {
    uint8_t from[BW_MAX_KEY];
    if (!reader || !reader->at || !pair) return BW_MISUSE;
    size_t len = pair->key_len;
    if (len == 0 || len > BW_MAX_KEY) return BW_BAD_LENGTH;
    memcpy(from, pair->key, len);
    if (len < BW_MAX_KEY) {
        from[len++] = 0; /* no key lies between the two */
    } else {
        while (len > 0 && from[len - 1] == 0xff) len--; /* nor here: none is longer */
        if (len == 0) return BW_NOT_FOUND;
        from[len - 1] = (uint8_t)(from[len - 1] + 1);
    }
    return bw_read_at(reader, from, len, pair);
}

/* Whether a pair's key begins with these bytes. */
static inline int bw_begins(const bw_pair *pair, const void *prefix, size_t len) {
    return len <= pair->key_len && (len == 0 || memcmp(pair->key, prefix, len) == 0);
}

/* The first pair whose key begins with these bytes; of no bytes, the first of all. */
static inline int bw_read_first_of(const bw_reader *reader, const void *prefix, size_t len,
                                   bw_pair *pair) {
    uint8_t begin[BW_MAX_KEY];
    if (!reader || !reader->at || !prefix || !pair) return BW_MISUSE;
    if (len > BW_MAX_KEY) return BW_NOT_FOUND;
    if (len == 0) return bw_read_first(reader, pair);
    memcpy(begin, prefix, len);
    int answer = bw_read_at(reader, begin, len, pair);
    return answer == BW_OK && !bw_begins(pair, begin, len) ? BW_NOT_FOUND : answer;
}

/* The pair after the one in `pair` whose key begins with these bytes, which lie outside `pair`. */
static inline int bw_read_next_of(const bw_reader *reader, const void *prefix, size_t len,
                                  bw_pair *pair) {
    if (!reader || !reader->at || !prefix || !pair) return BW_MISUSE;
    int answer = bw_read_next(reader, pair);
    return answer == BW_OK && !bw_begins(pair, prefix, len) ? BW_NOT_FOUND : answer;
}

#ifdef __cplusplus
}
#endif
#endif
