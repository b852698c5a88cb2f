/* What the parts of the client in C share. No name of it is shown by the library. */
#ifndef HECHDORAM_PARTS_H
#define HECHDORAM_PARTS_H

#include <hechdoram.h>

#include <stdbool.h>

enum { MAX_KEY = HECHDORAM_MAX_KEY, MAX_VALUE = HECHDORAM_MAX_VALUE };

/* What asks for the first pairs at or above a key, as many as there is room for. */
typedef int many_from(const void *of, const void *key, size_t key_len, hechdoram_pair *pairs,
                      size_t room, size_t *count);

/* A walk that asks for many pairs at a time, if `many` is not null. */
int bw_scan_over(hechdoram_nearest *nearest, many_from *many, const void *of,
                 const hechdoram_range *range, hechdoram_scan **scan);

/* A call, from its beginning on: its request is put together by words, asked, and answered once. */
int bw_begin(hechdoram *store);
int bw_say(hechdoram *store, int answer, const char *words);
void bw_add(hechdoram *store, const char *bytes, size_t len);
void bw_add_text(hechdoram *store, const char *words);
void bw_add_word(hechdoram *store, const void *bytes, size_t len);

/* What is done with an answer; false if it is none to its request. */
typedef bool on_answer(void *to, size_t index, char *line);

int bw_ask(hechdoram *store, on_answer *answer, void *to);
int bw_done(hechdoram *store, int answer);

/* What answers are made of: a word, whose bytes go into a room; a number after a word; `ok`. */
bool bw_read_word(const char *word, const char *end, uint8_t *bytes, size_t room, size_t *len);
bool bw_number(const char *line, const char *name, uint64_t *found);
bool bw_is_ok(void *to, size_t index, char *line);

#endif
