/* Tables, of hechdoram.h: each call is a request of `bwlog serve --tables`. */
#define _GNU_SOURCE
#include "parts.h"

#include <stdio.h>
#include <stdlib.h>
#include <string.h>

enum {
    MAX_NAME = HECHDORAM_MAX_NAME,
    MAX_ROW_KEY = HECHDORAM_MAX_TABLE_KEY,
    MAX_CHANGES = 65536,   /* of one batch */
    MAX_BATCH = 67108864,  /* bytes of their keys and values */
    MAX_NAMES = 1024,      /* of one answer */
    FIRST_ROWS = 8,        /* what a walk asks for at first, and at most */
    MOST_ROWS = 512
};

static int misuse(hechdoram *s) {
    return bw_say(s, HECHDORAM_MISUSE, hechdoram_error_text(HECHDORAM_MISUSE));
}

static int too_long(hechdoram *s, const char *words) {
    return bw_say(s, HECHDORAM_TOO_LONG, words);
}

/* Refuses a name that no table may have. */
static int check_name(hechdoram *s, const void *name, size_t len) {
    if (!name && len > 0) return misuse(s);
    if (0 < len && len <= MAX_NAME) return HECHDORAM_OK;
    return too_long(s, "a name has 1 to 127 bytes");
}

static bool is_row_key(size_t len) { return 0 < len && len <= MAX_ROW_KEY; }

/* Refuses a change that no table takes. A deletion of what can be no key is nothing. */
static int check_change(hechdoram *s, const hechdoram_table_change *one) {
    int got = check_name(s, one->name, one->name_len);
    if (got != HECHDORAM_OK) return got;
    if (!one->key && one->key_len > 0) return misuse(s);
    if (!one->value) return HECHDORAM_OK;
    if (!is_row_key(one->key_len)) return too_long(s, "a key of a table has 1 to 124 bytes");
    if (one->value_len > HECHDORAM_MAX_TABLE_VALUE)
        return too_long(s, "a value of a table has 0 to 16777216 bytes");
    return HECHDORAM_OK;
}

static void add_change(hechdoram *s, const hechdoram_table_change *one) {
    bw_add_text(s, one->value ? "put" : "del");
    bw_add_word(s, one->name, one->name_len);
    bw_add_word(s, one->key, one->key_len);
    if (one->value) bw_add_word(s, one->value, one->value_len);
}

/* A number as a word. */
static void add_number(hechdoram *s, size_t number) {
    char word[24];
    snprintf(word, sizeof word, " %zu", number);
    bw_add_text(s, word);
}

/* ---- Tables themselves */

/* A call that takes a name. */
static int of_table(hechdoram *s, const char *verb, const void *name, size_t len,
                    on_answer *answer, void *to) {
    int got = bw_begin(s);
    if (got != HECHDORAM_OK) return got;
    got = check_name(s, name, len);
    if (got != HECHDORAM_OK) return bw_done(s, got);
    bw_add_text(s, verb);
    bw_add_word(s, name, len);
    return bw_done(s, bw_ask(s, answer, to));
}

int hechdoram_create_table(hechdoram *s, const void *name, size_t name_len) {
    return of_table(s, "create", name, name_len, bw_is_ok, NULL);
}

int hechdoram_drop_table(hechdoram *s, const void *name, size_t name_len) {
    return of_table(s, "drop", name, name_len, bw_is_ok, NULL);
}

static bool is_count(void *to, size_t index, char *line) {
    (void)index;
    return bw_number(line, "count", (uint64_t *)to);
}

int hechdoram_table_count(hechdoram *s, const void *name, size_t name_len, uint64_t *count) {
    uint64_t found = 0;
    if (!count) return HECHDORAM_MISUSE;
    int got = of_table(s, "count", name, name_len, is_count, &found);
    if (got == HECHDORAM_OK) *count = found;
    return got;
}

/* Room for names, and how many were answered. */
typedef struct named { hechdoram_name *names; size_t room, count; } named;

static bool are_names(void *to, size_t index, char *line) {
    named *all = (named *)to;
    uint64_t count = 0;
    (void)index;
    if (strncmp(line, "tables ", 7) || !bw_number(line, "tables", &count)) return false;
    if (count > all->room) return false;
    const char *at = strchr(line + 7, ' ');
    for (all->count = 0; all->count < count; all->count++) {
        if (!at) return false;
        const char *end = strchrnul(at + 1, ' ');
        hechdoram_name *name = all->names + all->count;
        if (!bw_read_word(at + 1, end, name->bytes, MAX_NAME, &name->len)) return false;
        at = *end ? end : NULL;
    }
    return at == NULL;
}

int hechdoram_tables(hechdoram *s, const void *above, size_t above_len, hechdoram_name *names,
                     size_t room, size_t *count) {
    named all = {names, room < MAX_NAMES ? room : MAX_NAMES, 0};
    static const uint8_t least[1] = {0};
    if (!names || room == 0 || !count) return HECHDORAM_MISUSE;
    int got = bw_begin(s);
    if (got != HECHDORAM_OK) return got;
    bw_add_text(s, "tables");
    if (above || all.room < MAX_NAMES) {
        if (above) got = check_name(s, above, above_len);
        if (got != HECHDORAM_OK) return bw_done(s, got);
        /* No name of a table that is wanted is at or below the least, if that is none. */
        bw_add_word(s, above ? above : least, above ? above_len : 1);
        add_number(s, all.room);
    }
    got = bw_done(s, bw_ask(s, are_names, &all));
    if (got == HECHDORAM_OK) *count = all.count;
    return got;
}

/* ---- Changes */

static int change(hechdoram *s, const hechdoram_table_change *one) {
    int got = bw_begin(s);
    if (got != HECHDORAM_OK) return got;
    got = check_change(s, one);
    if (got != HECHDORAM_OK || !is_row_key(one->key_len)) return bw_done(s, got);
    add_change(s, one);
    return bw_done(s, bw_ask(s, bw_is_ok, NULL));
}

int hechdoram_table_put(hechdoram *s, const void *name, size_t name_len, const void *key,
                        size_t key_len, const void *value, size_t value_len) {
    hechdoram_table_change one = {name, name_len, key, key_len, value, value_len};
    if (!value && value_len == 0) one.value = "";
    if (!one.value) return HECHDORAM_MISUSE;
    return change(s, &one);
}

int hechdoram_table_delete(hechdoram *s, const void *name, size_t name_len, const void *key,
                           size_t key_len) {
    const hechdoram_table_change one = {name, name_len, key, key_len, NULL, 0};
    return change(s, &one);
}

/* How many of these changes are asked; they are looked at before any is. */
static int count_changes(hechdoram *s, const hechdoram_table_change *changes, size_t count,
                         size_t *asked) {
    size_t bytes = 0;
    if (!changes && count > 0) return misuse(s);
    for (size_t i = 0; i < count; i++) {
        int got = check_change(s, changes + i);
        if (got != HECHDORAM_OK) return got;
        if (!is_row_key(changes[i].key_len)) continue;
        bytes += changes[i].key_len + (changes[i].value ? changes[i].value_len : 0);
        ++*asked;
        if (*asked > MAX_CHANGES) return too_long(s, "a batch has at most 65536 changes");
        if (bytes > MAX_BATCH)
            return too_long(s, "the keys and values of a batch have at most 67108864 bytes");
    }
    return HECHDORAM_OK;
}

int hechdoram_table_batch(hechdoram *s, const hechdoram_table_change *changes, size_t count) {
    size_t asked = 0;
    int got = bw_begin(s);
    if (got != HECHDORAM_OK) return got;
    got = count_changes(s, changes, count, &asked);
    if (got != HECHDORAM_OK || asked == 0) return bw_done(s, got);
    bw_add_text(s, "batch");
    add_number(s, asked);
    for (size_t i = 0; i < count; i++) {
        if (!is_row_key(changes[i].key_len)) continue;
        bw_add(s, "\n", 1);
        add_change(s, changes + i);
    }
    return bw_done(s, bw_ask(s, bw_is_ok, NULL));
}

/* ---- Look-ups */

/* Where the bytes of a value go, and what was found of it. */
typedef struct long_value { uint8_t *bytes; size_t room, len; bool is_found; } long_value;

/* Writes the bytes of a word, as far as there is room. */
static bool read_long(const char *word, long_value *value) {
    size_t digits = strlen(word), whole;
    bool is_hex = digits >= 2 && word[0] == '0' && word[1] == 'x';
    value->len = is_hex ? (digits - 2) / 2 : digits;
    whole = value->len < value->room ? value->len : value->room;
    if (is_hex && digits % 2 != 0) return false;
    if (whole == 0) return is_hex || digits > 0;
    return bw_read_word(word, word + (is_hex ? 2 + 2 * whole : whole), value->bytes, whole, &whole);
}

static bool is_long_value(void *to, size_t index, char *line) {
    long_value *value = (long_value *)to;
    (void)index;
    value->is_found = strcmp(line, "none") != 0;
    return !value->is_found || (!strncmp(line, "value ", 6) && read_long(line + 6, value));
}

int hechdoram_table_get(hechdoram *s, const void *name, size_t name_len, const void *key,
                        size_t key_len, void *value, size_t room, size_t *value_len) {
    long_value found = {(uint8_t *)value, room, 0, false};
    if ((!value && room > 0) || (!key && key_len > 0)) return HECHDORAM_MISUSE;
    int got = bw_begin(s);
    if (got != HECHDORAM_OK) return got;
    got = check_name(s, name, name_len);
    if (got != HECHDORAM_OK) return bw_done(s, got);
    if (!is_row_key(key_len)) return bw_done(s, HECHDORAM_NOT_FOUND);
    bw_add_text(s, "get");
    bw_add_word(s, name, name_len);
    bw_add_word(s, key, key_len);
    got = bw_done(s, bw_ask(s, is_long_value, &found));
    if (got != HECHDORAM_OK) return got;
    if (!found.is_found) return HECHDORAM_NOT_FOUND;
    if (value_len) *value_len = found.len;
    return HECHDORAM_OK;
}

/* ---- Walks */

/* The bytes below which a walk is. */
typedef struct upper { uint8_t *bytes; size_t len; bool is_none; } upper;

struct hechdoram_table_scan {
    hechdoram *store;
    hechdoram_name name;
    uint8_t key[MAX_ROW_KEY]; /* the next answer begins at this key, or above it */
    size_t key_len;
    bool is_above, is_last, is_over;
    upper high[2];
    uint8_t *bytes;           /* those of the pairs that were answered: a length of the key, and of */
    size_t len, room, taken;  /* the value, before each; `taken` of them were met */
    size_t count, most;       /* how many were answered, and asked for */
};

/* Adds a word of an answer after the bytes of a walk. */
static bool keep_word(hechdoram_table_scan *scan, const char *word, const char *end) {
    size_t most = (size_t)(end - word), len = 0;
    if (scan->len + sizeof len + most > scan->room) {
        size_t room = 2 * (scan->len + sizeof len + most);
        uint8_t *bytes = (uint8_t *)realloc(scan->bytes, room);
        if (!bytes) return false;
        scan->bytes = bytes;
        scan->room = room;
    }
    uint8_t *at = scan->bytes + scan->len;
    if (!bw_read_word(word, end, at + sizeof len, most, &len)) return false;
    memcpy(at, &len, sizeof len);
    scan->len += sizeof len + len;
    return true;
}

/* Reads `pairs M k=v ..`, and maybe `more`. */
static bool are_rows(void *to, size_t index, char *line) {
    hechdoram_table_scan *scan = (hechdoram_table_scan *)to;
    uint64_t count = 0;
    (void)index;
    scan->len = scan->taken = scan->count = 0;
    if (strncmp(line, "pairs ", 6) || !bw_number(line, "pairs", &count)) return false;
    if (count > scan->most) return false;
    const char *at = strchrnul(line + 6, ' ');
    for (; scan->count < count; scan->count++) {
        if (*at++ != ' ') return false;
        const char *end = strchrnul(at, ' ');
        const char *middle = (const char *)memchr(at, '=', (size_t)(end - at));
        if (!middle || !keep_word(scan, at, middle) || !keep_word(scan, middle + 1, end))
            return false;
        at = end;
    }
    bool is_cut = !strcmp(at, " more");
    scan->is_last = !is_cut && count < scan->most;
    return is_cut || *at == 0;
}

/* Asks for the next pairs of a walk, more of them each time. */
static int fill(hechdoram_table_scan *scan) {
    hechdoram *s = scan->store;
    int got = bw_begin(s);
    if (got != HECHDORAM_OK) return got;
    bw_add_text(s, scan->is_above ? "above" : "scan");
    bw_add_word(s, scan->name.bytes, scan->name.len);
    bw_add_word(s, scan->key, scan->key_len);
    add_number(s, scan->most);
    got = bw_done(s, bw_ask(s, are_rows, scan));
    if (got != HECHDORAM_OK) return got;
    scan->most = 2 * scan->most < MOST_ROWS ? 2 * scan->most : MOST_ROWS;
    return HECHDORAM_OK;
}

/* Whether a key is below bytes. */
static bool is_below(const uint8_t *key, size_t len, const uint8_t *bytes, size_t bytes_len) {
    size_t least = len < bytes_len ? len : bytes_len;
    int order = least > 0 ? memcmp(key, bytes, least) : 0;
    return order < 0 || (order == 0 && len < bytes_len);
}

/* A copy of bytes as an upper bound. */
static bool set_high(upper *high, const void *bytes, size_t len) {
    high->bytes = (uint8_t *)malloc(len + 1);
    if (!high->bytes) return false;
    if (len > 0) memcpy(high->bytes, bytes, len);
    high->len = len;
    high->is_none = false;
    return true;
}

/* Sets where a walk begins and ends; false if memory was refused. */
static bool set_range(hechdoram_table_scan *scan, const hechdoram_range *range) {
    const uint8_t *low = (const uint8_t *)"";
    size_t len = 0;
    upper *past = scan->high, *stop = scan->high + 1;
    past->is_none = stop->is_none = true;
    if (range && range->prefix) {
        low = (const uint8_t *)range->prefix;
        len = range->prefix_len;
        if (!set_high(past, low, len)) return false;
        while (past->len > 0 && past->bytes[past->len - 1] == 0xff) past->len--;
        if (past->len > 0) past->bytes[past->len - 1]++;
        past->is_none = past->len == 0;
    }
    if (range && range->start && is_below(low, len, (const uint8_t *)range->start, range->start_len)) {
        low = (const uint8_t *)range->start;
        len = range->start_len;
    }
    if (range && range->stop && !set_high(stop, range->stop, range->stop_len)) return false;
    /* A key above the longest that a table may have stands above its first bytes. */
    scan->is_above = len > MAX_ROW_KEY;
    scan->key_len = len < MAX_ROW_KEY ? len : MAX_ROW_KEY;
    memcpy(scan->key, low, scan->key_len);
    if (scan->key_len == 0) scan->key[scan->key_len++] = 0;
    return true;
}

int hechdoram_table_scan_begin(hechdoram *s, const void *name, size_t name_len,
                               const hechdoram_range *range, hechdoram_table_scan **scan) {
    if (scan) *scan = NULL;
    int got = bw_begin(s); /* a store that is closed, or busy, says so here */
    if (got != HECHDORAM_OK) return got;
    got = check_name(s, name, name_len);
    if (got == HECHDORAM_OK && (!scan || (range && range->is_back))) got = misuse(s);
    if (got != HECHDORAM_OK) return bw_done(s, got);
    hechdoram_table_scan *made = (hechdoram_table_scan *)calloc(1, sizeof *made);
    if (!made) return bw_done(s, HECHDORAM_NO_MEMORY);
    made->store = s;
    memcpy(made->name.bytes, name, name_len);
    made->name.len = name_len;
    made->most = FIRST_ROWS;
    if (!set_range(made, range)) {
        hechdoram_table_scan_end(&made);
        return bw_done(s, HECHDORAM_NO_MEMORY);
    }
    *scan = made;
    return bw_done(s, HECHDORAM_OK);
}

/* The next word that was kept. */
static const uint8_t *take_word(hechdoram_table_scan *scan, size_t *len) {
    memcpy(len, scan->bytes + scan->taken, sizeof *len);
    const uint8_t *bytes = scan->bytes + scan->taken + sizeof *len;
    scan->taken += sizeof *len + *len;
    return bytes;
}

int hechdoram_table_scan_next(hechdoram_table_scan *scan, hechdoram_row *row) {
    if (!scan || !row) return HECHDORAM_MISUSE;
    if (scan->is_over) return HECHDORAM_NOT_FOUND;
    if (scan->taken == scan->len && !scan->is_last) {
        int got = fill(scan);
        if (got != HECHDORAM_OK) return got;
    }
    scan->is_over = scan->taken == scan->len;
    if (scan->is_over) return HECHDORAM_NOT_FOUND;
    row->key = take_word(scan, &row->key_len);
    row->value = take_word(scan, &row->value_len);
    for (int i = 0; i < 2; i++) {
        const upper *high = scan->high + i;
        if (!high->is_none && !is_below(row->key, row->key_len, high->bytes, high->len))
            scan->is_over = true;
    }
    if (scan->is_over || row->key_len > MAX_ROW_KEY) return HECHDORAM_NOT_FOUND;
    memcpy(scan->key, row->key, row->key_len);
    scan->key_len = row->key_len;
    scan->is_above = true;
    return HECHDORAM_OK;
}

void hechdoram_table_scan_end(hechdoram_table_scan **scan) {
    if (!scan || !*scan) return;
    free((*scan)->bytes);
    free((*scan)->high[0].bytes);
    free((*scan)->high[1].bytes);
    free(*scan);
    *scan = NULL;
}
