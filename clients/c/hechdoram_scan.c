/* Keys in order, and walks over pairs, of hechdoram.h: whatever finds them, a store or a reader. */
#include "parts.h"

#include <stdbool.h>
#include <stdlib.h>

/* How many pairs a walk asks for at first, and at most. */
enum { FIRST_PAIRS = 8, MOST_PAIRS = 512 };

/* ---- Keys in order */

/* The least key that a walk may meet, or the least that it may not; `is_none` above all keys. */
typedef struct bound { uint8_t bytes[MAX_KEY]; size_t len; bool is_none; } bound;

/* The least bytes above all that begin with a bound's. */
static void step_past(bound *b) {
    while (b->len > 0 && b->bytes[b->len - 1] == 0xff) b->len--;
    if (b->len > 0) b->bytes[b->len - 1]++;
    b->is_none = b->len == 0;
}

/* The least key above a bound's bytes. */
static void step(bound *b) {
    if (b->len < MAX_KEY) b->bytes[b->len++] = 0;
    else step_past(b);
}

/* The bound of these bytes. No key has more than MAX_KEY: the least one above their beginning
 * stands for those that have. */
static bound bound_of(const void *bytes, size_t len) {
    bound b;
    b.len = len < MAX_KEY ? len : MAX_KEY;
    b.is_none = false;
    if (b.len > 0) memcpy(b.bytes, bytes, b.len);
    if (len > MAX_KEY) step(&b);
    return b;
}

/* Whether a key, or a bound, is below a bound. */
static bool is_below(const uint8_t *key, size_t len, const bound *b) {
    size_t least = len < b->len ? len : b->len;
    int order = least > 0 ? memcmp(key, b->bytes, least) : 0;
    return b->is_none || order < 0 || (order == 0 && len < b->len);
}

int hechdoram_find(hechdoram_nearest *nearest, const void *of, int kind, const void *key,
                   size_t key_len, hechdoram_pair *pair) {
    if (!nearest || !pair || (!key && key_len > 0)) return HECHDORAM_MISUSE;
    bound b = bound_of(key, key_len);
    if (kind == '>') {
        if (b.is_none) return HECHDORAM_NOT_FOUND;
        if (b.len == 0) step(&b);
        return nearest(of, '>', b.bytes, b.len, pair);
    }
    if (key_len == 0) return HECHDORAM_NOT_FOUND;
    if (kind == '=' && key_len <= MAX_KEY) step(&b);
    return nearest(of, '<', b.bytes, b.is_none ? 0 : b.len, pair);
}

/* ---- Walks */

struct hechdoram_scan {
    hechdoram_nearest *nearest; /* asks for one pair */
    many_from *many;            /* asks for many, the least first; or null */
    const void *of;
    bound low, high;            /* what is left to be met: keys at or above low, and below high */
    bool is_back, is_over;
    hechdoram_pair *pairs;      /* what was answered: `given` of `count` were met */
    size_t count, given;
    size_t most;                /* as many were asked for */
    bool is_last;               /* there are no others */
};

/* Sets the bounds of a walk. */
static void set_bounds(hechdoram_scan *scan, const hechdoram_range *range) {
    scan->low = scan->high = bound_of("", 0);
    scan->high.is_none = true;
    if (range && range->prefix) {
        scan->low = scan->high = bound_of(range->prefix, range->prefix_len);
        step_past(&scan->high);
        if (range->prefix_len > MAX_KEY) scan->is_over = true;
    }
    if (range && range->start) {
        bound start = bound_of(range->start, range->start_len);
        if (start.is_none || is_below(scan->low.bytes, scan->low.len, &start)) scan->low = start;
    }
    if (range && range->stop) {
        bound stop = bound_of(range->stop, range->stop_len);
        if (!stop.is_none && is_below(stop.bytes, stop.len, &scan->high)) scan->high = stop;
    }
    if (scan->low.is_none || (!scan->high.is_none && scan->high.len == 0)) scan->is_over = true;
    if (scan->low.len == 0) step(&scan->low);
    scan->is_back = range && range->is_back;
}

int bw_scan_over(hechdoram_nearest *nearest, many_from *many, const void *of,
                 const hechdoram_range *range, hechdoram_scan **scan) {
    if (scan) *scan = NULL;
    if (!nearest || !scan) return HECHDORAM_MISUSE;
    hechdoram_scan *new_scan = (hechdoram_scan *)calloc(1, sizeof *new_scan);
    if (!new_scan) return HECHDORAM_NO_MEMORY;
    new_scan->nearest = nearest;
    new_scan->many = many;
    new_scan->of = of;
    set_bounds(new_scan, range);
    *scan = new_scan;
    return HECHDORAM_OK;
}

int hechdoram_scan_over(hechdoram_nearest *nearest, const void *of, const hechdoram_range *range,
                        hechdoram_scan **scan) {
    return bw_scan_over(nearest, NULL, of, range, scan);
}

/* Asks for the next pairs of a walk, more of them each time. */
static int fill(hechdoram_scan *scan) {
    size_t twice = scan->most ? 2 * scan->most : FIRST_PAIRS;
    size_t room = twice < MOST_PAIRS ? twice : MOST_PAIRS;
    hechdoram_pair *pairs = (hechdoram_pair *)realloc(scan->pairs, room * sizeof *pairs);
    if (!pairs) return HECHDORAM_NO_MEMORY;
    scan->pairs = pairs;
    scan->count = scan->given = 0;
    size_t count = 0;
    int got = scan->many(scan->of, scan->low.bytes, scan->low.len, pairs, room, &count);
    if (got != HECHDORAM_OK) return got;
    scan->most = room;
    scan->count = count;
    scan->is_last = count < room;
    return HECHDORAM_OK;
}

/* The next pair of a walk that goes on, without its bounds. */
static int next_of(hechdoram_scan *scan, hechdoram_pair *pair) {
    if (scan->is_back) {
        const bound *high = &scan->high;
        return scan->nearest(scan->of, '<', high->bytes, high->is_none ? 0 : high->len, pair);
    }
    if (!scan->many) return scan->nearest(scan->of, '>', scan->low.bytes, scan->low.len, pair);
    if (scan->given == scan->count && !scan->is_last) {
        int got = fill(scan);
        if (got != HECHDORAM_OK) return got;
    }
    if (scan->given == scan->count) return HECHDORAM_NOT_FOUND;
    *pair = scan->pairs[scan->given++];
    return HECHDORAM_OK;
}

int hechdoram_scan_next(hechdoram_scan *scan, hechdoram_pair *pair) {
    if (!scan || !pair) return HECHDORAM_MISUSE;
    if (scan->is_over) return HECHDORAM_NOT_FOUND;
    int got = next_of(scan, pair);
    if (got != HECHDORAM_OK && got != HECHDORAM_NOT_FOUND) return got;
    bool is_met = got == HECHDORAM_OK && is_below(pair->key, pair->key_len, &scan->high) &&
                  !is_below(pair->key, pair->key_len, &scan->low);
    bound *at = scan->is_back ? &scan->high : &scan->low;
    if (is_met) {
        *at = bound_of(pair->key, pair->key_len);
        if (!scan->is_back) step(at);
    }
    scan->is_over = !is_met || (!scan->is_back && at->is_none);
    return is_met ? HECHDORAM_OK : HECHDORAM_NOT_FOUND;
}

void hechdoram_scan_end(hechdoram_scan **scan) {
    if (!scan || !*scan) return;
    free((*scan)->pairs);
    free(*scan);
    *scan = NULL;
}
