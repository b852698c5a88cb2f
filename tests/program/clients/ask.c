/* Answers requests of the table by the C client, a line each: ask PROGRAM. C11 and C++14. The words of
 * pairs are hex in both. With HAS_READER it is linked with the library of readers too. */
#include <hechdoram.h>

#include <pthread.h>
#include <setjmp.h>
#include <signal.h>
#include <stdio.h>
#include <stdlib.h>
#include <sys/time.h>
#include <unistd.h>

enum { MOST = 20000, WORDS = 512, NAMED = 400, THREADS = 4 };

static const char *program, *the_folder;
static char folder_room[4096];
static hechdoram *store;
#ifdef HAS_READER
static hechdoram_reader reader = HECHDORAM_CLOSED_READER;
#endif
static int is_reading;
static char *words[MOST];
static int count_of_words;

#define HOLDS(what) \
    do { \
        if (!(what)) { \
            printf("line %d: %s: %s\n", __LINE__, #what, hechdoram_said(store)); \
            return; \
        } \
    } while (0)

/* ---- Words */

static int digit(int c) { return c <= '9' ? c - '0' : c - 'a' + 10; }

/* The bytes of a word in hex, in its own place; their number. */
static size_t bytes_of(char *word) {
    size_t len = 0;
    for (char *at = word + 2; at[0] && at[1]; at += 2)
        word[len++] = (char)(digit(at[0]) * 16 + digit(at[1]));
    return len;
}

static void tell(const uint8_t *bytes, size_t len) {
    printf("0x");
    for (size_t i = 0; i < len; i++) printf("%02x", bytes[i]);
}

static void tell_pair(const hechdoram_pair *pair) {
    tell(pair->key, pair->key_len);
    putchar('=');
    tell(pair->value, pair->value_len);
}

static const char *kind_of(int answer) {
    switch (answer) {
    case HECHDORAM_NO_MEMORY: return "NoMemory";
    case HECHDORAM_REFUSED: return "Refused";
    case HECHDORAM_FULL: return "Full";
    case HECHDORAM_FAILED: return "Failed";
    case HECHDORAM_ENDED: return "Ended";
    case HECHDORAM_NO_TABLE: return "NoTable";
    case HECHDORAM_TABLE_EXISTS: return "TableExists";
    case HECHDORAM_TOO_LONG: return "TooLong";
    case HECHDORAM_BUSY: return "Busy";
    case HECHDORAM_NO_STORE: return "NoStore";
    case HECHDORAM_DAMAGED: return "Damaged";
    case HECHDORAM_SYSTEM: return "System";
    case HECHDORAM_IN_USE: return "InUse";
    default: return "Misuse";
    }
}

static void tell_error(int answer, const char *said) {
    printf("error %s %s\n", kind_of(answer), said ? said : hechdoram_error_text(answer));
}

/* Tells an error, or this word. */
static void tell_done(int answer, const char *word) {
    if (answer == HECHDORAM_OK) puts(word);
    else tell_error(answer, hechdoram_said(store));
}

static void tell_found(int answer, const hechdoram_pair *pair) {
    if (answer == HECHDORAM_NOT_FOUND) {
        puts("none");
        return;
    }
    if (answer != HECHDORAM_OK) {
        tell_error(answer, hechdoram_said(store));
        return;
    }
    printf("pair ");
    tell_pair(pair);
    putchar('\n');
}

/* ---- A store or a reader */

static int get(const void *key, size_t key_len, void *value, size_t room, size_t *len) {
#ifdef HAS_READER
    if (is_reading) return hechdoram_reader_get(&reader, key, key_len, value, room, len);
#endif
    return hechdoram_get(store, key, key_len, value, room, len);
}

static int near(int kind, const void *key, size_t len, hechdoram_pair *pair) {
#ifdef HAS_READER
    if (is_reading && kind == '>') return hechdoram_reader_at_or_above(&reader, key, len, pair);
    if (is_reading && kind == '=') return hechdoram_reader_at_or_below(&reader, key, len, pair);
    if (is_reading) return hechdoram_reader_below(&reader, key, len, pair);
#endif
    if (kind == '>') return hechdoram_at_or_above(store, key, len, pair);
    return kind == '=' ? hechdoram_at_or_below(store, key, len, pair) : hechdoram_below(store, key, len, pair);
}

static int begin_scan(const hechdoram_range *range, hechdoram_scan **scan) {
#ifdef HAS_READER
    if (is_reading) return hechdoram_reader_scan(&reader, range, scan);
#endif
    return hechdoram_scan_begin(store, range, scan);
}

static int count_pairs(uint64_t *count) {
#ifdef HAS_READER
    if (is_reading) return hechdoram_reader_count(&reader, count);
#endif
    return hechdoram_count(store, count);
}

/* ---- Requests */

typedef int open_call(const char *folder, const hechdoram_options *options, hechdoram **at);

/* Opens a store with the options after a request's first word. */
static int open_with(open_call *call, hechdoram **at, int from) {
    hechdoram_options options;
    memset(&options, 0, sizeof options);
    options.program = program;
    for (int i = from; i < count_of_words; i++) {
        char *number = strchr(words[i], '=');
        if (!number) continue;
        *number++ = 0;
        if (!strcmp(words[i], "program")) options.program = number;
        if (!strcmp(words[i], "capacity")) options.capacity = (unsigned)atol(number);
        if (!strcmp(words[i], "segments")) options.segments = (unsigned)atol(number);
        if (!strcmp(words[i], "most_segments")) options.most_segments = (unsigned)atol(number);
    }
    return call(words[1], &options, at);
}

static void do_open(open_call *call) {
    hechdoram *next = NULL;
    hechdoram_abandon(&store);
    is_reading = 0;
    snprintf(folder_room, sizeof folder_room, "%s", words[1]);
    the_folder = folder_room;
    int got = open_with(call, &next, 2);
    if (got == HECHDORAM_OK) {
        store = next;
        puts("opened");
        return;
    }
    tell_error(got, hechdoram_said(next));
    hechdoram_abandon(&next);
}

static void do_other(void) {
    hechdoram *other = NULL;
    int got = open_with(hechdoram_open, &other, 4);
    int is_append = count_of_words > 3;
    if (got == HECHDORAM_OK && is_append) {
        size_t key_len = bytes_of(words[2]), len = bytes_of(words[3]);
        got = hechdoram_put(other, words[2], key_len, words[3], len);
    }
    if (got == HECHDORAM_OK) got = hechdoram_close(&other);
    if (got == HECHDORAM_OK) puts(is_append ? "ok" : "opened");
    else tell_error(got, hechdoram_said(other));
    hechdoram_abandon(&other);
}

static void do_read(int is_again) {
#ifdef HAS_READER
    is_reading = 1;
    if (!is_again) hechdoram_reader_close(&reader);
    int got = is_again ? hechdoram_reader_refresh(the_folder, &reader) : hechdoram_reader_open(words[1], &reader);
    if (!is_again) snprintf(folder_room, sizeof folder_room, "%s", words[1]), the_folder = folder_room;
    if (got == HECHDORAM_OK) puts(is_again ? "refreshed" : "read");
    else tell_error(got, NULL);
#else
    (void)is_again;
    puts("there is no reader here");
#endif
}

static void do_get(void) {
    uint8_t value[HECHDORAM_MAX_VALUE], some[2];
    size_t len = 0, other = 0, key_len = bytes_of(words[1]);
    int got = get(words[1], key_len, value, sizeof value, &len);
    if (got == HECHDORAM_NOT_FOUND) puts("none");
    else if (got != HECHDORAM_OK) tell_error(got, hechdoram_said(store));
    else if (get(words[1], key_len, some, sizeof some, &other) != HECHDORAM_OK || other != len ||
             memcmp(some, value, len < 2 ? len : 2) != 0 || get(words[1], key_len, NULL, 0, NULL) != HECHDORAM_OK)
        puts("with less room the answer is another");
    else {
        printf("value ");
        tell(value, len);
        putchar('\n');
    }
}

static void do_gets(void) {
    static hechdoram_key keys[WORDS];
    static hechdoram_value values[WORDS];
    size_t count = (size_t)count_of_words - 1;
    for (size_t i = 0; i < count; i++) {
        keys[i].len = bytes_of(words[i + 1]);
        keys[i].bytes = words[i + 1];
    }
    if (is_reading) {
        for (size_t i = 0; i < count; i++)
            values[i].is_found = get(keys[i].bytes, keys[i].len, values[i].bytes, HECHDORAM_MAX_VALUE, &values[i].len) == HECHDORAM_OK;
    } else {
        int got = hechdoram_get_many(store, keys, count, values);
        if (got != HECHDORAM_OK) {
            tell_error(got, hechdoram_said(store));
            return;
        }
    }
    printf("values");
    for (size_t i = 0; i < count; i++) {
        putchar(' ');
        if (values[i].is_found) tell(values[i].bytes, values[i].len);
        else printf("none");
    }
    putchar('\n');
}

/* The changes of a request: pairs, or `put` and `del` with theirs. */
static size_t changes_of(hechdoram_change *changes, int are_pairs) {
    size_t count = 0;
    for (int i = 1; i < count_of_words; count++) {
        hechdoram_change *one = changes + count;
        int is_put = are_pairs || !strcmp(words[i], "put");
        if (!are_pairs) i++;
        one->key_len = bytes_of(words[i]);
        one->key = words[i++];
        one->value = NULL;
        one->value_len = 0;
        if (!is_put) continue;
        one->value_len = bytes_of(words[i]);
        one->value = words[i++];
    }
    return count;
}

typedef int change_all(hechdoram *at, const hechdoram_change *changes, size_t count);

static void do_changes(change_all *call, int are_pairs) {
    static hechdoram_change changes[MOST];
    tell_done(call(store, changes, changes_of(changes, are_pairs)), "ok");
}

static void do_put(void) {
    size_t key_len = bytes_of(words[1]), len = bytes_of(words[2]);
    tell_done(hechdoram_put(store, words[1], key_len, words[2], len), "ok");
}

static void do_del(void) {
    size_t key_len = bytes_of(words[1]);
    tell_done(hechdoram_delete(store, words[1], key_len), "ok");
}

static void do_near(int kind) {
    hechdoram_pair pair;
    size_t len = bytes_of(words[1]);
    int got = near(kind, words[1], len, &pair);
    tell_found(got, &pair);
}

static void do_scan(void) {
    hechdoram_range range;
    hechdoram_scan *scan = NULL;
    hechdoram_pair pair;
    memset(&range, 0, sizeof range);
    for (int i = 1; i < count_of_words; i++) {
        char *word = strchr(words[i], '=');
        if (!word) {
            range.is_back = 1;
            continue;
        }
        size_t len = bytes_of(++word);
        if (words[i][0] == 'p') range.prefix = word, range.prefix_len = len;
        else if (words[i][2] == 'a') range.start = word, range.start_len = len;
        else range.stop = word, range.stop_len = len;
    }
    int got = begin_scan(&range, &scan);
    if (got == HECHDORAM_OK) got = hechdoram_scan_next(scan, &pair);
    if (got >= HECHDORAM_OK) printf("pairs");
    for (; got == HECHDORAM_OK; got = hechdoram_scan_next(scan, &pair)) putchar(' '), tell_pair(&pair);
    if (got != HECHDORAM_NOT_FOUND) tell_error(got, hechdoram_said(store));
    else puts(hechdoram_scan_next(scan, &pair) == got ? "" : " a walk went on after its end");
    hechdoram_scan_end(&scan);
    hechdoram_scan_end(&scan);
}

static void do_numbers(const char *name) {
    uint64_t first = 0, second = 0;
    hechdoram_numbers stats;
    hechdoram_copied copied;
    int got;
    char line[120];
    if (!strcmp(name, "count")) {
        got = count_pairs(&first);
        snprintf(line, sizeof line, "count %llu", (unsigned long long)first);
    } else if (!strcmp(name, "keep")) {
        got = hechdoram_keep(store, &first);
        if (first) snprintf(line, sizeof line, "frame %llu", (unsigned long long)first);
        else snprintf(line, sizeof line, "no frame");
    } else if (!strcmp(name, "reopen")) {
        got = hechdoram_reopen(store, &first, &second);
        snprintf(line, sizeof line, "reopened frame %llu lost %llu", (unsigned long long)first, (unsigned long long)second);
    } else if (!strcmp(name, "stats")) {
        got = hechdoram_stats(store, &stats);
        snprintf(line, sizeof line, "stats durable %llu failed %d", (unsigned long long)stats.durable, stats.failed);
    } else if (!strcmp(name, "clean")) {
        got = hechdoram_clean(store, &first);
        snprintf(line, sizeof line, "won %llu", (unsigned long long)first);
    } else if (!strcmp(name, "add")) {
        got = hechdoram_add(store, &first);
        snprintf(line, sizeof line, "added %llu", (unsigned long long)first);
    } else {
        got = hechdoram_backup(store, words[1], &copied);
        snprintf(line, sizeof line, "copied frame %llu pages %llu pairs %llu", (unsigned long long)copied.frame,
                 (unsigned long long)copied.pages, (unsigned long long)copied.pairs);
    }
    tell_done(got, line);
}

static void do_close(void) {
#ifdef HAS_READER
    if (is_reading) {
        hechdoram_reader_close(&reader);
        puts("closed");
        return;
    }
#endif
    tell_done(hechdoram_close(&store), "closed");
}

/* ---- Tables */

static void do_tables(void) {
    static hechdoram_name names[3]; /* fewer than there are, so that it is asked again */
    size_t count = 0;
    int got = hechdoram_tables(store, NULL, 0, names, 3, &count);
    if (got == HECHDORAM_OK) printf("tables");
    while (got == HECHDORAM_OK && count > 0) {
        for (size_t i = 0; i < count; i++) putchar(' '), tell(names[i].bytes, names[i].len);
        hechdoram_name last = names[count - 1];
        got = hechdoram_tables(store, last.bytes, last.len, names, 3, &count);
    }
    if (got == HECHDORAM_OK) putchar('\n');
    else tell_error(got, hechdoram_said(store));
}

typedef int name_call(hechdoram *at, const void *name, size_t len);

static void do_name(name_call *call) {
    size_t len = bytes_of(words[1]);
    tell_done(call(store, words[1], len), "ok");
}

static void do_tput(void) {
    size_t name_len = bytes_of(words[1]), key_len = bytes_of(words[2]), len = bytes_of(words[3]);
    tell_done(hechdoram_table_put(store, words[1], name_len, words[2], key_len, words[3], len), "ok");
}

static void do_tdel(void) {
    size_t name_len = bytes_of(words[1]), key_len = bytes_of(words[2]);
    tell_done(hechdoram_table_delete(store, words[1], name_len, words[2], key_len), "ok");
}

static void do_tget(void) {
    static uint8_t value[1 << 21], some[3];
    size_t len = 0, other = 0, name_len = bytes_of(words[1]), key_len = bytes_of(words[2]);
    int got = hechdoram_table_get(store, words[1], name_len, words[2], key_len, value, sizeof value, &len);
    if (got == HECHDORAM_NOT_FOUND) puts("none");
    else if (got != HECHDORAM_OK) tell_error(got, hechdoram_said(store));
    else if (hechdoram_table_get(store, words[1], name_len, words[2], key_len, some, sizeof some, &other) != HECHDORAM_OK ||
             other != len || memcmp(some, value, len < 3 ? len : 3) != 0)
        puts("with less room the answer is another");
    else {
        printf("value ");
        tell(value, len);
        putchar('\n');
    }
}

static void do_tcount(void) {
    uint64_t count = 0;
    char line[40];
    size_t len = bytes_of(words[1]);
    int got = hechdoram_table_count(store, words[1], len, &count);
    snprintf(line, sizeof line, "count %llu", (unsigned long long)count);
    tell_done(got, line);
}

static void tell_row(const hechdoram_row *row) {
    putchar(' ');
    tell(row->key, row->key_len);
    putchar('=');
    tell(row->value, row->value_len);
}

/* A walk over a table; only the first pair from a key on. */
static void do_tscan(int is_first) {
    hechdoram_range range;
    hechdoram_table_scan *scan = NULL;
    hechdoram_row row;
    size_t name_len = bytes_of(words[1]);
    memset(&range, 0, sizeof range);
    for (int i = 2; i < count_of_words; i++) {
        char *word = is_first ? words[i] : strchr(words[i], '=') + 1;
        size_t len = bytes_of(word);
        if (!is_first && words[i][0] == 'p') range.prefix = word, range.prefix_len = len;
        else if (is_first || words[i][2] == 'a') range.start = word, range.start_len = len;
        else range.stop = word, range.stop_len = len;
    }
    int got = hechdoram_table_scan_begin(store, words[1], name_len, &range, &scan);
    if (got == HECHDORAM_OK) got = hechdoram_table_scan_next(scan, &row);
    if (is_first && got == HECHDORAM_NOT_FOUND) printf("none");
    else if (got >= HECHDORAM_OK) printf(is_first ? "pair" : "pairs");
    while (got == HECHDORAM_OK) {
        tell_row(&row);
        got = is_first ? HECHDORAM_NOT_FOUND : hechdoram_table_scan_next(scan, &row);
    }
    if (got != HECHDORAM_NOT_FOUND) tell_error(got, hechdoram_said(store));
    else puts(is_first || hechdoram_table_scan_next(scan, &row) == got ? "" : " a walk went on after its end");
    hechdoram_table_scan_end(&scan);
    hechdoram_table_scan_end(&scan);
}

static void do_tbatch(void) {
    static hechdoram_table_change changes[MOST];
    size_t count = 0;
    for (int i = 1; i < count_of_words; count++) {
        hechdoram_table_change *one = changes + count;
        int is_put = !strcmp(words[i++], "put");
        one->name_len = bytes_of(words[i]), one->name = words[i++];
        one->key_len = bytes_of(words[i]), one->key = words[i++];
        one->value_len = 0, one->value = NULL;
        if (is_put) one->value_len = bytes_of(words[i]), one->value = words[i++];
    }
    tell_done(hechdoram_table_batch(store, changes, count), "ok");
}

/* The value of this number: its digits, for each seventh 700 times. */
static size_t value_of(unsigned index, char *value) {
    size_t len = 0;
    for (unsigned i = 0; i < (index % 7 == 0 ? 700u : 1u); i++) len += (size_t)sprintf(value + len, "%u", index);
    return len;
}

/* Puts so many pairs in one batch, and walks over them. */
static void do_tmany(void) {
    enum { MOST_MADE = 3000 };
    static char keys[MOST_MADE][24], values[MOST_MADE][4096];
    static hechdoram_table_change changes[MOST_MADE];
    unsigned count = (unsigned)atol(words[2]), seen = 0;
    size_t name_len = bytes_of(words[1]);
    hechdoram_table_scan *scan = NULL;
    hechdoram_range range;
    hechdoram_row row;
    memset(&range, 0, sizeof range);
    range.prefix = "key", range.prefix_len = 3;
    HOLDS(count <= MOST_MADE);
    for (unsigned i = 0; i < count; i++) {
        hechdoram_table_change *one = changes + i;
        snprintf(keys[i], sizeof keys[i], "key%08u", i);
        one->name = words[1], one->name_len = name_len;
        one->key = keys[i], one->key_len = strlen(keys[i]);
        one->value = values[i], one->value_len = value_of(i, values[i]);
    }
    HOLDS(hechdoram_table_batch(store, changes, count) == HECHDORAM_OK);
    HOLDS(hechdoram_table_scan_begin(store, words[1], name_len, &range, &scan) == HECHDORAM_OK);
    for (; hechdoram_table_scan_next(scan, &row) == HECHDORAM_OK; seen++) {
        const hechdoram_table_change *one = changes + seen;
        HOLDS(seen < count && row.key_len == one->key_len && !memcmp(row.key, one->key, row.key_len));
        HOLDS(row.value_len == one->value_len && !memcmp(row.value, one->value, row.value_len));
    }
    hechdoram_table_scan_end(&scan);
    HOLDS(seen == count);
    printf("walked %u\n", seen);
}

static void do_kill(void) {
    char number[24] = "";
    FILE *file = fopen(words[1], "r");
    HOLDS(file && fgets(number, sizeof number, file));
    fclose(file);
    HOLDS(!kill((pid_t)atol(number), SIGKILL));
    puts("killed");
}

/* ---- Whole runs */

static void do_fill(void) {
    char key[24], value[500];
    int got = HECHDORAM_OK;
    memset(value, 'v', sizeof value);
    for (unsigned i = 0; got == HECHDORAM_OK; i++) {
        snprintf(key, sizeof key, "fill%05u", i);
        got = hechdoram_put(store, key, strlen(key), value, sizeof value);
    }
    tell_error(got, hechdoram_said(store));
}

/* Puts so many pairs in bursts. */
static int put_many(unsigned count) {
    static char keys[1000][24], values[1000][24];
    static hechdoram_change changes[1000];
    int got = HECHDORAM_OK;
    for (unsigned from = 0; got == HECHDORAM_OK && from < count; from += 1000) {
        unsigned some = count - from < 1000 ? count - from : 1000;
        for (unsigned i = 0; i < some; i++) {
            hechdoram_change *one = changes + i;
            snprintf(keys[i], sizeof keys[i], "key%08u", (unsigned)((from + i) * 7919ull % count));
            snprintf(values[i], sizeof values[i], "%u", from + i);
            one->key = keys[i], one->key_len = strlen(keys[i]);
            one->value = values[i], one->value_len = strlen(values[i]);
        }
        got = hechdoram_change_many(store, changes, some);
    }
    return got;
}

/* Whether a pair is the one of this place. */
static int is_pair_at(const hechdoram_pair *pair, unsigned at, unsigned count) {
    char wanted[24], value[24];
    snprintf(wanted, sizeof wanted, "key%08u", at);
    if (pair->key_len != 11 || memcmp(pair->key, wanted, 11) || pair->value_len > 20) return 0;
    memcpy(value, pair->value, pair->value_len);
    value[pair->value_len] = 0;
    return strtoull(value, NULL, 10) * 7919ull % count == at;
}

/* Keeps so many records over a stop, and walks them both ways. */
static void do_many(void) {
    unsigned count = (unsigned)atol(words[1]), seen = 0;
    hechdoram_options options;
    hechdoram_range back;
    hechdoram_scan *scan;
    hechdoram_pair pair;
    memset(&options, 0, sizeof options), memset(&back, 0, sizeof back);
    options.program = program;
    HOLDS(put_many(count) == HECHDORAM_OK);
    HOLDS(hechdoram_close(&store) == HECHDORAM_OK && !store);
    HOLDS(hechdoram_open(the_folder, &options, &store) == HECHDORAM_OK);
    HOLDS(hechdoram_scan_begin(store, NULL, &scan) == HECHDORAM_OK);
    while (hechdoram_scan_next(scan, &pair) == HECHDORAM_OK) HOLDS(is_pair_at(&pair, seen++, count));
    hechdoram_scan_end(&scan);
    HOLDS(seen == count);
    back.is_back = 1;
    HOLDS(hechdoram_scan_begin(store, &back, &scan) == HECHDORAM_OK);
    for (unsigned i = 0; i < 2000 && i < count; i++)
        HOLDS(hechdoram_scan_next(scan, &pair) == HECHDORAM_OK && is_pair_at(&pair, --seen, count));
    hechdoram_scan_end(&scan);
    printf("kept %u\n", count);
}

static sigjmp_buf outside;

static void leave(int number) { siglongjmp(outside, number); }

static void set_timer(long microseconds) {
    struct itimerval soon;
    memset(&soon, 0, sizeof soon);
    soon.it_value.tv_usec = microseconds;
    signal(SIGALRM, leave);
    setitimer(ITIMER_REAL, &soon, NULL);
}

/* A longjmp between a question and its answer. */
static void do_leave(void) {
    if (sigsetjmp(outside, 1) == 0) {
        set_timer(100000);
        hechdoram_get(store, "k", 1, NULL, 0, NULL);
        puts("not left");
    } else puts("left");
}

/* What a look for the pair of this number answers: 1 if it is right, 0 if it is another. */
static int look(unsigned index) {
    char key[16], wanted[16], value[HECHDORAM_MAX_VALUE];
    size_t len = 0;
    snprintf(key, sizeof key, "n%04u", index);
    snprintf(wanted, sizeof wanted, "%u", index * 7919);
    int got = hechdoram_get(store, key, strlen(key), value, sizeof value, &len);
    if (got < 0) return got;
    return got == HECHDORAM_OK && len == strlen(wanted) && !memcmp(value, wanted, len);
}

static int put_named(void) {
    for (unsigned i = 0; i < NAMED; i++) {
        char key[16], value[16];
        snprintf(key, sizeof key, "n%04u", i);
        snprintf(value, sizeof value, "%u", i * 7919);
        if (hechdoram_put(store, key, strlen(key), value, strlen(value)) != HECHDORAM_OK) return 0;
    }
    return hechdoram_keep(store, NULL) == HECHDORAM_OK;
}

/* Calls that a signal leaves between question and answer: no later answer is that of another request. */
static void do_interrupts(void) {
    static volatile unsigned round, left, asked;
    unsigned count = (unsigned)atol(words[1]);
    hechdoram_options options;
    memset(&options, 0, sizeof options);
    options.program = program;
    HOLDS(put_named());
    for (round = 0; round < count; round++) {
        if (!store) HOLDS(hechdoram_open(the_folder, &options, &store) == HECHDORAM_OK);
        if (sigsetjmp(outside, 1) == 0) {
            set_timer(100 + round * 37 % 2000);
            for (;;) HOLDS(look(asked++ % NAMED) == 1);
        }
        signal(SIGALRM, SIG_IGN);
        int got = look(round % NAMED);
        HOLDS(got == 1 || got == HECHDORAM_ENDED);
        if (got == 1) continue;
        HOLDS(look(1) == HECHDORAM_ENDED && hechdoram_keep(store, NULL) == HECHDORAM_ENDED);
        HOLDS(hechdoram_close(&store) == HECHDORAM_ENDED);
        left++;
        hechdoram_abandon(&store);
        HOLDS(!store && look(1) == HECHDORAM_ENDED);
    }
    if (!store) HOLDS(hechdoram_open(the_folder, &options, &store) == HECHDORAM_OK);
    HOLDS(left > count / 10);
    puts("right");
}

typedef struct asker { unsigned first, count, wrong; int is_locked; } asker;

static pthread_mutex_t turns = PTHREAD_MUTEX_INITIALIZER;

static void *ask_many(void *of) {
    asker *one = (asker *)of;
    for (unsigned i = 0; i < one->count; i++) {
        if (one->is_locked) pthread_mutex_lock(&turns);
        int got = look((one->first + i) % NAMED);
        if (one->is_locked) pthread_mutex_unlock(&turns);
        if (got != 1 && (got != HECHDORAM_BUSY || one->is_locked)) one->wrong++;
    }
    return NULL;
}

/* Four threads over one store, with a lock of their own and then without: no answer is that of another
 * request. */
static void do_threads(void) {
    static asker askers[THREADS];
    pthread_t threads[THREADS];
    HOLDS(put_named());
    for (int is_locked = 1; is_locked >= 0; is_locked--) {
        for (unsigned i = 0; i < THREADS; i++) {
            askers[i].first = i * NAMED / THREADS, askers[i].count = (unsigned)atol(words[1]);
            askers[i].wrong = 0, askers[i].is_locked = is_locked;
            HOLDS(!pthread_create(threads + i, NULL, ask_many, askers + i));
        }
        for (unsigned i = 0; i < THREADS; i++) HOLDS(!pthread_join(threads[i], NULL) && askers[i].wrong == 0);
    }
    puts("right");
}

/* ---- The table's words */

/* Calls that nobody should make. */
static int is_refused_misuse(void) {
    hechdoram *none = NULL;
    hechdoram_scan *scan = NULL;
    hechdoram_pair pair;
    if (hechdoram_open(NULL, NULL, &none) != HECHDORAM_MISUSE || hechdoram_open("x", NULL, NULL) != HECHDORAM_MISUSE) return 0;
    if (hechdoram_close(NULL) != HECHDORAM_OK || hechdoram_close(&none) != HECHDORAM_OK) return 0;
    hechdoram_abandon(NULL), hechdoram_abandon(&none), hechdoram_scan_end(NULL), hechdoram_scan_end(&scan);
    if (hechdoram_scan_next(NULL, &pair) != HECHDORAM_MISUSE || hechdoram_stats(NULL, NULL) != HECHDORAM_MISUSE) return 0;
    if (hechdoram_put(NULL, "k", 1, NULL, 3) != HECHDORAM_MISUSE || hechdoram_put(NULL, "k", 1, "v", 1) != HECHDORAM_ENDED) return 0;
    if (hechdoram_get(NULL, "k", 1, NULL, 1, NULL) != HECHDORAM_MISUSE || hechdoram_below(NULL, NULL, 1, &pair) != HECHDORAM_MISUSE) return 0;
    for (int answer = -30; answer < 5; answer++)
        if (!hechdoram_error_text(answer)[0]) return 0;
    return 1;
}

static void answer(const char *name) {
    if (!strcmp(name, "open")) do_open(hechdoram_open);
    else if (!strcmp(name, "topen")) do_open(hechdoram_open_tables);
    else if (!strcmp(name, "tables")) do_tables();
    else if (!strcmp(name, "create")) do_name(hechdoram_create_table);
    else if (!strcmp(name, "drop")) do_name(hechdoram_drop_table);
    else if (!strcmp(name, "tput")) do_tput();
    else if (!strcmp(name, "tget")) do_tget();
    else if (!strcmp(name, "tdel")) do_tdel();
    else if (!strcmp(name, "tcount")) do_tcount();
    else if (!strcmp(name, "tscan")) do_tscan(0);
    else if (!strcmp(name, "tnext")) do_tscan(1);
    else if (!strcmp(name, "tbatch")) do_tbatch();
    else if (!strcmp(name, "tmany")) do_tmany();
    else if (!strcmp(name, "kill")) do_kill();
    else if (!strcmp(name, "other") || !strcmp(name, "append")) do_other();
    else if (!strcmp(name, "read")) do_read(0);
    else if (!strcmp(name, "refresh")) do_read(1);
    else if (!strcmp(name, "put")) do_put();
    else if (!strcmp(name, "get")) do_get();
    else if (!strcmp(name, "del")) do_del();
    else if (!strcmp(name, "puts")) do_changes(hechdoram_change_many, 1);
    else if (!strcmp(name, "gets")) do_gets();
    else if (!strcmp(name, "group")) do_changes(hechdoram_group, 0);
    else if (!strcmp(name, "batch")) do_changes(hechdoram_batch, 0);
    else if (!strcmp(name, "scan")) do_scan();
    else if (!strcmp(name, "next")) do_near('>');
    else if (!strcmp(name, "prev")) do_near('=');
    else if (!strcmp(name, "below")) do_near('<');
    else if (!strcmp(name, "close")) do_close();
    else if (!strcmp(name, "abandon")) hechdoram_abandon(&store), puts("abandoned");
    else if (!strcmp(name, "fill")) do_fill();
    else if (!strcmp(name, "many")) do_many();
    else if (!strcmp(name, "leave")) do_leave();
    else if (!strcmp(name, "interrupts")) do_interrupts();
    else if (!strcmp(name, "threads")) do_threads();
    else do_numbers(name);
}

int main(int count, char **word) {
    static char line[1 << 24];
    if (count != 2 || !is_refused_misuse()) return 2;
    program = word[1];
    while (fgets(line, sizeof line, stdin)) {
        count_of_words = 0;
        for (char *at = strtok(line, " \n"); at && count_of_words < MOST; at = strtok(NULL, " \n")) words[count_of_words++] = at;
        if (count_of_words > 0) answer(words[0]);
        fflush(stdout);
    }
    hechdoram_abandon(&store);
#ifdef HAS_READER
    hechdoram_reader_close(&reader);
#endif
    return 0;
}
