/* Answers questions about a folder, a line each: what tests/program/reading.py compares with a map. C11 and C++14.
 *
 *   ask FOLDER      get HEX, at HEX, below HEX, walk HEX, count: value HEX, pair HEX HEX, none, end, count N
 *
 * A folder that is refused is told as `refused N`. First it calls everything as nobody should. */
#include <hechdoram_read.h>
#include <stdio.h>
#include <stdlib.h>

static int digit(int c) { return c <= '9' ? c - '0' : c - 'a' + 10; }

/* The bytes of a word in hex, of which there may be more than a key has. */
static size_t bytes_of(const char *word, uint8_t *bytes, size_t room) {
    size_t len = 0;
    for (; word[0] && word[1] && word[0] != '\n' && len < room; word += 2)
        bytes[len++] = (uint8_t)(digit(word[0]) * 16 + digit(word[1]));
    return len;
}

static void tell(const uint8_t *bytes, size_t len) {
    putchar(' ');
    for (size_t i = 0; i < len; i++) printf("%02x", bytes[i]);
}

static void tell_pair(int got, const bw_pair *pair) {
    if (got != BW_OK) {
        printf(got == BW_NOT_FOUND ? "none\n" : "answer %d\n", got);
        return;
    }
    printf("pair");
    tell(pair->key, pair->key_len);
    tell(pair->value, pair->value_len);
    putchar('\n');
}

static void get(bw_reader *reader, const uint8_t *key, size_t len) {
    uint8_t value[BW_MAX_VALUE], some[3] = {0, 0, 7};
    size_t value_len = 0, other = 0;
    int got = bw_read_get(reader, key, len, value, sizeof value, &value_len);
    if (got != bw_read_get(reader, key, len, some, 2, &other) || other != value_len || some[2] != 7) abort();
    if (got == BW_OK && memcmp(some, value, value_len < 2 ? value_len : 2) != 0) abort();
    if (got != bw_read_get(reader, key, len, NULL, 0, NULL)) abort();
    if (got == BW_OK) {
        printf("value");
        tell(value, value_len);
        putchar('\n');
    } else printf(got == BW_NOT_FOUND ? "none\n" : "answer %d\n", got);
}

static void walk(bw_reader *reader, const uint8_t *prefix, size_t len) {
    bw_pair pair;
    int got = bw_read_first_of(reader, prefix, len, &pair);
    for (; got == BW_OK; got = bw_read_next_of(reader, prefix, len, &pair)) tell_pair(got, &pair);
    puts("end");
}

static void misuse(void) {
    bw_reader closed = BW_CLOSED_READER;
    bw_pair pair;
    pair.key_len = 0;
    bw_read_close(&closed);
    bw_read_close(NULL);
    if (bw_read_open(NULL, &closed) != BW_MISUSE || bw_read_open(".", NULL) != BW_MISUSE) abort();
    if (bw_read_get(&closed, "k", 1, NULL, 0, NULL) != BW_MISUSE || bw_read_at(&closed, "k", 1, &pair) != BW_MISUSE) abort();
    if (bw_read_first(&closed, &pair) != BW_MISUSE || bw_read_next(NULL, &pair) != BW_MISUSE) abort();
    if (bw_read_first_of(&closed, "", 0, &pair) != BW_MISUSE || bw_read_count(&closed) != 0) abort();
    if (bw_read_below(&closed, "k", 1, &pair) != BW_MISUSE || bw_read_below(NULL, "", 0, &pair) != BW_MISUSE) abort();
    for (int answer = -30; answer < 5; answer++) if (!bw_read_error(answer)[0]) abort();
}

static void misuse_open(const char *folder, bw_reader *reader) {
    bw_pair pair;
    pair.key_len = 0;
    if (bw_read_open(folder, reader) != BW_MISUSE || bw_read_next(reader, &pair) != BW_BAD_LENGTH) abort();
    if (bw_read_get(reader, NULL, 0, NULL, 0, NULL) != BW_MISUSE || bw_read_get(reader, "k", 1, NULL, 1, NULL) != BW_MISUSE) abort();
    if (bw_read_at(reader, "", 0, &pair) != BW_BAD_LENGTH || bw_read_at(reader, "k", 1, NULL) != BW_MISUSE) abort();
    if (bw_read_below(reader, NULL, 1, &pair) != BW_MISUSE || bw_read_below(reader, "k", BW_MAX_KEY + 1, &pair) != BW_BAD_LENGTH) abort();
}

static void answer(bw_reader *reader, const char *line) {
    static uint8_t bytes[1024];
    const char *word = strchr(line, ' ');
    size_t len = word ? bytes_of(word + 1, bytes, sizeof bytes) : 0;
    bw_pair pair;
    if (line[0] == 'g') get(reader, bytes, len);
    else if (line[0] == 'a') tell_pair(bw_read_at(reader, bytes, len, &pair), &pair);
    else if (line[0] == 'b') tell_pair(bw_read_below(reader, bytes, len, &pair), &pair);
    else if (line[0] == 'w') walk(reader, bytes, len);
    else printf("count %llu\n", (unsigned long long)bw_read_count(reader));
}

int main(int count, char **words) {
    static char line[4096];
    bw_reader reader = BW_CLOSED_READER;
    if (count < 2) return 2;
    misuse();
    int got = bw_read_open(words[1], &reader);
    if (got != BW_OK) {
        printf("refused %d\n", got);
        return reader.at ? 4 : 3;
    }
    misuse_open(words[1], &reader);
    while (fgets(line, sizeof line, stdin)) answer(&reader, line);
    bw_read_close(&reader);
    bw_read_close(&reader);
    return 0;
}
