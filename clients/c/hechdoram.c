/* The store of hechdoram.h, held by a child process `bwlog serve`: one line is asked, and one line
 * is the answer.
 *
 * With hechdoram_scan.c, which walks, and hechdoram_tables.c, which asks tables, it is the whole
 * client. It needs nothing but Linux and a C11 compiler. */
#define _GNU_SOURCE
#include "parts.h"

#include <fcntl.h>
#include <poll.h>
#include <signal.h>
#include <spawn.h>
#include <stdatomic.h>
#include <stdbool.h>
#include <stdio.h>
#include <stdlib.h>
#include <sys/socket.h>
#include <sys/wait.h>
#include <unistd.h>

extern char **environ;

enum {
    MAX_RECORDS = 4,        /* of one step */
    MAX_KEYS = 64,          /* of one line, or pairs */
    MAX_LINE = 4096,        /* of a request */
    MAX_ANSWER = 1 << 21,   /* 1,024 pairs in hex have fewer bytes; of tables 1 MiB of pairs */
    MAX_TABLE_ANSWER = 1 << 26, /* and one more */
    MAX_SAID = 2048,
    ROOM = 1 << 16          /* what is read at once, and what a store has from its opening on */
};

/* ---- Texts */

static const char LEFT[] = "a call has no answer: it was left before that was read, or goes on";
static const char LONG_GROUP[] =
    "a group has one to four records, in a line of at most 4096 bytes";
static const char LONG_KEY[] = "a key has 1 to 128 bytes";
static const char LONG_VALUE[] = "a value has 0 to 512 bytes";

const char *hechdoram_error_text(int answer) {
    switch (answer) {
    case HECHDORAM_REFUSED: return "the store refused the request";
    case HECHDORAM_FULL: return "the log is full";
    case HECHDORAM_FAILED: return "a file of the store could not be read or written";
    case HECHDORAM_ENDED: return "no further request is answered";
    case HECHDORAM_TOO_LONG: return "a key, a value or a group is too long, or a key is empty";
    case HECHDORAM_NO_TABLE: return "no table has this name";
    case HECHDORAM_TABLE_EXISTS: return "a table has this name already";
    case HECHDORAM_BUSY: return "a call of another thread goes on";
    case HECHDORAM_IN_USE: return "the folder is in use";
    case HECHDORAM_MISUSE: return "a pointer is null, or what it points to is closed";
    default: return bw_read_error(answer);
    }
}

/* ---- The child */

/* Bytes that grow. */
typedef struct text { char *bytes; size_t len, room; } text;

struct hechdoram {
    int input, output, errors; /* -1 once nothing is asked any more */
    pid_t child;               /* 0 once it was waited for */
    int status;
    int ended;                 /* what each call answers then */
    char why[MAX_SAID];        /* and says */
    char said[MAX_SAID];
    text requests;             /* what is sent next */
    bool is_short;             /* memory for more of it was refused */
    bool has_tables;           /* tables are served */
    text unread;               /* what was read: `taken` bytes of it were answers, and after them */
    size_t taken, looked;      /* so many have no end of a line */
    atomic_uintptr_t asking;   /* the thread whose call goes on, from before it writes on */
};

/* Each thread has an address of its own here. */
static _Thread_local char here;

int bw_say(hechdoram *s, int answer, const char *words) {
    snprintf(s->said, sizeof s->said, "%s", words);
    return answer;
}

const char *hechdoram_said(const hechdoram *s) { return s ? s->said : "the store was closed"; }

/* Begins a call. */
int bw_begin(hechdoram *s) {
    uintptr_t other = 0, me = (uintptr_t)&here;
    if (!s) return HECHDORAM_ENDED;
    if (!atomic_compare_exchange_strong(&s->asking, &other, me))
        return other == me ? bw_say(s, HECHDORAM_ENDED, LEFT) : HECHDORAM_BUSY;
    s->requests.len = 0;
    s->is_short = false;
    if (s->input >= 0) return HECHDORAM_OK;
    bw_say(s, s->ended, s->why);
    atomic_store(&s->asking, 0);
    return s->ended;
}

/* Ends a call by this answer. */
int bw_done(hechdoram *s, int answer) {
    atomic_store(&s->asking, 0);
    return answer;
}

static void wait_for(hechdoram *s) {
    while (s->child > 0 && waitpid(s->child, &s->status, 0) < 0 && errno == EINTR) continue;
    s->child = 0;
}

/* Closes the pipes: nothing is asked any more, and this is why. */
static int lose(hechdoram *s, int answer, const char *why) {
    if (s->input >= 0) close(s->input), close(s->output), close(s->errors);
    s->input = s->output = s->errors = -1;
    s->ended = answer;
    snprintf(s->why, sizeof s->why, "%s", why);
    return bw_say(s, answer, why);
}

/* What a child that ends has written on its standard error. */
static void last_words(hechdoram *s, char *words, size_t room) {
    size_t len = 0;
    while (len + 1 < room) {
        ssize_t got = read(s->errors, words + len, room - 1 - len);
        if (got < 0 && errno == EINTR) continue;
        if (got <= 0) break;
        len += (size_t)got;
    }
    while (len > 0 && (words[len - 1] == '\n' || words[len - 1] == ' ')) len--;
    words[len] = 0;
}

/* What the words of a program that ended come to. */
static int end_by(const char *words) {
    static const char in_use[] = ": in use", *const damaged[] = {": damaged: ", ": missing: ",
                                                                ": bad bytes: ", " is missing, "};
    const char *found = strstr(words, in_use);
    if (found && (found[sizeof in_use - 1] == 0 || found[sizeof in_use - 1] == '\n'))
        return HECHDORAM_IN_USE;
    for (size_t i = 0; i < sizeof damaged / sizeof *damaged; i++)
        if (strstr(words, damaged[i])) return HECHDORAM_DAMAGED;
    if (!strncmp(words, "refused E1", 10) && words[10] >= '2' && words[10] <= '7')
        return HECHDORAM_DAMAGED;
    return HECHDORAM_ENDED;
}

/* Ends a store whose child has ended: it says why, if not by its words then by its status. */
static int has_ended(hechdoram *s, const char *answer) {
    char words[MAX_SAID];
    last_words(s, words, sizeof words);
    if (!words[0]) snprintf(words, sizeof words, "%s", answer);
    if (words[0]) return lose(s, end_by(words), words);
    lose(s, HECHDORAM_ENDED, "");
    wait_for(s);
    snprintf(words, sizeof words, "bwlog ended with status %d",
             WIFEXITED(s->status) ? WEXITSTATUS(s->status) : -WTERMSIG(s->status));
    return lose(s, HECHDORAM_ENDED, words);
}

/* An answer that is none to its request. */
static int no_answer(hechdoram *s, const char *line) {
    char why[300];
    snprintf(why, sizeof why, "no answer to a request: %.200s", line);
    return lose(s, HECHDORAM_ENDED, why);
}

/* ---- Requests */

/* Room for so many bytes more. */
static bool grow(text *t, size_t more) {
    if (t->len + more <= t->room) return true;
    size_t room = 2 * (t->len + more);
    char *bytes = (char *)realloc(t->bytes, room);
    if (!bytes) return false;
    t->bytes = bytes;
    t->room = room;
    return true;
}

void bw_add(hechdoram *s, const char *bytes, size_t len) {
    if (s->is_short || !grow(&s->requests, len)) {
        s->is_short = true;
        return;
    }
    memcpy(s->requests.bytes + s->requests.len, bytes, len);
    s->requests.len += len;
}

void bw_add_text(hechdoram *s, const char *words) { bw_add(s, words, strlen(words)); }

/* Whether a word is its own bytes: printable, and not taken for hex. */
static bool is_plain(const unsigned char *bytes, size_t len) {
    if (len == 0 || (len > 1 && bytes[0] == '0' && bytes[1] == 'x')) return false;
    for (size_t i = 0; i < len; i++)
        if (bytes[i] < '!' || bytes[i] > '~') return false;
    return true;
}

/* Adds a blank and the word of these bytes. */
void bw_add_word(hechdoram *s, const void *from, size_t len) {
    static const char digits[] = "0123456789abcdef";
    const unsigned char *bytes = (const unsigned char *)from;
    char hex[2 * MAX_VALUE];
    bw_add(s, " ", 1);
    if (is_plain(bytes, len)) {
        bw_add(s, (const char *)bytes, len);
        return;
    }
    bw_add(s, "0x", 2);
    for (size_t at = 0; at < len;) {
        size_t count = 0;
        for (; count < MAX_VALUE && at < len; count++, at++) {
            hex[2 * count] = digits[bytes[at] >> 4];
            hex[2 * count + 1] = digits[bytes[at] & 15];
        }
        bw_add(s, hex, 2 * count);
    }
}

static void add_change(hechdoram *s, const hechdoram_change *change) {
    bw_add_text(s, change->value ? "put" : "del");
    bw_add_word(s, change->key, change->key_len);
    if (change->value) bw_add_word(s, change->value, change->value_len);
}

/* A line of keys or pairs, if it was begun: how many it has, and where it begins. Before it stand
 * others, with it so many. */
typedef struct listed { size_t count, begin, lines; } listed;

static void end_line(hechdoram *s, listed *all) {
    if (all->count > 0) bw_add(s, "\n", 1);
    all->count = 0;
}

/* Adds a key, and a value if it is not null, to a line of this name, or to a new one if that is
 * full. */
static void add_listed(hechdoram *s, listed *all, const char *name, const hechdoram_change *one) {
    size_t before = s->requests.len;
    for (;;) {
        if (all->count == 0) {
            all->begin = s->requests.len;
            all->lines++;
            bw_add_text(s, name);
        }
        bw_add_word(s, one->key, one->key_len);
        if (one->value) bw_add_word(s, one->value, one->value_len);
        if (all->count == 0 || s->requests.len - all->begin <= MAX_LINE) break;
        s->requests.len = before;
        end_line(s, all);
    }
    if (++all->count == MAX_KEYS) end_line(s, all);
}

static bool is_key(size_t len) { return 0 < len && len <= MAX_KEY; }

/* Looks at changes before any is sent. A deletion of what can be no key is nothing. */
static int check(hechdoram *s, const hechdoram_change *changes, size_t count) {
    const char *misuse = hechdoram_error_text(HECHDORAM_MISUSE);
    if (!changes && count > 0) return bw_say(s, HECHDORAM_MISUSE, misuse);
    for (size_t i = 0; i < count; i++) {
        const hechdoram_change *one = changes + i;
        if (!one->key && one->key_len > 0) return bw_say(s, HECHDORAM_MISUSE, misuse);
        if (!one->value) continue;
        if (!is_key(one->key_len)) return bw_say(s, HECHDORAM_TOO_LONG, LONG_KEY);
        if (one->value_len > MAX_VALUE) return bw_say(s, HECHDORAM_TOO_LONG, LONG_VALUE);
    }
    return HECHDORAM_OK;
}

/* ---- Answers */

/* Sends some of the requests: as many as the child can take at once. */
static bool write_some(hechdoram *s, size_t *sent) {
    while (*sent < s->requests.len) {
        ssize_t wrote = send(s->input, s->requests.bytes + *sent, s->requests.len - *sent,
                             MSG_DONTWAIT | MSG_NOSIGNAL);
        if (wrote < 0 && errno == EINTR) continue;
        if (wrote < 0) return errno == EAGAIN || errno == EWOULDBLOCK;
        *sent += (size_t)wrote;
    }
    return true;
}

/* The next answer, ended by a 0 in its place; null if none is whole. */
static char *take_line(hechdoram *s) {
    char *line = s->unread.bytes + s->taken;
    size_t len = s->unread.len - s->taken;
    char *end = (char *)memchr(line + s->looked, '\n', len - s->looked);
    s->looked = end ? 0 : len;
    if (!end) return NULL;
    *end = 0;
    s->taken += (size_t)(end + 1 - line);
    return line;
}

/* Whether an answer is text. */
static bool is_text(const char *line) {
    for (; *line; line++)
        if (*line < ' ' || *line > '~') return false;
    return true;
}

/* Reads some bytes of answers after what is left of those before. */
static int read_some(hechdoram *s) {
    s->unread.len -= s->taken;
    if (s->taken > 0) memmove(s->unread.bytes, s->unread.bytes + s->taken, s->unread.len);
    s->taken = 0;
    if (s->unread.len > (size_t)(s->has_tables ? MAX_TABLE_ANSWER : MAX_ANSWER))
        return lose(s, HECHDORAM_ENDED, "an answer that is no line");
    if (!grow(&s->unread, ROOM)) return lose(s, HECHDORAM_ENDED, "out of memory for an answer");
    ssize_t got = read(s->output, s->unread.bytes + s->unread.len, ROOM);
    if (got < 0 && errno == EINTR) return HECHDORAM_OK;
    if (got <= 0) return has_ended(s, "");
    s->unread.len += (size_t)got;
    return HECHDORAM_OK;
}

/* Waits until there is something to read, and sends meanwhile. */
static int turn(hechdoram *s, size_t *sent) {
    if (*sent < s->requests.len) {
        struct pollfd fds[2] = {{s->output, POLLIN, 0}, {s->input, POLLOUT, 0}};
        if (poll(fds, 2, -1) < 0)
            return errno == EINTR ? HECHDORAM_OK : lose(s, HECHDORAM_ENDED, "poll failed");
        /* If the child has ended, who reads the answers finds their end. */
        if (fds[1].revents && !write_some(s, sent)) *sent = s->requests.len;
        if (!fds[0].revents) return HECHDORAM_OK;
    }
    return read_some(s);
}

/* What a line refuses; HECHDORAM_OK if it is an answer. */
static int refusal(const char *line) {
    static const struct { const char *begin; int answer; } kinds[] = {
        {"refused E2 ", HECHDORAM_FULL},   {"refused E5 ", HECHDORAM_FULL},
        {"refused E6 ", HECHDORAM_FAILED}, {"refused E7 ", HECHDORAM_FAILED},
        {"refused E21 ", HECHDORAM_NO_TABLE}, {"refused E22 ", HECHDORAM_TABLE_EXISTS},
        {"refused ", HECHDORAM_REFUSED},   {"fault ", HECHDORAM_REFUSED}};
    for (size_t i = 0; i < sizeof kinds / sizeof *kinds; i++)
        if (!strncmp(line, kinds[i].begin, strlen(kinds[i].begin))) return kinds[i].answer;
    return HECHDORAM_OK;
}

/* Sends the requests, and reads so many answers meanwhile: neither way fills up for good. All are
 * read, whatever is refused; the first refusal is what is answered. */
static int exchange(hechdoram *s, size_t count, on_answer *answer, void *to) {
    size_t sent = 0;
    int first = HECHDORAM_OK;
    if (s->is_short) return bw_say(s, HECHDORAM_NO_MEMORY, hechdoram_error_text(HECHDORAM_NO_MEMORY));
    if (!write_some(s, &sent)) sent = s->requests.len;
    for (size_t index = 0; index < count;) {
        char *line = take_line(s);
        if (!line) {
            int got = turn(s, &sent);
            if (got != HECHDORAM_OK) return got;
            continue;
        }
        if (!is_text(line)) return lose(s, HECHDORAM_ENDED, "an answer that is no line");
        int refused = refusal(line);
        if (refused != HECHDORAM_OK) {
            if (first == HECHDORAM_OK) first = bw_say(s, refused, line);
        } else if (!answer(to, index, line)) return no_answer(s, line);
        index++;
    }
    if (s->taken < s->unread.len)
        return lose(s, HECHDORAM_ENDED, "an answer that nobody asked for");
    return first;
}

/* One request, which is in place but for its end. */
int bw_ask(hechdoram *s, on_answer *answer, void *to) {
    bw_add(s, "\n", 1);
    return exchange(s, 1, answer, to);
}

/* A call of one request that is a word. */
static int ask_word(hechdoram *s, const char *word, on_answer *answer, void *to) {
    int got = bw_begin(s);
    if (got != HECHDORAM_OK) return got;
    bw_add_text(s, word);
    return bw_done(s, bw_ask(s, answer, to));
}

/* The bytes of a word between two places; false if it is none, or longer than the room. */
bool bw_read_word(const char *word, const char *end, uint8_t *bytes, size_t room, size_t *len) {
    size_t digits = (size_t)(end - word);
    if (digits < 2 || word[0] != '0' || word[1] != 'x') {
        *len = digits;
        if (digits == 0 || digits > room) return false;
        memcpy(bytes, word, digits);
        return true;
    }
    *len = (digits - 2) / 2;
    if (digits % 2 != 0 || *len > room) return false;
    for (size_t i = 0; i < *len; i++) {
        unsigned byte = 0;
        for (int half = 0; half < 2; half++) {
            char c = word[2 + 2 * i + (size_t)half];
            bool is_letter = c >= 'a' && c <= 'f';
            if (!is_letter && (c < '0' || c > '9')) return false;
            byte = 16 * byte + (unsigned)(is_letter ? c - 'a' + 10 : c - '0');
        }
        bytes[i] = (uint8_t)byte;
    }
    return true;
}

/* The pair of a text `k=v`. */
static bool read_pair(const char *words, const char *end, hechdoram_pair *pair) {
    const char *middle = (const char *)memchr(words, '=', (size_t)(end - words));
    return middle && bw_read_word(words, middle, pair->key, MAX_KEY, &pair->key_len) &&
           bw_read_word(middle + 1, end, pair->value, MAX_VALUE, &pair->value_len);
}

bool bw_is_ok(void *to, size_t index, char *line) {
    (void)to, (void)index;
    return !strcmp(line, "ok");
}

static bool is_value(void *to, size_t index, char *line) {
    hechdoram_value *value = (hechdoram_value *)to;
    (void)index;
    value->is_found = strcmp(line, "none") != 0;
    if (!value->is_found) return true;
    return !strncmp(line, "value ", 6) &&
           bw_read_word(line + 6, line + strlen(line), value->bytes, MAX_VALUE, &value->len);
}

/* A pair that may be there. */
typedef struct looked { hechdoram_pair *pair; bool is_found; } looked;

static bool is_pair(void *to, size_t index, char *line) {
    looked *found = (looked *)to;
    (void)index;
    found->is_found = strcmp(line, "none") != 0;
    if (!found->is_found) return true;
    return !strncmp(line, "pair ", 5) && read_pair(line + 5, line + strlen(line), found->pair);
}

/* The number after a word of an answer. */
bool bw_number(const char *line, const char *name, uint64_t *found) {
    size_t len = strlen(name);
    for (const char *at = line; (at = strstr(at, name)) != NULL; at += len) {
        char *end = NULL;
        if ((at != line && at[-1] != ' ') || at[len] != ' ') continue;
        if (at[len + 1] < '0' || at[len + 1] > '9') return false;
        *found = strtoull(at + len + 1, &end, 10);
        return *end == 0 || *end == ' ';
    }
    return false;
}

/* Up to three numbers of an answer, by their names. */
typedef struct numbers { const char *names[3], *none; uint64_t found[3]; } numbers;

static bool are_numbers(void *to, size_t index, char *line) {
    numbers *all = (numbers *)to;
    (void)index;
    if (all->none && !strcmp(line, all->none)) return true;
    for (int i = 0; i < 3 && all->names[i]; i++)
        if (!bw_number(line, all->names[i], &all->found[i])) return false;
    return true;
}

/* ---- Opening and closing */

/* Whether the first answer, `ready frame N protocol 1`, maybe with more after it, is of the
 * protocol that is spoken here; `behind` is that then. */
static bool is_greeted(const char *line, const char **behind) {
    unsigned protocol = 0;
    int len = 0;
    if (sscanf(line, "ready frame %*s protocol %u%n", &protocol, &len) != 1) return false;
    *behind = line + len;
    return protocol == 1;
}

/* Whether a word stands there. */
static bool has_word(const char *line, const char *word) {
    size_t len = strlen(word);
    for (const char *at = line; (at = strstr(at, word)) != NULL; at += len)
        if (at != line && at[-1] == ' ' && (at[len] == 0 || at[len] == ' ')) return true;
    return false;
}

/* Notes the first answer. */
static bool is_first(void *to, size_t index, char *line) {
    (void)index;
    snprintf((char *)to, MAX_SAID, "%s", line);
    return true;
}

/* Reads the first answer. */
static int greet(hechdoram *s) {
    char line[MAX_SAID] = "", why[MAX_SAID + 32];
    const char *behind = line;
    s->requests.len = 0;
    int got = exchange(s, 1, is_first, line);
    if (s->input < 0) return got;
    if (got != HECHDORAM_OK) {
        snprintf(line, sizeof line, "%s", s->said);
        return has_ended(s, line);
    }
    bool is_known = is_greeted(line, &behind);
    if (is_known && (!s->has_tables || has_word(behind, "tables"))) return HECHDORAM_OK;
    snprintf(why, sizeof why, "no %s: %s", is_known ? "tables" : "protocol 1", line);
    return lose(s, HECHDORAM_ENDED, why);
}

/* The words of the program. */
typedef struct words { char *word[17]; char numbers[6][40]; char *folder; } words;

static bool words_of(words *w, const char *folder, const hechdoram_options *options,
                     bool has_tables) {
    static const char *const names[6] = {"capacity", "segments", "most-segments",
                                         "m",        "frame",    "places"};
    static char serve[] = "serve", tables[] = "--tables";
    const hechdoram_options none = {NULL, 0, 0, 0, 0, 0, 0}, *o = options ? options : &none;
    const unsigned given[6] = {o->capacity, o->segments, o->most_segments,
                               o->m,        o->frame,    o->places};
    size_t count = 3, room = strlen(folder) + 8;
    w->folder = (char *)malloc(room);
    if (!w->folder) return false;
    snprintf(w->folder, room, "--dir=%s", folder);
    w->word[1] = serve;
    w->word[2] = w->folder;
    if (has_tables) w->word[count++] = tables;
    for (int i = 0; i < 6; i++) {
        if (given[i] == 0) continue;
        snprintf(w->numbers[i], sizeof w->numbers[i], "--%s=%u", names[i], given[i]);
        w->word[count++] = w->numbers[i];
    }
    w->word[count] = NULL;
    return true;
}

/* Begins the program with these ends for its three files; an error of the system. */
static int spawn(hechdoram *s, const char *program, words *w, const int ends[3]) {
    posix_spawn_file_actions_t files;
    posix_spawnattr_t how;
    sigset_t pipe_only;
    if (posix_spawn_file_actions_init(&files) != 0) return ENOMEM;
    if (posix_spawnattr_init(&how) != 0) return posix_spawn_file_actions_destroy(&files), ENOMEM;
    int fault = 0;
    for (int i = 0; i < 3 && !fault; i++)
        fault = posix_spawn_file_actions_adddup2(&files, ends[i], i);
    sigemptyset(&pipe_only);
    sigaddset(&pipe_only, SIGPIPE);
    if (!fault) fault = posix_spawnattr_setsigdefault(&how, &pipe_only);
    if (!fault) fault = posix_spawnattr_setflags(&how, POSIX_SPAWN_SETSIGDEF);
    if (!fault) fault = posix_spawnp(&s->child, program, &files, &how, w->word, environ);
    if (fault) s->child = 0;
    posix_spawn_file_actions_destroy(&files);
    posix_spawnattr_destroy(&how);
    return fault;
}

/* A file by a number above those of the child's three. */
static int above(int file) {
    if (file < 0 || file > 2) return file;
    int other = fcntl(file, F_DUPFD_CLOEXEC, 3);
    close(file);
    return other;
}

/* Makes the ways to and from the child, and begins it; an error of the system. */
static int begin_child(hechdoram *s, const char *program, words *w) {
    int in[2] = {-1, -1}, out[2] = {-1, -1}, errors[2] = {-1, -1};
    int fault = socketpair(AF_UNIX, SOCK_STREAM | SOCK_CLOEXEC, 0, in) || pipe2(out, O_CLOEXEC) ||
                        pipe2(errors, O_CLOEXEC)
                    ? errno
                    : 0;
    const int theirs[3] = {above(in[1]), above(out[1]), above(errors[1])};
    const int mine[3] = {in[0], out[0], errors[0]};
    if (!fault && (theirs[0] < 0 || theirs[1] < 0 || theirs[2] < 0)) fault = EMFILE;
    if (!fault) fault = spawn(s, program, w, theirs);
    for (int i = 0; i < 3; i++) {
        if (theirs[i] >= 0) close(theirs[i]);
        if (mine[i] >= 0 && fault) close(mine[i]);
    }
    if (!fault) s->input = mine[0], s->output = mine[1], s->errors = mine[2];
    return fault;
}

static hechdoram *new_store(void) {
    hechdoram *s = (hechdoram *)calloc(1, sizeof *s);
    if (!s) return NULL;
    s->input = s->output = s->errors = -1;
    s->ended = HECHDORAM_ENDED;
    if (grow(&s->requests, ROOM) && grow(&s->unread, ROOM)) return s;
    hechdoram_abandon(&s);
    return NULL;
}

static int open_store(const char *folder, const hechdoram_options *options, bool has_tables,
                      hechdoram **store) {
    words w;
    if (store) *store = NULL;
    if (!folder || !store) return HECHDORAM_MISUSE;
    const char *program = options && options->program ? options->program : "bwlog";
    char *name = strdup(program);
    hechdoram *s = new_store();
    if (!name || !s || !words_of(&w, folder, options, has_tables)) {
        free(name);
        hechdoram_abandon(&s);
        return HECHDORAM_NO_MEMORY;
    }
    w.word[0] = name;
    s->has_tables = has_tables;
    int fault = begin_child(s, program, &w);
    free(name);
    free(w.folder);
    *store = s;
    if (!fault) return greet(s);
    lose(s, HECHDORAM_SYSTEM, strerror(fault));
    errno = fault;
    return HECHDORAM_SYSTEM;
}

int hechdoram_open(const char *folder, const hechdoram_options *options, hechdoram **store) {
    return open_store(folder, options, false, store);
}

int hechdoram_open_tables(const char *folder, const hechdoram_options *options,
                          hechdoram **store) {
    return open_store(folder, options, true, store);
}

void hechdoram_abandon(hechdoram **store) {
    hechdoram *s = store ? *store : NULL;
    if (!s) return;
    *store = NULL;
    lose(s, HECHDORAM_ENDED, "the store was closed");
    wait_for(s);
    free(s->requests.bytes);
    free(s->unread.bytes);
    free(s);
}

static bool is_bye(void *to, size_t index, char *line) {
    (void)to, (void)index;
    return !strcmp(line, "bye");
}

int hechdoram_close(hechdoram **store) {
    if (!store || !*store) return HECHDORAM_OK;
    int got = hechdoram_keep(*store, NULL);
    if (got == HECHDORAM_OK) got = ask_word(*store, "quit", is_bye, NULL);
    if (got == HECHDORAM_OK) hechdoram_abandon(store);
    return got;
}

/* ---- Changes */

/* Makes one change. */
static int change(hechdoram *s, const hechdoram_change *one) {
    int got = bw_begin(s);
    if (got != HECHDORAM_OK) return got;
    got = check(s, one, 1);
    if (got != HECHDORAM_OK || !is_key(one->key_len)) return bw_done(s, got);
    add_change(s, one);
    return bw_done(s, bw_ask(s, bw_is_ok, NULL));
}

int hechdoram_put(hechdoram *s, const void *key, size_t key_len, const void *value,
                  size_t value_len) {
    hechdoram_change one = {key, key_len, value, value_len};
    if (!value && value_len == 0) one.value = "";
    if (!one.value) return HECHDORAM_MISUSE;
    return change(s, &one);
}

int hechdoram_delete(hechdoram *s, const void *key, size_t key_len) {
    const hechdoram_change one = {key, key_len, NULL, 0};
    return change(s, &one);
}

int hechdoram_change_many(hechdoram *s, const hechdoram_change *changes, size_t count) {
    listed all = {0, 0, 0};
    size_t deleted = 0;
    int got = bw_begin(s);
    if (got != HECHDORAM_OK) return got;
    got = check(s, changes, count);
    for (size_t i = 0; got == HECHDORAM_OK && i < count; i++) {
        if (!is_key(changes[i].key_len)) continue;
        if (changes[i].value) {
            add_listed(s, &all, "puts", changes + i);
            continue;
        }
        end_line(s, &all);
        add_change(s, changes + i);
        bw_add(s, "\n", 1);
        deleted++;
    }
    end_line(s, &all);
    if (got == HECHDORAM_OK) got = exchange(s, all.lines + deleted, bw_is_ok, NULL);
    return bw_done(s, got);
}

/* Begins a line with as many of these changes as one step takes; how many, with those that are
 * nothing. */
static size_t add_group(hechdoram *s, const hechdoram_change *changes, size_t count) {
    size_t i = 0, records = 0;
    s->requests.len = 0;
    bw_add_text(s, "group");
    for (; i < count && records < MAX_RECORDS; i++) {
        size_t before = s->requests.len;
        if (!is_key(changes[i].key_len)) continue;
        bw_add(s, " ", 1);
        add_change(s, changes + i);
        if (s->requests.len > MAX_LINE) {
            s->requests.len = before;
            break;
        }
        records++;
    }
    while (i < count && !is_key(changes[i].key_len)) i++;
    if (records == 0) s->requests.len = 0;
    return i;
}

int hechdoram_group(hechdoram *s, const hechdoram_change *changes, size_t count) {
    int got = bw_begin(s);
    if (got != HECHDORAM_OK) return got;
    got = check(s, changes, count);
    if (got == HECHDORAM_OK && add_group(s, changes, count) < count)
        got = bw_say(s, HECHDORAM_TOO_LONG, LONG_GROUP);
    if (got == HECHDORAM_OK && s->requests.len > 0) got = bw_ask(s, bw_is_ok, NULL);
    return bw_done(s, got);
}

int hechdoram_batch(hechdoram *s, const hechdoram_change *changes, size_t count) {
    int got = bw_begin(s);
    if (got != HECHDORAM_OK) return got;
    got = check(s, changes, count);
    while (got == HECHDORAM_OK && count > 0) {
        size_t taken = add_group(s, changes, count);
        if (s->requests.len > 0) got = bw_ask(s, bw_is_ok, NULL);
        changes += taken;
        count -= taken;
    }
    return bw_done(s, got);
}

/* ---- Look-ups */

int hechdoram_get(hechdoram *s, const void *key, size_t key_len, void *value, size_t room,
                  size_t *value_len) {
    hechdoram_value found;
    if ((!value && room > 0) || (!key && key_len > 0)) return HECHDORAM_MISUSE;
    int got = bw_begin(s);
    if (got != HECHDORAM_OK) return got;
    if (!is_key(key_len)) return bw_done(s, HECHDORAM_NOT_FOUND);
    bw_add_text(s, "get");
    bw_add_word(s, key, key_len);
    got = bw_done(s, bw_ask(s, is_value, &found));
    if (got != HECHDORAM_OK) return got;
    if (!found.is_found) return HECHDORAM_NOT_FOUND;
    if (room > 0) memcpy(value, found.bytes, found.len < room ? found.len : room);
    if (value_len) *value_len = found.len;
    return HECHDORAM_OK;
}

/* The values that answers fill in. What is asked next begins at `asked`, and is of the key `at`, or
 * of the first after it that can be one. So many answers were met. */
typedef struct wanted {
    const char *asked;
    const hechdoram_key *keys;
    hechdoram_value *values;
    size_t at, answers;
} wanted;

/* The place for the value of the next key of a request; null after its last one. */
static hechdoram_value *next_wanted(wanted *all) {
    while (*all->asked != ' ' && *all->asked != '\n') all->asked++;
    if (*all->asked++ == '\n') return NULL;
    while (!is_key(all->keys[all->at].len)) all->at++;
    return all->values + all->at++;
}

/* Reads `values W W ..`: a word for each key, or `=`. */
static bool are_values(void *to, size_t index, char *line) {
    wanted *all = (wanted *)to;
    hechdoram_value *value;
    for (; all->answers < index; all->answers++)
        while (next_wanted(all)) continue; /* it was refused */
    all->answers++;
    if (strncmp(line, "values", 6) != 0) return false;
    line += 6;
    while ((value = next_wanted(all)) != NULL) {
        if (*line++ != ' ') return false;
        char *end = strchrnul(line, ' ');
        value->is_found = end != line + 1 || *line != '=';
        if (value->is_found && !bw_read_word(line, end, value->bytes, MAX_VALUE, &value->len))
            return false;
        line = end;
    }
    return *line == 0;
}

int hechdoram_get_many(hechdoram *s, const hechdoram_key *keys, size_t count,
                       hechdoram_value *values) {
    wanted all = {NULL, keys, values, 0, 0};
    listed asked = {0, 0, 0};
    int got = bw_begin(s);
    if (got != HECHDORAM_OK) return got;
    if (count > 0 && (!keys || !values)) return bw_done(s, HECHDORAM_MISUSE);
    for (size_t i = 0; i < count; i++) {
        const hechdoram_change one = {keys[i].bytes, keys[i].len, NULL, 0};
        if (!one.key && one.key_len > 0) return bw_done(s, HECHDORAM_MISUSE);
        values[i].is_found = 0;
        values[i].len = 0;
        if (is_key(one.key_len)) add_listed(s, &asked, "gets", &one);
    }
    end_line(s, &asked);
    all.asked = s->requests.bytes;
    return bw_done(s, exchange(s, asked.lines, are_values, &all));
}

/* ---- Keys in order */

/* The pair next to a key of a store. */
static int store_nearest(const void *of, int kind, const void *key, size_t key_len,
                         hechdoram_pair *pair) {
    static const uint8_t none[1] = {0};
    hechdoram *s = (hechdoram *)of;
    looked found = {pair, false};
    uint8_t greatest[MAX_KEY];
    int got = bw_begin(s);
    if (got != HECHDORAM_OK) return got;
    memset(greatest, 0xff, sizeof greatest);
    bw_add_text(s, kind == '>' ? "next" : key_len > 0 ? "below" : "prev");
    if (key_len > 0) bw_add_word(s, key ? key : none, key_len);
    else bw_add_word(s, greatest, MAX_KEY);
    got = bw_done(s, bw_ask(s, is_pair, &found));
    return got == HECHDORAM_OK && !found.is_found ? HECHDORAM_NOT_FOUND : got;
}

int hechdoram_at_or_above(hechdoram *s, const void *key, size_t key_len, hechdoram_pair *pair) {
    return hechdoram_find(store_nearest, s, '>', key, key_len, pair);
}

int hechdoram_at_or_below(hechdoram *s, const void *key, size_t key_len, hechdoram_pair *pair) {
    return hechdoram_find(store_nearest, s, '=', key, key_len, pair);
}

int hechdoram_below(hechdoram *s, const void *key, size_t key_len, hechdoram_pair *pair) {
    return hechdoram_find(store_nearest, s, '<', key, key_len, pair);
}

/* Room for pairs that are asked for at once, and how many were answered. */
typedef struct many { hechdoram_pair *pairs; size_t room, count; } many;

static bool are_pairs(void *to, size_t index, char *line) {
    many *all = (many *)to;
    uint64_t count = 0;
    (void)index;
    if (strncmp(line, "pairs ", 6) || !bw_number(line, "pairs", &count)) return false;
    if (count > all->room) return false;
    const char *at = strchr(line + 6, ' ');
    for (all->count = 0; all->count < count; all->count++) {
        if (!at) return false;
        const char *end = strchr(at + 1, ' ');
        if (!read_pair(at + 1, end ? end : at + strlen(at), all->pairs + all->count)) return false;
        at = end;
    }
    return at == NULL;
}

/* The first pairs of a store at or above a key. */
static int store_many(const void *of, const void *key, size_t key_len, hechdoram_pair *pairs,
                      size_t room, size_t *count) {
    hechdoram *s = (hechdoram *)of;
    many all = {pairs, room, 0};
    char most[24];
    int got = bw_begin(s);
    if (got != HECHDORAM_OK) return got;
    bw_add_text(s, "scan");
    bw_add_word(s, key, key_len);
    snprintf(most, sizeof most, " %zu", room);
    bw_add_text(s, most);
    got = bw_done(s, bw_ask(s, are_pairs, &all));
    *count = all.count;
    return got;
}

int hechdoram_scan_begin(hechdoram *s, const hechdoram_range *range, hechdoram_scan **scan) {
    int got = bw_begin(s); /* a store that is closed, or busy, says so here */
    if (scan) *scan = NULL;
    if (got != HECHDORAM_OK) return got;
    return bw_done(s, bw_scan_over(store_nearest, store_many, s, range, scan));
}

/* ---- The store itself */

/* A call of one request whose answer has numbers. */
static int ask_numbers(hechdoram *s, const char *word, numbers *all, uint64_t *const to[3]) {
    int got = ask_word(s, word, are_numbers, all);
    for (int i = 0; got == HECHDORAM_OK && i < 3; i++)
        if (to[i]) *to[i] = all->found[i];
    return got;
}

int hechdoram_count(hechdoram *s, uint64_t *count) {
    numbers all = {{"count", NULL, NULL}, NULL, {0, 0, 0}};
    uint64_t *const to[3] = {count, NULL, NULL};
    return ask_numbers(s, "count", &all, to);
}

int hechdoram_keep(hechdoram *s, uint64_t *frame) {
    numbers all = {{"frame", NULL, NULL}, "no frame", {0, 0, 0}};
    uint64_t *const to[3] = {frame, NULL, NULL};
    return ask_numbers(s, "flush", &all, to);
}

int hechdoram_reopen(hechdoram *s, uint64_t *frame, uint64_t *lost) {
    numbers all = {{"frame", "lost", NULL}, NULL, {0, 0, 0}};
    uint64_t *const to[3] = {frame, lost, NULL};
    return ask_numbers(s, "reopen", &all, to);
}

int hechdoram_clean(hechdoram *s, uint64_t *won) {
    numbers all = {{"won", NULL, NULL}, NULL, {0, 0, 0}};
    uint64_t *const to[3] = {won, NULL, NULL};
    return ask_numbers(s, "clean", &all, to);
}

int hechdoram_add(hechdoram *s, uint64_t *segment) {
    numbers all = {{"added", NULL, NULL}, NULL, {0, 0, 0}};
    uint64_t *const to[3] = {segment, NULL, NULL};
    return ask_numbers(s, "add", &all, to);
}

static bool are_stats(void *to, size_t index, char *line) {
    hechdoram_numbers *n = (hechdoram_numbers *)to;
    (void)index;
    n->failed = strstr(line, " failed") != NULL;
    return bw_number(line, "history", &n->history) && bw_number(line, "durable", &n->durable) &&
           bw_number(line, "segments", &n->segments) && bw_number(line, "spares", &n->spares) &&
           bw_number(line, "pages", &n->pages);
}

int hechdoram_stats(hechdoram *s, hechdoram_numbers *found) {
    if (!found) return HECHDORAM_MISUSE;
    return ask_word(s, "stats", are_stats, found);
}

int hechdoram_backup(hechdoram *s, const char *to, hechdoram_copied *copied) {
    numbers all = {{"frame", "pages", "pairs"}, NULL, {0, 0, 0}};
    if (!to || strlen(to) > MAX_VALUE) return HECHDORAM_MISUSE;
    int got = bw_begin(s);
    if (got != HECHDORAM_OK) return got;
    bw_add_text(s, "backup");
    bw_add_word(s, to, strlen(to));
    got = bw_done(s, bw_ask(s, are_numbers, &all));
    if (got == HECHDORAM_OK && copied)
        *copied = (hechdoram_copied){all.found[0], all.found[1], all.found[2]};
    return got;
}
