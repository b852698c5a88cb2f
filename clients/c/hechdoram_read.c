/* The library's part in C: it reads the files of a folder, and looks pairs up in memory of its own.
 *
 * What the bytes of the files say is for the part in Rattle to say, crates/bw_reading: it checks
 * them, finds the pairs, writes them into one run of memory here, and searches there. `make lib`
 * makes one library of both. */
#define _DEFAULT_SOURCE
#define _FILE_OFFSET_BITS 64
#include <hechdoram_read.h>

#include <dirent.h>
#include <fcntl.h>
#include <limits.h>
#include <stdbool.h>
#include <stdio.h>
#include <stdlib.h>
#include <sys/file.h>
#include <sys/stat.h>
#include <unistd.h>

/* The calls of crates/bw_reading. No pointer may be null, not even if its length is 0. */

/* The pairs of the segments whose bytes, and the sums beside them, follow each other; of
 * each segment `parts` has two lengths, of its bytes and of its sums. Writes to the image as much
 * as there is room for, and says how many bytes it has and how many pairs. */
int32_t bw_pairs_in(const uint8_t *bytes, size_t bytes_len, const uint8_t *sums, size_t sums_len,
                    const uint64_t *parts, size_t parts_len, uint8_t *image, size_t image_len,
                    uint64_t *needed, uint64_t *count);
/* The number of the segment whose header these bytes begin with; 0 of none. */
uint64_t bw_number_in(const uint8_t *bytes, size_t bytes_len);
/* Where each pair of an image begins. */
void bw_index_of(const uint8_t *image, size_t image_len, uint64_t *starts, size_t starts_len);
/* How many pairs have a key below this one. */
size_t bw_first_at(const uint8_t *image, size_t image_len, const uint64_t *starts,
                   size_t starts_len, const uint8_t *key, size_t key_len);

/* No file of a segment is longer, and no lease has a greater number. A header has so many bytes. A
 * folder that somebody writes is read so often at most. */
enum { MAX_FILE = 1 << 30, MAX_LEASES = 4096, HEADER = 24, TRIES = 10 };

/* Not an answer: what was read of a folder that somebody writes is not of one moment. */
enum { MOVED = 2 };

/* A run of bytes; what it points to is never null once it was made. */
typedef struct run { uint8_t *bytes; size_t len; } run;

/* The files of a folder: the bytes of all segments, those of all sums, and two lengths of each. */
typedef struct files { run bytes, sums; uint64_t *parts; size_t count; } files;

/* What was read of a folder: in the image, of each pair in the order of keys, the key's length, the
 * value's in two bytes, the lower first, the key and the value; and where each begins. */
typedef struct held { run image; uint64_t *starts; size_t count; } held;

/* Memory for so many things, and one at least. */
static void *room_for(size_t count, size_t size) {
    return count > SIZE_MAX / 2 / size ? NULL : malloc((count ? count : 1) * size);
}

/* What is said of a call that the system refused. */
static int refusal(int32_t *reason) {
    if (errno == ENOMEM) return BW_NO_MEMORY;
    if (errno == ENOENT) return BW_NO_STORE;
    *reason = errno;
    return BW_IO;
}

/* ---- files */

/* Opens a file of the folder to be read; BW_NOT_FOUND if it is not there. What has its name and
 * is no plain file is not opened. */
static int open_plain(int dir, const char *name, int *fd, int32_t *reason) {
    struct stat about;
    if (fstatat(dir, name, &about, AT_SYMLINK_NOFOLLOW) != 0)
        return errno == ENOENT ? BW_NOT_FOUND : refusal(reason);
    if (!S_ISREG(about.st_mode)) return BW_DAMAGED;
    *fd = openat(dir, name, O_RDONLY | O_CLOEXEC | O_NOFOLLOW | O_NONBLOCK);
    if (*fd >= 0) return BW_OK;
    return errno == ENOENT ? BW_NOT_FOUND : refusal(reason);
}

/* Takes the lock of the folder beside other readers, if it has the file for it. */
static int lock(int dir, int *fd, int32_t *reason) {
    int answer = open_plain(dir, "lock", fd, reason);
    if (answer == BW_NOT_FOUND) return BW_OK;
    if (answer != BW_OK) return answer;
    while (flock(*fd, LOCK_SH | LOCK_NB) != 0) {
        if (errno == EWOULDBLOCK) return BW_IN_USE;
        if (errno != EINTR) return refusal(reason);
    }
    return BW_OK;
}

/* Reads so many bytes of a file, which go after those of a run. */
static int read_whole(int fd, size_t len, run *into, int32_t *reason) {
    if (len == 0) return BW_OK;
    uint8_t *bytes = (uint8_t *)realloc(into->bytes, into->len + len);
    if (!bytes) return BW_NO_MEMORY;
    into->bytes = bytes;
    for (size_t end = into->len + len; into->len < end;) {
        ssize_t n = read(fd, bytes + into->len, end - into->len);
        if (n < 0 && errno == EINTR) continue;
        if (n < 0) return refusal(reason);
        if (n == 0) return BW_IO; /* it is shorter than it was */
        into->len += (size_t)n;
    }
    return BW_OK;
}

/* Adds the bytes of a file to a run, and says how many: none if it is not there. Of sums no more are
 * read than a segment may have bytes; a segment that is longer is none. */
static int add_file(int dir, const char *name, bool is_sums, run *into, uint64_t *len,
                    int32_t *reason) {
    struct stat about;
    int fd = -1, answer = open_plain(dir, name, &fd, reason);
    *len = 0;
    if (answer == BW_NOT_FOUND) return BW_OK;
    if (answer != BW_OK) return answer;
    if (fstat(fd, &about) != 0) answer = refusal(reason);
    else if (about.st_size > MAX_FILE && !is_sums) answer = BW_DAMAGED;
    else {
        *len = (uint64_t)(about.st_size > MAX_FILE ? MAX_FILE : about.st_size);
        answer = read_whole(fd, (size_t)*len, into, reason);
    }
    close(fd);
    return answer;
}

/* The number of the lease whose file, or whose file of sums, has this name; -1 of another. Sums
 * without their file say that it was lost. */
static int lease_of(const char *name) {
    int number = 0;
    if (strncmp(name, "segment-", 8) != 0 || strlen(name) < 15) return -1;
    if (strcmp(name + 12, ".bw") != 0 && strcmp(name + 12, ".sum") != 0) return -1;
    for (int at = 8; at < 12; at++) {
        if (name[at] < '0' || name[at] > '9') return -1;
        number = 10 * number + (name[at] - '0');
    }
    return number < MAX_LEASES ? number : -1;
}

/* Says of each lease whether it has a file, or only sums. */
static int list(int dir, bool *has_file, int32_t *reason) {
    int fd = openat(dir, ".", O_RDONLY | O_CLOEXEC | O_DIRECTORY);
    if (fd < 0) return refusal(reason);
    DIR *names = fdopendir(fd);
    if (!names) { /* it is a folder: so there was no memory */
        close(fd);
        return BW_NO_MEMORY;
    }
    struct dirent *entry;
    while (errno = 0, (entry = readdir(names)) != NULL) {
        int lease = lease_of(entry->d_name);
        if (lease >= 0) has_file[lease] = true;
    }
    int answer = errno ? refusal(reason) : BW_OK;
    closedir(names);
    return answer;
}

/* Adds the two files of a lease, the sums first: they follow the bytes, so none of them is ahead of
 * what is read then, also if somebody writes. */
static int add_lease(int dir, int lease, files *all, int32_t *reason) {
    char name[32];
    uint64_t *parts = all->parts + 2 * all->count;
    snprintf(name, sizeof name, "segment-%04d.sum", lease);
    int answer = add_file(dir, name, true, &all->sums, &parts[1], reason);
    if (answer != BW_OK) return answer;
    snprintf(name, sizeof name, "segment-%04d.bw", lease);
    answer = add_file(dir, name, false, &all->bytes, &parts[0], reason);
    all->count++;
    return answer;
}

/* Files of a folder of which nothing was read yet. */
static int begin_files(files *all) {
    all->bytes.bytes = (uint8_t *)room_for(1, 1);
    all->sums.bytes = (uint8_t *)room_for(1, 1);
    all->parts = (uint64_t *)room_for(2 * MAX_LEASES, sizeof *all->parts);
    return all->bytes.bytes && all->sums.bytes && all->parts ? BW_OK : BW_NO_MEMORY;
}

/* Reads all files of a folder in which nobody writes. */
static int read_files(int dir, files *all, int32_t *reason) {
    bool has_file[MAX_LEASES] = {false};
    int answer = list(dir, has_file, reason);
    if (answer == BW_OK) answer = begin_files(all);
    for (int lease = 0; answer == BW_OK && lease < MAX_LEASES; lease++)
        if (has_file[lease]) answer = add_lease(dir, lease, all, reason);
    return answer == BW_OK && all->count == 0 ? BW_NO_STORE : answer;
}

static void free_files(files *all) {
    free(all->bytes.bytes);
    free(all->sums.bytes);
    free(all->parts);
}

/* ---- a folder that somebody writes. Why this is enough stands in docs/FORMAT.md, "A folder that
 * is read while it is written". */

/* The number of the segment in the file of a lease, by its header; 0 if it has none. */
static int number_in(int dir, int lease, uint64_t *number, int32_t *reason) {
    char name[32];
    uint8_t front[HEADER];
    int fd = -1;
    snprintf(name, sizeof name, "segment-%04d.bw", lease);
    int answer = open_plain(dir, name, &fd, reason);
    *number = 0;
    if (answer == BW_NOT_FOUND) return BW_OK;
    if (answer != BW_OK) return answer;
    ssize_t n = pread(fd, front, sizeof front, 0);
    if (n < 0) answer = refusal(reason);
    else *number = bw_number_in(front, (size_t)n);
    close(fd);
    return answer;
}

/* The number of the segment of each lease. No two have the same. */
static int look(int dir, uint64_t *numbers, int32_t *reason) {
    bool has_file[MAX_LEASES] = {false};
    int answer = list(dir, has_file, reason);
    for (int lease = 0; answer == BW_OK && lease < MAX_LEASES; lease++) {
        numbers[lease] = 0;
        if (has_file[lease]) answer = number_in(dir, lease, &numbers[lease], reason);
    }
    return answer;
}

/* The lease of the segment with the least number above this one; -1 if there is none. */
static int next_of(const uint64_t *numbers, uint64_t number) {
    int found = -1;
    for (int lease = 0; lease < MAX_LEASES; lease++)
        if (numbers[lease] > number && (found < 0 || numbers[lease] < numbers[found]))
            found = lease;
    return found;
}

/* The greatest number of all; 0 if there is no segment. MOVED if two segments have one number. */
static int newest_of(const uint64_t *numbers, uint64_t *newest) {
    size_t count = 0, ordered = 0;
    *newest = 0;
    for (int lease = 0; lease < MAX_LEASES; lease++) count += numbers[lease] != 0;
    for (int lease; (lease = next_of(numbers, *newest)) >= 0; ordered++) *newest = numbers[lease];
    return ordered == count ? BW_OK : MOVED;
}

/* Adds the files of a lease, if they have the segment that was seen there, or, if none was, one
 * that is newer than all that were. */
static int add_seen(int dir, int lease, uint64_t seen, uint64_t newest, files *all,
                    int32_t *reason) {
    size_t before = all->bytes.len;
    int answer = add_lease(dir, lease, all, reason);
    if (answer != BW_OK) return answer;
    uint64_t number = bw_number_in(all->bytes.bytes + before, all->bytes.len - before);
    bool is_allowed = seen ? number == seen : number == 0 || number > newest;
    return is_allowed ? BW_OK : MOVED;
}

/* Reads all files: those of the segments that were seen, the oldest first, but for the newest; then
 * those in which none was seen; then the newest. */
static int add_in_order(int dir, const uint64_t *numbers, files *all, int32_t *reason) {
    bool has_file[MAX_LEASES] = {false};
    uint64_t newest = 0;
    int answer = newest_of(numbers, &newest);
    if (answer == BW_OK) answer = newest ? list(dir, has_file, reason) : MOVED;
    for (int lease = next_of(numbers, 0); answer == BW_OK && numbers[lease] != newest;
         lease = next_of(numbers, numbers[lease]))
        answer = add_seen(dir, lease, numbers[lease], newest, all, reason);
    for (int lease = 0; answer == BW_OK && lease < MAX_LEASES; lease++)
        if (has_file[lease] && !numbers[lease])
            answer = add_seen(dir, lease, 0, newest, all, reason);
    if (answer != BW_OK) return answer;
    return add_seen(dir, next_of(numbers, newest - 1), newest, newest, all, reason);
}

/* Reads all files of a folder that somebody writes, as they stand. */
static int read_standing(int dir, files *all, int32_t *reason) {
    struct stat about;
    uint64_t *numbers = (uint64_t *)room_for(2 * MAX_LEASES, sizeof *numbers);
    if (!numbers) return BW_NO_MEMORY;
    uint64_t *again = numbers + MAX_LEASES;
    int answer = begin_files(all);
    if (answer == BW_OK && fstatat(dir, "unfinished", &about, AT_SYMLINK_NOFOLLOW) == 0)
        answer = MOVED; /* it is not made whole yet */
    if (answer == BW_OK) answer = look(dir, numbers, reason);
    if (answer == BW_OK) answer = look(dir, again, reason);
    if (answer == BW_OK && memcmp(numbers, again, MAX_LEASES * sizeof *numbers) != 0)
        answer = MOVED;
    if (answer == BW_OK) answer = add_in_order(dir, numbers, all, reason);
    free(numbers);
    return answer;
}

/* Reads all files of a folder, under its lock; if somebody writes it, as they stand. */
static int read_folder(int dir, files *all, bool *is_beside, int32_t *reason) {
    int locked = -1, answer = lock(dir, &locked, reason);
    *is_beside = answer == BW_IN_USE;
    if (answer == BW_OK) answer = read_files(dir, all, reason);
    else if (answer == BW_IN_USE) answer = read_standing(dir, all, reason);
    if (locked >= 0) close(locked);
    return answer;
}

/* ---- pairs */

/* Fills an image with the pairs that the files stand for. Where it has too little room it is made
 * again, with as much as is needed. */
static int fill(const files *all, held *found) {
    size_t room = all->bytes.len + 1;
    for (;;) {
        uint64_t needed = 0, count = 0;
        found->image.bytes = (uint8_t *)room_for(room, 1);
        if (!found->image.bytes) return BW_NO_MEMORY;
        int answer = (int)bw_pairs_in(all->bytes.bytes, all->bytes.len, all->sums.bytes,
                                      all->sums.len, all->parts, 2 * all->count,
                                      found->image.bytes, room, &needed, &count);
        if (answer != BW_OK) return answer;
        if (needed > SIZE_MAX / 2 || count > SIZE_MAX / 2) return BW_NO_MEMORY;
        found->image.len = (size_t)needed;
        found->count = (size_t)count;
        if (needed <= room) return BW_OK;
        free(found->image.bytes);
        room = (size_t)needed;
    }
}

/* Gives back what the image has of room that it does not need, and notes where its pairs begin. */
static int finish(held *found) {
    run *image = &found->image;
    uint8_t *less = (uint8_t *)realloc(image->bytes, image->len ? image->len : 1);
    if (less) image->bytes = less;
    found->starts = (uint64_t *)room_for(found->count, sizeof *found->starts);
    if (!found->starts) return BW_NO_MEMORY;
    bw_index_of(image->bytes, image->len, found->starts, found->count);
    return BW_OK;
}

static void free_held(held *found) {
    if (!found) return;
    free(found->image.bytes);
    free(found->starts);
    free(found);
}

/* What a folder holds, by one reading; MOVED if somebody writes it, and it is not of one moment. */
static int hold_once(int dir, held *found, int32_t *reason) {
    files all = {{NULL, 0}, {NULL, 0}, NULL, 0};
    bool is_beside = false;
    int answer = read_folder(dir, &all, &is_beside, reason);
    if (answer == BW_OK) answer = fill(&all, found);
    free_files(&all);
    if (answer == BW_OK) return finish(found);
    free(found->image.bytes);
    found->image.bytes = NULL;
    return is_beside && answer != BW_NO_MEMORY ? MOVED : answer;
}

/* What a folder holds. */
static int hold(const char *path, held *found, int32_t *reason) {
    int dir = open(path, O_RDONLY | O_CLOEXEC | O_DIRECTORY), answer = MOVED;
    if (dir < 0) return refusal(reason);
    for (int tries = 0; answer == MOVED && tries < TRIES; tries++)
        answer = hold_once(dir, found, reason);
    close(dir);
    return answer == MOVED ? BW_IN_USE : answer;
}

int32_t bw_raw_open(const uint8_t *path, size_t path_len, void **at, int32_t *reason) {
    *reason = 0;
    if (memchr(path, 0, path_len)) return BW_BAD_PATH;
    char *name = (char *)room_for(path_len + 1, 1);
    held *found = (held *)calloc(1, sizeof *found);
    int answer = BW_NO_MEMORY;
    if (name && found) {
        memcpy(name, path, path_len);
        name[path_len] = 0;
        answer = hold(name, found, reason);
    }
    free(name);
    if (answer == BW_OK) *at = found;
    else free_held(found);
    return answer;
}

/* ---- look-ups */

/* A pair in the image: it is not copied. */
typedef struct seen { const uint8_t *key, *value; size_t key_len, value_len; } seen;

/* The pair of this number, if there are so many. */
static bool pair_at(const held *all, size_t at, seen *pair) {
    if (at >= all->count) return false;
    const uint8_t *begin = all->image.bytes + all->starts[at];
    pair->key_len = begin[0];
    pair->value_len = (size_t)begin[1] + 256 * (size_t)begin[2];
    pair->key = begin + 3;
    pair->value = pair->key + pair->key_len;
    return true;
}

/* How many pairs have a key below this one. */
static size_t count_below(const held *all, const uint8_t *key, size_t key_len) {
    return bw_first_at(all->image.bytes, all->image.len, all->starts, all->count, key, key_len);
}

/* The pair with the least key at or above this one. */
static bool first_at(const bw_reader *reader, const uint8_t *key, size_t key_len, seen *pair) {
    const held *all = (const held *)reader->at;
    return pair_at(all, count_below(all, key, key_len), pair);
}

/* The pair with the greatest key below this one; of no bytes, the last of all. */
static bool last_below(const bw_reader *reader, const uint8_t *key, size_t key_len, seen *pair) {
    const held *all = (const held *)reader->at;
    size_t below = key_len == 0 ? all->count : count_below(all, key, key_len);
    return below > 0 && pair_at(all, below - 1, pair);
}

/* Copies as many bytes as there is room for, and says how many there are. */
static size_t copy(const uint8_t *bytes, size_t len, uint8_t *into, size_t room) {
    memcpy(into, bytes, len < room ? len : room);
    return len;
}

int32_t bw_raw_get(const bw_reader *reader, const uint8_t *key, size_t key_len, uint8_t *value,
                   size_t value_room, size_t *value_len) {
    seen pair;
    if (key_len == 0 || key_len > BW_MAX_KEY) return BW_BAD_LENGTH;
    if (!first_at(reader, key, key_len, &pair)) return BW_NOT_FOUND;
    if (pair.key_len != key_len || memcmp(pair.key, key, key_len) != 0) return BW_NOT_FOUND;
    *value_len = copy(pair.value, pair.value_len, value, value_room);
    return BW_OK;
}

int32_t bw_raw_at_or_above(const bw_reader *reader, const uint8_t *key, size_t key_len,
                           uint8_t *key_out, size_t key_room, size_t *key_out_len, uint8_t *value,
                           size_t value_room, size_t *value_len) {
    seen pair;
    if (key_len == 0 || key_len > BW_MAX_KEY) return BW_BAD_LENGTH;
    if (!first_at(reader, key, key_len, &pair)) return BW_NOT_FOUND;
    *key_out_len = copy(pair.key, pair.key_len, key_out, key_room);
    *value_len = copy(pair.value, pair.value_len, value, value_room);
    return BW_OK;
}

int32_t bw_raw_below(const bw_reader *reader, const uint8_t *key, size_t key_len, uint8_t *key_out,
                     size_t key_room, size_t *key_out_len, uint8_t *value, size_t value_room,
                     size_t *value_len) {
    seen pair;
    if (key_len > BW_MAX_KEY) return BW_BAD_LENGTH;
    if (!last_below(reader, key, key_len, &pair)) return BW_NOT_FOUND;
    *key_out_len = copy(pair.key, pair.key_len, key_out, key_room);
    *value_len = copy(pair.value, pair.value_len, value, value_room);
    return BW_OK;
}

uint64_t bw_raw_count(const bw_reader *reader) { return ((const held *)reader->at)->count; }

void bw_raw_close(bw_reader reader) { free_held((held *)reader.at); }
