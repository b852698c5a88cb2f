/* Puts a pair into the store of a folder and keeps it, and prints all pairs whose key begins with a
 * prefix.
 *
 * cc -O2 -o example example.c $(pkg-config --cflags --libs hechdoram), then
 * ./example FOLDER KEY VALUE [PREFIX]. The program bwlog has to be on PATH. */
#include <hechdoram.h>
#include <stdio.h>

static int list(hechdoram *store, const char *prefix) {
    hechdoram_range range = {0};
    hechdoram_scan *scan;
    hechdoram_pair pair;
    range.prefix = prefix;
    range.prefix_len = strlen(prefix);
    int got = hechdoram_scan_begin(store, &range, &scan);
    if (got != HECHDORAM_OK) return got;
    while ((got = hechdoram_scan_next(scan, &pair)) == HECHDORAM_OK)
        printf("%.*s\t%.*s\n", (int)pair.key_len, (const char *)pair.key, (int)pair.value_len,
               (const char *)pair.value);
    hechdoram_scan_end(&scan);
    return got == HECHDORAM_NOT_FOUND ? HECHDORAM_OK : got;
}

int main(int count, char **words) {
    hechdoram *store = NULL;
    if (count < 4) return 2;
    int got = hechdoram_open(words[1], NULL, &store);
    if (got == HECHDORAM_OK)
        got = hechdoram_put(store, words[2], strlen(words[2]), words[3], strlen(words[3]));
    if (got == HECHDORAM_FAILED) /* as by a full disk, which may have room again */
        got = hechdoram_reopen(store, NULL, NULL);
    if (got == HECHDORAM_OK) got = list(store, count > 4 ? words[4] : "");
    if (got == HECHDORAM_OK) got = hechdoram_close(&store);
    if (got != HECHDORAM_OK)
        fprintf(stderr, "%s: %s\n", hechdoram_error_text(got), hechdoram_said(store));
    hechdoram_abandon(&store);
    return got == HECHDORAM_OK ? 0 : 1;
}
