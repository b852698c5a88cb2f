/* Prints the pairs of a folder whose key begins with a prefix.
 *
 * cc -O2 -o list list.c $(pkg-config --cflags --libs hechdoram_read), then
 * ./list FOLDER [PREFIX] */
#include <hechdoram_read.h>
#include <stdio.h>

int main(int count, char **words) {
    const char *prefix = count > 2 ? words[2] : "";
    bw_reader reader = BW_CLOSED_READER;
    bw_pair pair;
    int got = bw_read_open(count > 1 ? words[1] : ".", &reader);
    if (got != BW_OK) {
        fprintf(stderr, "%s\n", got == BW_IO ? strerror(errno) : bw_read_error(got));
        return 1;
    }
    got = bw_read_first_of(&reader, prefix, strlen(prefix), &pair);
    for (; got == BW_OK; got = bw_read_next_of(&reader, prefix, strlen(prefix), &pair))
        printf("%.*s\t%.*s\n", (int)pair.key_len, (const char *)pair.key, (int)pair.value_len,
               (const char *)pair.value);
    bw_read_close(&reader);
    return 0;
}
