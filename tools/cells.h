/* Cells that outlive a program: they stand in a file, however the program ends. */
#include <fcntl.h>
#include <sys/mman.h>
#include <unistd.h>

/* Cells of this size in the file of this name; those that are handed in if there is no such file. */
static void *cells_in(const char *name, size_t size, void *unseen)
{
    int file = name ? open(name, O_RDWR | O_CREAT, 0600) : -1;
    void *cells = MAP_FAILED;
    if (file >= 0 && ftruncate(file, (off_t)size) == 0)
        cells = mmap(NULL, size, PROT_READ | PROT_WRITE, MAP_SHARED, file, 0);
    return cells == MAP_FAILED ? unseen : cells;
}
