/* What the shims before the system's calls share: the call that a name stands for, and the mode of a file that may be made. */
#define REAL(kind, name, ...) \
    static kind (*real)(__VA_ARGS__); \
    if (!real) \
        real = (kind (*)(__VA_ARGS__))dlsym(RTLD_NEXT, name)

/* The mode that stands after the flags if a file may be made. */
#define MODE(mode, flags) \
    va_list more; \
    va_start(more, flags); \
    mode_t mode = ((flags) & O_CREAT) ? (mode_t)va_arg(more, int) : 0; \
    va_end(more)
