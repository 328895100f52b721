/* What `open` and the like are given behind the flags: the mode, if they may make a file. */
#include <fcntl.h>
#include <stdarg.h>

#define MODE_OF(flags)                     \
    mode_t mode = 0;                       \
    if ((flags) & (O_CREAT | O_TMPFILE)) { \
        va_list rest;                      \
        va_start(rest, flags);             \
        mode = va_arg(rest, mode_t);       \
        va_end(rest);                      \
    }
