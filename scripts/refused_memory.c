/* Allocation for a program that loads this library before the others (LD_PRELOAD). It refuses request number REFUSE of the environment,
 * counted from 1. It does not open the file that REFUSE_OPEN names there, also for want of memory. */
#include <errno.h>
#include <stdarg.h>
#include <stddef.h>
#include <stdlib.h>
#include <string.h>

extern void *__libc_malloc(size_t);
extern void *__libc_realloc(void *, size_t);
extern int __open(const char *, int, ...);

static int refuses(void) {
    static long count;
    const char *number = getenv("REFUSE");
    count += 1;
    if (number == NULL || count != strtol(number, NULL, 10)) {
        return 0;
    }
    errno = ENOMEM;
    return 1;
}

void *malloc(size_t size) { return refuses() ? NULL : __libc_malloc(size); }

void *realloc(void *old, size_t size) { return refuses() ? NULL : __libc_realloc(old, size); }

int open(const char *path, int flags, ...) {
    const char *refused = getenv("REFUSE_OPEN");
    if (refused != NULL && strcmp(path, refused) == 0) {
        errno = ENOMEM;
        return -1;
    }
    va_list rest;
    va_start(rest, flags);
    int mode = va_arg(rest, int);
    va_end(rest);
    return __open(path, flags, mode);
}
