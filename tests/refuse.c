/* Preloaded under a program, it refuses the allocation whose number is in REFUSE, or fails the call of a file whose number is in FAIL,
 * and then makes the file REACHED. If WITHIN names a file, only allocations while that file is open count, each time from 1 on; and of
 * TURNS times one after the other, only those at the time with the number TURN, from 0 on. It takes as many bytes of standard output as
 * OUTPUT says, of standard error as ERRORS says, and then fails each write there. Descriptors up to 2 are not files. */
#define _GNU_SOURCE
#include <dlfcn.h>
#include <errno.h>
#include <fcntl.h>
#include <stdarg.h>
#include <stdlib.h>
#include <string.h>
#include <sys/stat.h>
#include <sys/syscall.h>
#include <unistd.h>

static int marked = -1;
/* How many allocations, and calls of files, are left up to the one that fails; below 0, that is not known. */
static long left_of_memory = -1, left_of_calls = -1;

static long number(const char *name, long none) {
    const char *text = getenv(name);
    return text ? atol(text) : none;
}

/* Whether this call is the one whose number a variable has; `left` counts those up to it. */
static int is_the_one(const char *name, long *left) {
    if (*left < 0) *left = number(name, 0);
    return *left > 0 && --*left == 0 && syscall(SYS_close, syscall(SYS_open, getenv("REACHED"), O_CREAT | O_WRONLY, 0600)) == 0;
}

static int is_refused(void) {
    return (marked >= 0 || !getenv("WITHIN")) && is_the_one("REFUSE", &left_of_memory);
}

/* Whether this call of a file is the one that fails. */
static int fails(int file) {
    if (file <= 2 || !is_the_one("FAIL", &left_of_calls)) return 0;
    errno = EIO;
    return 1;
}

/* The function that this one is called in place of, as `next`. */
#define NEXT(name) \
    static __typeof__(&name) next; \
    if (!next) next = (__typeof__(&name))dlsym(RTLD_NEXT, #name)

/* Each opening counts: it has no descriptor yet. */
int open(const char *path, int flags, ...) {
    va_list more;
    va_start(more, flags);
    int mode = va_arg(more, int);
    va_end(more);
    NEXT(open);
    const char *within = getenv("WITHIN");
    int file = fails(3) ? -1 : next(path, flags, mode);
    if (within && !strcmp(path, within)) {
        static long times;
        marked = file;
        left_of_memory = times++ % number("TURNS", 1) == number("TURN", 0) ? -1 : 0;
    }
    return file;
}

int close(int file) {
    NEXT(close);
    if (file == marked) marked = -1;
    return next(file);
}

/* A call that gives `none` where it fails, and is passed on otherwise. */
#define CALL(type, name, parameters, is_failing, none, ...) \
    type name parameters { \
        NEXT(name); \
        return is_failing ? none : next(__VA_ARGS__); \
    }
CALL(void *, malloc, (size_t size), is_refused(), NULL, size)
CALL(void *, realloc, (void *old, size_t size), is_refused(), NULL, old, size)
CALL(int, statx, (int folder, const char *restrict path, int flags, unsigned int mask, struct statx *restrict found),
     fails(folder == AT_FDCWD ? 3 : folder), -1, folder, path, flags, mask, found)
CALL(ssize_t, read, (int file, void *bytes, size_t length), fails(file), -1, file, bytes, length)
CALL(ssize_t, pread, (int file, void *bytes, size_t length, off_t place), fails(file), -1, file, bytes, length, place)
CALL(ssize_t, pwrite, (int file, const void *bytes, size_t length, off_t place), fails(file), -1, file, bytes, length, place)
CALL(int, fsync, (int file), fails(file), -1, file)
CALL(int, fdatasync, (int file), fails(file), -1, file)
CALL(int, ftruncate, (int file, off_t length), fails(file), -1, file, length)

ssize_t write(int file, const void *bytes, size_t length) {
    static long left[3] = {0, -1, -1};
    NEXT(write);
    if (file != 1 && file != 2) return fails(file) ? -1 : next(file, bytes, length);
    if (left[file] < 0) left[file] = number(file == 1 ? "OUTPUT" : "ERRORS", 1L << 40);
    if (left[file] == 0) {
        errno = EPIPE;
        return -1;
    }
    ssize_t taken = next(file, bytes, length < (size_t)left[file] ? length : (size_t)left[file]);
    if (taken > 0) left[file] -= taken;
    return taken;
}
