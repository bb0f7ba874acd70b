/* Preloaded under a process, it asks before each call that opens, makes, changes, syncs or renames something below the folder in
 * WATCHED, or that writes to a pipe or a socket: it sends the process's number, the name in WATCHED_AS, the call and the path to the
 * socket in WATCHER, a field on each line. If that closes the connection the call is made; if it answers by a byte the call fails with
 * the fault of that number. */
#define _GNU_SOURCE
#include <dlfcn.h>
#include <errno.h>
#include <fcntl.h>
#include <limits.h>
#include <signal.h>
#include <stddef.h>
#include <stdio.h>
#include <stdlib.h>
#include <string.h>
#include <sys/socket.h>
#include <sys/stat.h>
#include <sys/un.h>
#include <unistd.h>

/* Asks before a call at a path; whether the call fails. If nobody listens any more the process goes on. Signals wait: their handlers can
 * write, and so would ask too. (sendto is not among the calls below.) */
static int asked(const char *call, const char *path) {
    const char *watcher = getenv("WATCHER"), *as = getenv("WATCHED_AS");
    struct sockaddr_un place = {.sun_family = AF_UNIX};
    unsigned char fault = 0;
    char text[3 * PATH_MAX];
    sigset_t all, others;
    int before = errno, fd = watcher && as ? socket(AF_UNIX, SOCK_STREAM | SOCK_CLOEXEC, 0) : -1;
    if (fd < 0) return 0;
    snprintf(place.sun_path, sizeof place.sun_path, "%s", watcher);
    snprintf(text, sizeof text, "%d\n%s\n%s\n%s\n", getpid(), as, call, path);
    sigfillset(&all);
    sigprocmask(SIG_BLOCK, &all, &others);
    if (connect(fd, (struct sockaddr *)&place, sizeof place) == 0 && sendto(fd, text, strlen(text), MSG_NOSIGNAL, NULL, 0) > 0)
        while (recv(fd, &fault, 1, 0) < 0 && errno == EINTR);
    close(fd);
    sigprocmask(SIG_SETMASK, &others, NULL);
    errno = fault ? fault : before;
    return fault;
}

/* Asks before a call at a path, if that is below the watched folder. A path that is not absolute is below `folder`, and one below that of a
 * descriptor is below its file. The path of a descriptor alone is "". */
static int ask(const char *call, int folder, const char *path) {
    const char *below = getenv("WATCHED");
    char link[40] = "/proc/self/cwd", found[PATH_MAX] = "", whole[2 * PATH_MAX];
    int before = errno, used = 0;
    if (!below || !path) return 0;
    if (sscanf(path, "/proc/self/fd/%d%n", &folder, &used) == 1) path += used + (path[used] == '/');
    if (used || path[0] != '/') {
        if (folder != AT_FDCWD) snprintf(link, sizeof link, "/proc/self/fd/%d", folder);
        if (readlink(link, found, sizeof found - 1) < 0) found[0] = 0;
    }
    errno = before;
    snprintf(whole, sizeof whole, "%s%s%s", found, found[0] && path[0] ? "/" : "", path);
    return strncmp(whole, below, strlen(below)) == 0 && strchr("/", whole[strlen(below)]) ? asked(call, whole) : 0;
}

/* Asks before a write to a file below the watched folder, or to a pipe or a socket, except to standard error. */
static int ask_of(const char *call, int fd) {
    struct stat found;
    int before = errno, is_file = fstat(fd, &found) < 0 || !(S_ISFIFO(found.st_mode) || S_ISSOCK(found.st_mode));
    errno = before;
    if (is_file) return ask(call, fd, "");
    return fd == 2 ? 0 : asked("send", fd == 1 ? "shown" : S_ISFIFO(found.st_mode) ? "pipe" : "socket");
}

static int ask_to_bind(const struct sockaddr_un *place, size_t length) {
    char path[sizeof *place + 1] = "";
    if (place->sun_family == AF_UNIX && length > offsetof(struct sockaddr_un, sun_path))
        memcpy(path, place->sun_path, length - offsetof(struct sockaddr_un, sun_path));
    return path[0] ? ask("make", AT_FDCWD, path) : 0;
}

/* A function in place of the one of this name, which it calls unless the answer to the question is a fault. Whatever its parameters are, on
 * x86-64 numbers and pointers are passed as these are; it is named for the assembler alone, since headers declare it otherwise. */
#define ASKING(name, question) \
    long asking_##name(long a, long b, long c, long d, long e) __asm__(#name); \
    long asking_##name(long a, long b, long c, long d, long e) { \
        static long (*next)(long, long, long, long, long); \
        if (!next) next = (__typeof__(next))dlsym(RTLD_NEXT, #name); \
        return question ? -1 : next(a, b, c, d, e); \
    }

#define OF_FILE(name, call) ASKING(name, ask_of(call, (int)a))
#define OF_PATH(name, call) ASKING(name, ask(call, AT_FDCWD, (const char *)a))
#define BELOW_FOLDER(name, call) ASKING(name, ask(call, (int)a, (const char *)b))
#define HOW(flags) ((flags) & (O_ACCMODE | O_CREAT | O_TRUNC) ? "open" : "look")  /* the flags are parameter b, or c after a folder */

OF_PATH(open, HOW(b)) OF_PATH(open64, HOW(b))
BELOW_FOLDER(openat, HOW(c)) BELOW_FOLDER(openat64, HOW(c))
ASKING(bind, ask_to_bind((const struct sockaddr_un *)b, (socklen_t)c))
ASKING(symlink, ask("link", AT_FDCWD, (const char *)b))
OF_FILE(write, "write")
OF_FILE(send, "write")
OF_FILE(pwrite, "write") OF_FILE(pwrite64, "write")
OF_FILE(ftruncate, "truncate") OF_FILE(ftruncate64, "truncate")
OF_FILE(fsync, "sync") OF_FILE(fdatasync, "sync")
OF_PATH(truncate, "truncate") OF_PATH(truncate64, "truncate")
OF_FILE(fchmod, "chmod") OF_PATH(chmod, "chmod") BELOW_FOLDER(fchmodat, "chmod")
OF_PATH(mkdir, "make") BELOW_FOLDER(mkdirat, "make")
OF_PATH(unlink, "unlink") BELOW_FOLDER(unlinkat, "unlink") OF_PATH(rmdir, "unlink")
OF_PATH(rename, "rename") BELOW_FOLDER(renameat, "rename")
OF_PATH(link, "link") BELOW_FOLDER(linkat, "link")
