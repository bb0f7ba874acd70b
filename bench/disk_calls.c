/* Makes the calls of a disk's opening, and then those of records that are appended: DISK PAGES RECORDS, with the pages of a record and
 * the number of records. It judges nothing: it reads no lines, checks nothing that it reads, and writes made-up bytes. It answers each
 * record. The disk has to be formatted, with an empty journal in slot 1 if there is a record. */
#include <err.h>
#include <fcntl.h>
#include <libgen.h>
#include <stdint.h>
#include <stdio.h>
#include <stdlib.h>
#include <string.h>
#include <unistd.h>

enum { SET_UP = 4096, SLOT_1 = 69632, SLOT_2 = 594176, SLOT_HEAD = 9, PAYLOAD = 262391 };
enum { JOURNAL = 332032, JOURNAL_LENGTH = 262144, PAGE = 256 };

static void expect(int holds, const char *what) {
    if (!holds)
        err(1, "%s", what);
}

static void read_at(int file, void *to, size_t n, off_t at) {
    expect(pread(file, to, n, at) == (ssize_t)n, "pread");
}

static void settle(int file, int folder) {
    expect(fsync(file) == 0, "fsync");
    expect(posix_fadvise(file, 0, 0, POSIX_FADV_DONTNEED) == 0, "posix_fadvise");
    expect(fsync(folder) == 0, "fsync");
}

/* Opens the file, with an empty one beside it that comes and goes. */
static int open_file(char *path) {
    char beside[4096];
    snprintf(beside, sizeof beside, "%s-wal", path);
    int file = open(path, O_RDWR | O_CLOEXEC), log = open(beside, O_RDWR | O_CREAT | O_EXCL | O_CLOEXEC, 0600);
    int folder = open(dirname(path), O_RDONLY | O_CLOEXEC);
    expect(file >= 0 && log >= 0 && folder >= 0, beside);
    settle(log, folder);
    settle(file, folder);
    close(folder);
    close(log);
    expect(unlink(beside) == 0, "unlink");
    return file;
}

/* The sync and the reads of an opening. */
static void open_disk(int file) {
    static uint8_t bytes[JOURNAL_LENGTH + PAGE];
    expect(fdatasync(file) == 0, "fdatasync");
    read_at(file, bytes, 15, 0);
    size_t set_up = (size_t)bytes[11] << 24 | bytes[12] << 16 | bytes[13] << 8 | bytes[14];
    read_at(file, bytes, SLOT_HEAD, SLOT_1);
    read_at(file, bytes, SLOT_HEAD, SLOT_2);
    read_at(file, bytes, JOURNAL_LENGTH, JOURNAL);
    for (size_t done = 0; done < set_up; done += PAGE)
        read_at(file, bytes, set_up - done < PAGE ? set_up - done : PAGE, (off_t)(SET_UP + done));
    read_at(file, bytes, PAYLOAD, SLOT_1 + SLOT_HEAD);
}

/* Appends a record at a page: its body, and then the gate of its first page. */
static void append(int file, int page, int pages) {
    static uint8_t body[PAGE - 1];
    for (int k = page; k < page + pages; k++) {
        memset(body, k, sizeof body);
        expect(pwrite(file, body, sizeof body, JOURNAL + (off_t)k * PAGE + 1) == sizeof body, "pwrite");
    }
    expect(fdatasync(file) == 0, "fdatasync");
    expect(pwrite(file, "\xa5", 1, JOURNAL + (off_t)page * PAGE) == 1, "pwrite");
    expect(fdatasync(file) == 0, "fdatasync");
}

int main(int argc, char **argv) {
    if (argc != 4)
        return 2;
    int pages = atoi(argv[2]), records = atoi(argv[3]);
    if (pages * records > JOURNAL_LENGTH / PAGE)
        return 2;
    int file = open_file(argv[1]);
    open_disk(file);
    for (int k = 0; k < records; k++) {
        append(file, k * pages, pages);
        expect(write(1, "1 stored 1\n", 11) == 11, "write");
    }
    return close(file) != 0;
}
