/* Notes what a program asks of its disk, for the checks. It is preloaded before the C library.
 *
 * NOTED names a file to which a line is added before each call, with the names of its files:
 *   write PATH SIZE · fsync PATH · fdatasync PATH · rename PATH PATH · reply BYTES
 * A reply is what is sent to a socket, up to its first line end. If NOTED_YIELDS is set, there is a line
 *   yield
 * before each time that a thread lets others go first.
 * NOTED_STOP is the number of the line before whose call the program stops itself (SIGSTOP), counted
 * from 1. Without it the program never does.
 */
#define _GNU_SOURCE
#include <fcntl.h>
#include <limits.h>
#include <signal.h>
#include <stdatomic.h>
#include <stdio.h>
#include <stdlib.h>
#include <string.h>
#include <sys/socket.h>
#include <sys/stat.h>
#include <sys/syscall.h>
#include <unistd.h>

static int notes = -1, yields;
static unsigned long stopping;
static atomic_ulong lines;

__attribute__((constructor)) static void begin(void) {
    const char *path = getenv("NOTED"), *stop = getenv("NOTED_STOP");
    if (path)
        notes = open(path, O_WRONLY | O_CREAT | O_APPEND | O_CLOEXEC, 0600);
    yields = getenv("NOTED_YIELDS") != NULL;
    stopping = stop ? strtoul(stop, NULL, 10) : 0;
}

static void note(const char *line, int size) {
    if (notes < 0)
        return;
    syscall(SYS_write, notes, line, size);
    if (atomic_fetch_add(&lines, 1) + 1 == stopping)
        raise(SIGSTOP);
}

/* The name of an open file, and "?" if it has none. */
static const char *name_of(int fd, char *name) {
    char link[64];
    snprintf(link, sizeof link, "/proc/self/fd/%d", fd);
    ssize_t size = readlink(link, name, PATH_MAX - 1);
    if (size < 0)
        return "?";
    name[size] = 0;
    return name;
}

static void note_file(const char *call, int fd, const char *more) {
    char name[PATH_MAX], line[PATH_MAX + 64];
    note(line, snprintf(line, sizeof line, "%s %s%s\n", call, name_of(fd, name), more));
}

ssize_t write(int fd, const void *bytes, size_t size) {
    struct stat found;
    char more[32];
    if (fstat(fd, &found) == 0 && S_ISREG(found.st_mode)) {
        snprintf(more, sizeof more, " %zu", size);
        note_file("write", fd, more);
    }
    return syscall(SYS_write, fd, bytes, size);
}

ssize_t send(int fd, const void *bytes, size_t size, int flags) {
    char line[160];
    const char *end = memchr(bytes, '\n', size);
    size_t length = end ? (size_t)(end - (const char *)bytes) : size;
    note(line, snprintf(line, sizeof line, "reply %.*s\n", length < 100 ? (int)length : 100,
                        (const char *)bytes));
    return syscall(SYS_sendto, fd, bytes, size, flags, NULL, 0);
}

int sched_yield(void) {
    if (yields)
        note("yield\n", 6);
    return (int)syscall(SYS_sched_yield);
}

int fsync(int fd) {
    note_file("fsync", fd, "");
    return (int)syscall(SYS_fsync, fd);
}

int fdatasync(int fd) {
    note_file("fdatasync", fd, "");
    return (int)syscall(SYS_fdatasync, fd);
}

int rename(const char *from, const char *to) {
    char line[2 * PATH_MAX + 64];
    note(line, snprintf(line, sizeof line, "rename %s %s\n", from, to));
    return (int)syscall(SYS_renameat2, AT_FDCWD, from, AT_FDCWD, to, 0);
}
