/* A disk that fails once, for bench/keep.py. It is preloaded before the C library.
 *
 * FAIL_NTH is the number of the call that fails, counted from 1; 0 fails none. A write puts half of its
 * bytes into the file and says that the disk is full; a sync or a rename does nothing and says that the
 * device failed.
 * FAIL_PAUSE is how many microseconds longer each sync takes.
 * FAIL_COUNT names a file of sixteen bytes. In the first eight, writes to plain files, syncs and renames
 * are counted together, and in the last eight the syncs alone.
 */
#define _GNU_SOURCE
#include <dlfcn.h>
#include <errno.h>
#include <fcntl.h>
#include <stdatomic.h>
#include <stdlib.h>
#include <sys/mman.h>
#include <sys/stat.h>
#include <sys/syscall.h>
#include <unistd.h>

static atomic_ulong *counts;
static unsigned long failing;
static useconds_t pause_of_sync;

__attribute__((constructor)) static void begin(void) {
    const char *nth = getenv("FAIL_NTH"), *count = getenv("FAIL_COUNT");
    const char *pause = getenv("FAIL_PAUSE");
    int file = count ? open(count, O_RDWR) : -1;
    void *shared = mmap(NULL, 2 * sizeof *counts, PROT_READ | PROT_WRITE, MAP_SHARED, file, 0);
    failing = nth ? strtoul(nth, NULL, 10) : 0;
    pause_of_sync = pause ? (useconds_t)strtoul(pause, NULL, 10) : 0;
    if (shared != MAP_FAILED)
        counts = shared;
}

static int fails(void) {
    return counts && atomic_fetch_add(&counts[0], 1) + 1 == failing;
}

ssize_t write(int fd, const void *bytes, size_t size) {
    struct stat found;
    if (fstat(fd, &found) == 0 && S_ISREG(found.st_mode) && fails()) {
        syscall(SYS_write, fd, bytes, size / 2);
        errno = ENOSPC;
        return -1;
    }
    return syscall(SYS_write, fd, bytes, size);
}

static int synced(long call, int fd) {
    if (counts)
        atomic_fetch_add(&counts[1], 1);
    if (fails()) {
        errno = EIO;
        return -1;
    }
    if (pause_of_sync)
        usleep(pause_of_sync);
    return (int)syscall(call, fd);
}

int fsync(int fd) {
    return synced(SYS_fsync, fd);
}

int fdatasync(int fd) {
    return synced(SYS_fdatasync, fd);
}

int rename(const char *from, const char *to) {
    if (fails()) {
        errno = EIO;
        return -1;
    }
    return (int)syscall(SYS_renameat2, AT_FDCWD, from, AT_FDCWD, to, 0);
}
