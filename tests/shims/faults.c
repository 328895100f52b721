/* A disk that fails once: of the calls on files at or below the folder DISK_FOLDER that are made while there is a file
 * DISK_FAILS, the one behind DISK_SPARED others fails with the error DISK_ERROR, and removes that file. DISK_CALL says which
 * calls these are: "sync", "write", "read" or "open". Of a "short" one, which is a read, only a part comes. */
#define _GNU_SOURCE
#include "modes.h"
#include <errno.h>
#include <limits.h>
#include <stdatomic.h>
#include <stdio.h>
#include <stdlib.h>
#include <string.h>
#include <sys/syscall.h>
#include <sys/types.h>
#include <unistd.h>

static atomic_int calls;

static int is_within(const char *path) {
    const char *folder = getenv("DISK_FOLDER");
    return strncmp(path, folder, strlen(folder)) == 0;
}

static int is_open_within(int file) {
    char link[40], path[PATH_MAX] = {0};
    snprintf(link, sizeof link, "/proc/self/fd/%d", file);
    return readlink(link, path, sizeof path - 1) > 0 && is_within(path);
}

/* Whether this call is the one that fails. */
static int is_hit(const char *call, int within) {
    const char *told = getenv("DISK_FAILS");
    if (strcmp(getenv("DISK_CALL"), call) != 0 || !within || access(told, F_OK) != 0) return 0;
    if (atomic_fetch_add(&calls, 1) != atoi(getenv("DISK_SPARED"))) return 0;
    unlink(told);
    errno = atoi(getenv("DISK_ERROR"));
    return 1;
}

static int fails(const char *call, int file) { return is_hit(call, is_open_within(file)); }

int fsync(int file) { return fails("sync", file) ? -1 : syscall(SYS_fsync, file); }
int fdatasync(int file) { return fails("sync", file) ? -1 : syscall(SYS_fdatasync, file); }

ssize_t pwrite64(int file, const void *bytes, size_t count, off64_t at) {
    return fails("write", file) ? -1 : syscall(SYS_pwrite64, file, bytes, count, at);
}
ssize_t pwrite(int file, const void *bytes, size_t count, off_t at) { return pwrite64(file, bytes, count, at); }

ssize_t write(int file, const void *bytes, size_t count) {
    return fails("write", file) ? -1 : syscall(SYS_write, file, bytes, count);
}

ssize_t pread64(int file, void *bytes, size_t count, off64_t at) {
    if (fails("read", file)) return -1;
    return syscall(SYS_pread64, file, bytes, count > 1 && fails("short", file) ? count / 2 : count, at);
}
ssize_t pread(int file, void *bytes, size_t count, off_t at) { return pread64(file, bytes, count, at); }

static int opened(const char *path, int flags, mode_t mode) {
    return is_hit("open", is_within(path)) ? -1 : syscall(SYS_openat, AT_FDCWD, path, flags, mode);
}

int open(const char *path, int flags, ...) { MODE_OF(flags) return opened(path, flags, mode); }
int open64(const char *path, int flags, ...) { MODE_OF(flags) return opened(path, flags | O_LARGEFILE, mode); }
