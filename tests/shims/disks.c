/* Notes each call that changes a folder, or puts what is there on the disk, behind the file that DISK_NOTES names.
 *
 * Only what is at or below the folder DISK_FOLDER is noted: a line with the call, the path and two numbers, and behind
 * that as many bytes as were written. A call that failed is not. One call is made at a time, so that the notes have the
 * order of the calls. */
#define _GNU_SOURCE
#include "modes.h"
#include <dlfcn.h>
#include <errno.h>
#include <limits.h>
#include <pthread.h>
#include <stdio.h>
#include <stdlib.h>
#include <string.h>
#include <sys/stat.h>
#include <sys/syscall.h>
#include <sys/types.h>
#include <unistd.h>

static pthread_mutex_t one = PTHREAD_MUTEX_INITIALIZER;
static const char *folder;
static int notes = -1;

__attribute__((constructor)) static void begin(void) {
    folder = getenv("DISK_FOLDER");
    notes = syscall(SYS_openat, AT_FDCWD, getenv("DISK_NOTES"), O_WRONLY | O_CREAT | O_APPEND | O_CLOEXEC, 0600);
    if (!folder || notes < 0) _exit(99);
}

static int is_within(const char *path) {
    size_t length = strlen(folder);
    return strncmp(path, folder, length) == 0 && (path[length] == '/' || path[length] == 0);
}

static void put(const void *bytes, size_t count) {
    if (syscall(SYS_write, notes, bytes, count) != (long)count) _exit(99);
}

/* `given` tells whether there are bytes. A path is noted as it is below the folder. */
static void note(const char *call, const char *path, long at, long count, const void *given) {
    char line[PATH_MAX + 100];
    const char *below = path + strlen(folder);
    int length = snprintf(line, sizeof line, "%s %s %ld %ld\n", call, *below ? below + 1 : ".", at, given ? count : 0);
    put(line, length);
    if (given) put(given, count);
}

static const char *path_of(int file, char *path) {
    char link[40];
    snprintf(link, sizeof link, "/proc/self/fd/%d", file);
    ssize_t length = readlink(link, path, PATH_MAX - 1);
    path[length < 0 ? 0 : length] = 0;
    return path;
}

/* Makes a call on an open file under the lock, and notes it unless it failed. */
#define CALLED(file, call, name, at, count, given)                                     \
    do {                                                                               \
        char path[PATH_MAX];                                                           \
        pthread_mutex_lock(&one);                                                      \
        long done = (call);                                                            \
        int error = errno;                                                             \
        if (done >= 0 && is_within(path_of(file, path))) note(name, path, at, count, given); \
        pthread_mutex_unlock(&one);                                                    \
        errno = error;                                                                 \
        return done;                                                                   \
    } while (0)

/* The same of a call by a path. */
#define NAMED(path, call, name)                              \
    do {                                                     \
        pthread_mutex_lock(&one);                            \
        long done = (call);                                  \
        int error = errno;                                   \
        if (done >= 0 && is_within(path)) note(name, path, 0, 0, NULL); \
        pthread_mutex_unlock(&one);                          \
        errno = error;                                       \
        return done;                                         \
    } while (0)

ssize_t pwrite64(int file, const void *bytes, size_t count, off64_t at) {
    CALLED(file, syscall(SYS_pwrite64, file, bytes, count, at), "write", at, done, bytes);
}
ssize_t pwrite(int file, const void *bytes, size_t count, off_t at) { return pwrite64(file, bytes, count, at); }

ssize_t write(int file, const void *bytes, size_t count) {
    /* a socket has no place, and may wait for its peer, so that it is no matter of the lock */
    off_t at = lseek(file, 0, SEEK_CUR);
    if (at < 0) return syscall(SYS_write, file, bytes, count);
    CALLED(file, syscall(SYS_write, file, bytes, count), "write", at, done, bytes);
}

int ftruncate64(int file, off64_t length) {
    CALLED(file, syscall(SYS_ftruncate, file, length), "resize", length, 0, NULL);
}
int ftruncate(int file, off_t length) { return ftruncate64(file, length); }

int fsync(int file) { CALLED(file, syscall(SYS_fsync, file), "sync", 0, 0, NULL); }
int fdatasync(int file) { CALLED(file, syscall(SYS_fdatasync, file), "sync", 0, 0, NULL); }

static int opened(int at, const char *path, int flags, mode_t mode) {
    int is_new = (flags & (O_CREAT | O_EXCL)) == (O_CREAT | O_EXCL);
    if (!is_new) return syscall(SYS_openat, at, path, flags, mode);
    NAMED(path, syscall(SYS_openat, at, path, flags, mode), "make");
}

int open(const char *path, int flags, ...) { MODE_OF(flags) return opened(AT_FDCWD, path, flags, mode); }
int open64(const char *path, int flags, ...) { MODE_OF(flags) return opened(AT_FDCWD, path, flags | O_LARGEFILE, mode); }
int openat(int at, const char *path, int flags, ...) { MODE_OF(flags) return opened(at, path, flags, mode); }
int openat64(int at, const char *path, int flags, ...) { MODE_OF(flags) return opened(at, path, flags | O_LARGEFILE, mode); }

int mkdir(const char *path, mode_t mode) { NAMED(path, syscall(SYS_mkdirat, AT_FDCWD, path, mode), "folder"); }
int mkdirat(int at, const char *path, mode_t mode) { NAMED(path, syscall(SYS_mkdirat, at, path, mode), "folder"); }
int unlink(const char *path) { NAMED(path, syscall(SYS_unlinkat, AT_FDCWD, path, 0), "remove"); }
int unlinkat(int at, const char *path, int flags) { NAMED(path, syscall(SYS_unlinkat, at, path, flags), "remove"); }

/* What is renamed is noted with its new path below the folder. */
int rename(const char *path, const char *other) {
    pthread_mutex_lock(&one);
    long done = syscall(SYS_renameat2, AT_FDCWD, path, AT_FDCWD, other, 0);
    int error = errno;
    if (done >= 0 && is_within(path) && is_within(other)) {
        const char *below = other + strlen(folder) + 1;
        note("rename", path, 0, strlen(below), below);
    }
    pthread_mutex_unlock(&one);
    errno = error;
    return done;
}
