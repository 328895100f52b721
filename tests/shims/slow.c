/* Each sync takes SYNC_MICROS microseconds more than it does by itself. */
#define _GNU_SOURCE
#include <stdlib.h>
#include <sys/prctl.h>
#include <sys/syscall.h>
#include <time.h>
#include <unistd.h>

/* how many nanoseconds late the system may end a wait: here, and by itself */
static const unsigned long SLACK = 1000, USUAL_SLACK = 50000;

static long micros;

__attribute__((constructor)) static void begin(void) { micros = atol(getenv("SYNC_MICROS")); }

static void pause_so_long(void) {
    struct timespec time = {micros / 1000000, micros % 1000000 * 1000};
    prctl(PR_SET_TIMERSLACK, SLACK);
    clock_nanosleep(CLOCK_MONOTONIC, 0, &time, NULL);
    prctl(PR_SET_TIMERSLACK, USUAL_SLACK);
}

int fsync(int file) { return pause_so_long(), syscall(SYS_fsync, file); }
int fdatasync(int file) { return pause_so_long(), syscall(SYS_fdatasync, file); }
