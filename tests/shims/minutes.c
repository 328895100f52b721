/* Time passes thirty times as fast: by the clock, in how long a socket waits for its peer, and in pauses.
 *
 * With MINUTES_OF=pauses that is so in pauses and in writes that wait, and the clock goes ahead by what a pause was
 * shortened. All else, as a reply, may take as long as ever: a machine that is slow makes it no later than it is. */
#include <stdatomic.h>
#include <stdlib.h>
#include <string.h>
#include <sys/socket.h>
#include <sys/syscall.h>
#include <sys/time.h>
#include <time.h>
#include <unistd.h>

enum { TIMES = 30 };

static atomic_llong ahead;

static int are_pauses(void) {
    const char *given = getenv("MINUTES_OF");
    return given && strcmp(given, "pauses") == 0;
}

static long long nanos(const struct timespec *time) { return time->tv_sec * 1000000000LL + time->tv_nsec; }

static struct timespec of_nanos(long long count) { return (struct timespec){count / 1000000000, count % 1000000000}; }

int clock_gettime(clockid_t clock, struct timespec *now) {
    int result = syscall(SYS_clock_gettime, clock, now);
    if (result == 0 && clock == CLOCK_MONOTONIC) *now = of_nanos(are_pauses() ? nanos(now) + ahead : nanos(now) * TIMES);
    return result;
}

int setsockopt(int socket, int level, int option, const void *value, socklen_t length) {
    struct timeval shorter;
    if (level == SOL_SOCKET && (option == SO_SNDTIMEO || (option == SO_RCVTIMEO && !are_pauses()))) {
        const struct timeval *given = value;
        long long micros = (given->tv_sec * 1000000LL + given->tv_usec) / TIMES + 1;
        shorter = (struct timeval){micros / 1000000, micros % 1000000};
        value = &shorter;
    }
    return syscall(SYS_setsockopt, socket, level, option, value, length);
}

int nanosleep(const struct timespec *asked, struct timespec *left) {
    struct timespec shorter = of_nanos(nanos(asked) / TIMES);
    int result = syscall(SYS_nanosleep, &shorter, left);
    ahead += nanos(asked) - nanos(&shorter);
    return result;
}
