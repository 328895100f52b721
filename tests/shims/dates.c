/* The time of day is DATES_SECONDS behind the start of 1970. */
#include <stdlib.h>
#include <sys/syscall.h>
#include <time.h>
#include <unistd.h>

int clock_gettime(clockid_t clock, struct timespec *now) {
    if (clock != CLOCK_REALTIME) return syscall(SYS_clock_gettime, clock, now);
    *now = (struct timespec){atoll(getenv("DATES_SECONDS")), 0};
    return 0;
}
