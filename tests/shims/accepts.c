/* The first ACCEPT_FAILURES accepts of a process fail, with the error ACCEPT_ERROR. */
#include <errno.h>
#include <stdatomic.h>
#include <stdlib.h>
#include <sys/socket.h>
#include <sys/syscall.h>
#include <unistd.h>

static atomic_int accepts;

int accept4(int listener, struct sockaddr *addr, socklen_t *length, int flags) {
    if (atomic_fetch_add(&accepts, 1) < atoi(getenv("ACCEPT_FAILURES"))) {
        errno = atoi(getenv("ACCEPT_ERROR"));
        return -1;
    }
    return syscall(SYS_accept4, listener, addr, length, flags);
}
