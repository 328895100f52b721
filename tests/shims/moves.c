/* Tells each read and write of a socket that moved bytes: a line with `recv` or `send` and how many, behind the file that MOVES_TOLD names. */
#include <fcntl.h>
#include <stdio.h>
#include <stdlib.h>
#include <sys/socket.h>
#include <sys/syscall.h>
#include <unistd.h>

static ssize_t told(const char *call, ssize_t count) {
    char line[40];
    int file = count > 0 ? open(getenv("MOVES_TOLD"), O_WRONLY | O_CREAT | O_APPEND | O_CLOEXEC, 0600) : -1;
    if (file < 0) return count;
    int length = snprintf(line, sizeof line, "%s %zd\n", call, count);
    if (write(file, line, length) != length) _exit(99);
    close(file);
    return count;
}

ssize_t recv(int socket, void *bytes, size_t room, int flags) { return told("recv", syscall(SYS_recvfrom, socket, bytes, room, flags, NULL, NULL)); }

ssize_t send(int socket, const void *bytes, size_t count, int flags) { return told("send", syscall(SYS_sendto, socket, bytes, count, flags, NULL, 0)); }
