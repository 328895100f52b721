#!/usr/bin/env python3
"""`blobd serve` without descriptors, without threads, and with accepts that fail.

    serve_faults.py PROGRAM
"""
import contextlib
import errno
import os
import subprocess
import time

from harness import shims
from harness.running import BASE, LAST_BASE, SERVED, Server, ask_alone, becomes
from harness.suite import case, check, equal, main
from harness.wire import PATIENCE, is_silent, rest_of

STOPPED = "blobd: a worker takes no more connections: {}\n"
WAITS = "blobd: a worker can't take a connection now, and goes on trying: {}\n"
TOO_MANY_FILES = WAITS.format("Too many open files (os error 24)")


def is_answered(name, client):
    """Checks that a request that waits is answered."""
    reply = rest_of(client)
    check(name, reply.startswith(b"HTTP/1.1 200 OK\r\n"), reply)


@case("cc")
def no_descriptors(folder):
    """Workers that find no descriptor for a connection say so once and go on trying for as long as it takes."""
    hasty = shims.loaded(folder, "minutes")
    with Server(1, limits=["-S -n 4"], env=hasty, stderr=subprocess.PIPE) as server:
        clients = [server.connect(), server.connect()]
        told = [server.told(), server.told()]
        equal("two workers without descriptors", told, [TOO_MANY_FILES] * 2)
        # a wait takes five milliseconds here: more than a thousand of each worker
        time.sleep(6)
        check("they wait on", server.process.poll() is None, server.process.returncode)
        # a request that comes late would be given up
        for client in clients:
            client.sendall(LAST_BASE)
        server.allow_descriptors(64)
        for client in clients:
            with client:
                is_answered("a reply once there are descriptors", client)
        ended = *server.ended(), server.process.stderr.read()
        equal("the end after no descriptors", ended, (*SERVED, ""))


@case()
def few_descriptors():
    """However few descriptors are free, each client is served in its turn."""
    for free in (1, 2, 3):
        with Server(limits=[f"-n {4 + free}"], stderr=subprocess.DEVNULL) as server, contextlib.ExitStack() as all_:
            clients = [all_.enter_context(server.connect()) for _ in range(8)]
            for client in clients:
                client.sendall(LAST_BASE)
            for client in clients:
                is_answered(f"a reply with {free} descriptors", client)
                client.close()


@case()
def descriptors_come_again():
    """A connection that finds no descriptor waits until there is one."""
    with Server(2, stderr=subprocess.PIPE) as server:
        with server.client() as client:
            equal("a reply while there are descriptors", client.ask("GET", "/v2/").status, 200)
            # on a busy machine the other worker may have yet to begin
            becomes(1, server.accepting)
            server.allow_descriptors(server.descriptors() - 1)
            # the other worker's accept, which had begun before
            equal("a reply to who came before", ask_alone(server, "GET", "/v2/").status, 200)
            with server.connect() as waiting:
                waiting.sendall(LAST_BASE)
                check("no reply while there are none", is_silent(waiting, 1))
                equal("why there is no reply", server.told(), TOO_MANY_FILES)
                equal("the other worker goes on meanwhile", client.ask("GET", "/v2/").status, 200)
                server.allow_descriptors(64)
                is_answered("a reply once there are descriptors", waiting)
        equal("the last line after no descriptors", server.end(), SERVED)


# What accept(2) says of a connection that waits, and of signals.
PASSED_OVER = (
    "EPERM EINTR ENONET EPROTO ENOPROTOOPT EOPNOTSUPP ENETDOWN ENETUNREACH ECONNABORTED ECONNRESET EHOSTDOWN "
    "EHOSTUNREACH"
)
WAITED_OUT = "EAGAIN ENOMEM ENFILE EMFILE ENOBUFS EIO"
STOPS = "EBADF EFAULT EINVAL ENOTSOCK"


def failing(folder, name, failures):
    """What lets so many accepts fail, and what is said of them."""
    error = getattr(errno, name)
    variables = shims.loaded(folder, "accepts", ACCEPT_ERROR=error, ACCEPT_FAILURES=failures)
    return variables, f"{os.strerror(error)} (os error {error})"


@case("cc")
def failing_accepts(folder):
    """An error of a connection is passed over, and each other one waited out, but those of a listener that is none:
    they stop a worker, and it alone."""
    for name in (*PASSED_OVER.split(), *WAITED_OUT.split()):
        is_waited_out = name in WAITED_OUT.split()
        failures = 10 if is_waited_out else 1_000
        env, says = failing(folder, name, failures)
        with Server(1, env=env, stderr=subprocess.PIPE) as server:
            replies = [ask_alone(server, "GET", "/v2/").status for _ in range(2)]
            ended, lines = server.ended(), set(server.process.stderr.readlines())
            wanted = {WAITS.format(says)} if is_waited_out else set()
            equal(f"{failures} accepts that fail: {name}", (replies, ended, lines), ([200, 200], SERVED, wanted))
    for name in STOPS.split():
        env, says = failing(folder, name, 1)
        with Server(2, env=env, stderr=subprocess.PIPE) as server:
            equal(f"a worker that stops says so at once: {name}", server.told(), STOPPED.format(says))
            replies = [ask_alone(server, "GET", "/v2/").status for _ in range(2)]
            ended = *server.ended(), server.process.stderr.read()
            equal(f"the other takes all of its own: {name}", (replies, ended), ([200, 200], ("fault: accept\n", 3, "")))


@case("cc")
def threads_that_are_refused(folder):
    """Without its threads a server ends, once those that it has have ended, and says why."""
    none = shims.loaded(folder, "threads", THREADS_ALLOWED=0)
    with Server(1, env=none) as server:
        equal("no thread for a worker", server.end(), ("fault: workers\n", 3))
    with Server(1, env=none | {"BLOBD_LOG": 1}) as server:
        equal("no thread for a log", (server.first_line, *server.ended()), ("fault: log\n", "", 3))


@case("cc")
def one_worker_alone(folder):
    """A worker without another has nobody to ask, and stops behind the first request that found that out."""
    # the thread that closes connections, and one worker
    with Server(1000, env=shims.loaded(folder, "threads", THREADS_ALLOWED=2)) as server:
        equal("no reply of a worker alone", server.exchange(BASE), b"")
        try:
            ended = server.process.wait(timeout=PATIENCE), server.process.stdout.read()
        except subprocess.TimeoutExpired:
            ended = "it goes on"
        equal("a worker alone stops", ended, (3, "fault: workers\n"))


if __name__ == "__main__":
    main(__doc__)
