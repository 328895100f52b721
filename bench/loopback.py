#!/usr/bin/env python3
"""Figures of `blobd serve` and `blobd push` over loopback, as ratios in one run.

    loopback.py PROGRAM [--json FILE] [--mib SIZE] [--waiting-mib SIZE] [--small-pages] [--only WORD]

Each figure is the best of five repetitions, in which the servers take turns. Each upload, and each row of openings, has
a server of its own. An upload and a push are compared with `sha256sum` on the same bytes, timed before each repetition;
a pull with the same bytes over a bare connection, sent in the same way; two at once with one alone. Waiting is that of
a thousand small requests beside a large body. The server of these rows has two workers.

A server with sixteen workers has four uploads at once, and waiting beside clients that send a byte of a head now and
then. One with 64 workers has as many clients of small requests; compared with the one with two, it shows what memory an
idle worker takes.

If Debian's `docker-registry` is installed, it has the same rows but the last, with its files in memory too, and of the
small requests only those of one connection and of 64: each other row would take it minutes. The server runs as `make
serve` runs it, with huge pages and large blocks from the system; with --small-pages as glibc does by itself. With
--only WORD there are only the rows whose name has WORD.

The client writes whole requests from memory to a raw socket, and still takes longer over a small request than the
server does. So small requests are also counted by the seconds of processor time that the server spent, its own and the
system's for it.

Needs Linux, and about four times the larger SIZE in MiB of memory, part of it in /dev/shm. If no SIZE is given, it is
256 for the speeds and 1,024 for the waiting.
"""
import argparse
import contextlib
import ctypes
import functools
import hashlib
import itertools
import json
import mmap
import multiprocessing
import os
import socket
import subprocess
import sys
import tempfile
import time

import raw
import servers
from harness import running
from harness.running import MIB
from harness.suite import OPTIONS
from harness.wire import PATIENCE

RUNS = 5
# A connection of `blobd` has at most 10,000 requests, and one of them goes before the measured ones.
SMALL_REQUESTS = 9600
# `blobd` has at most 1,024 open sessions.
OPENINGS = 960
# The small requests beside a large body, or beside clients that drip, whose longest wait is told.
BESIDE = 1000
PIPELINED = 16
# The workers of a server that serves many, and the clients that drip so that two workers are left; the uploads that it
# takes at once.
MANY = 16
DRIPPING = 14
UPLOADS = 4
# Seconds for which they drip, longer than the small requests take, and between two bytes of each.
DRIP_SECONDS, DRIP_PAUSE = 4, 0.1
# The clients of small requests at once, and the workers that serve them.
CROWD = 64

FORK = multiprocessing.get_context("fork")


class Blob:
    """Random bytes in a file in memory, once it is written, and their digest."""

    def __init__(self, path, size):
        self.path = path
        self.size = size
        self.digest = None

    def write(self):
        digest = hashlib.sha256()
        with open(self.path, "wb") as file:
            for first in range(0, self.size, MIB):
                part = os.urandom(min(MIB, self.size - first))
                digest.update(part)
                file.write(part)
        self.digest = "sha256:" + digest.hexdigest()


class Measured:
    """A server in a process of its own, on a free port, for as long as the `with` lasts; the next `with` begins one
    anew."""

    def __enter__(self):
        self.server = self.begun()
        self.server.__enter__()
        self.pid = self.server.process.pid
        return self

    def __exit__(self, *fault):
        self.server.__exit__(*fault)

    def connect(self):
        return raw.Connection(self.place())

    def processor(self):
        """Seconds of processor time that its threads have had."""
        clock = ctypes.c_int()
        if ctypes.CDLL(None).clock_getcpuclockid(self.pid, ctypes.byref(clock)):
            raise OSError("the server's clock can't be read")
        return time.clock_gettime(clock.value)

    def peak(self):
        """The most memory that it has had, in bytes."""
        with open(f"/proc/{self.pid}/status", encoding="ascii") as status:
            for line in status:
                if line.startswith("VmHWM:"):
                    return int(line.split()[1]) * 1024
        raise OSError("the server's memory can't be read")


class Blobd(Measured):
    """`blobd serve` with so many workers; its name says how many if they aren't two."""

    name = "blobd"
    stderr = None

    def __init__(self, settings, workers=2):
        self.settings = settings | {"BLOBD_WORKERS": str(workers)}
        self.workers = workers
        if workers != 2:
            self.name = f"blobd with {workers} workers"

    def begun(self):
        server = running.Server(1_000_000, env=self.settings, stderr=self.stderr)
        if not server.first_line.startswith("listening "):
            server.stop()
            sys.exit(f"{OPTIONS.program} serve: {server.first_line.strip() or 'it says nothing'}")
        return server

    def place(self):
        return self.server.place()

    def wait_for_workers(self):
        """Waits until each worker has its thread: the line that it listens comes before. One thread more owns the
        service."""
        while len(os.listdir(f"/proc/{self.pid}/task")) <= self.workers:
            time.sleep(0.01)

    def resident(self):
        """The memory that it has now, in bytes."""
        return self.server.memory()


class BlobdWithLog(Blobd):
    """The same with a line of a log for each request, which nobody reads."""

    name = "blobd with its log"
    stderr = subprocess.DEVNULL

    def __init__(self, settings):
        super().__init__(settings | {"BLOBD_LOG": "1"})


class DockerRegistry(Measured):
    name = "docker-registry"

    def __init__(self, folder):
        self.folder = folder

    def begun(self):
        return servers.DockerRegistry(self.folder)

    def place(self):
        return servers.place(self.server.address)


def wanted(reply, status):
    if reply.status != status:
        sys.exit(f"a reply of {reply.status} where {status} was due: {reply.body[:200]!r}")
    return reply


def upload(connection, name, blob, chunk):
    """A whole upload: an opening, the chunks, and the close."""
    place = raw.target_of(wanted(connection.ask("POST", f"/v2/{name}/blobs/uploads/", Content_Length=0), 202).fields)
    with open(blob.path, "rb") as file:
        for first in range(0, blob.size, chunk):
            length = min(chunk, blob.size - first)
            fields = {
                "Content_Type": "application/octet-stream",
                "Content_Range": f"{first}-{first + length - 1}",
                "Content_Length": length,
            }
            connection.send_part(connection.head("PATCH", place, **fields), file, first, length)
            place = raw.target_of(wanted(connection.reply(), 202).fields)
    wanted(connection.ask("PUT", raw.closing_target(place, blob.digest), Content_Length=0), 201)


def upload_whole(connection, name, blob):
    upload(connection, name, blob, blob.size)


def upload_with_the_close(connection, name, blob):
    """An upload of which one byte comes in a chunk, and the rest is the body of the close."""
    place = raw.target_of(wanted(connection.ask("POST", f"/v2/{name}/blobs/uploads/", Content_Length=0), 202).fields)
    with open(blob.path, "rb") as file:
        chunk = {"Content_Type": "application/octet-stream", "Content_Range": "0-0", "Content_Length": 1}
        connection.send_part(connection.head("PATCH", place, **chunk), file, 0, 1)
        place = raw.target_of(wanted(connection.reply(), 202).fields)
        rest = {"Content_Type": "application/octet-stream", "Content_Length": blob.size - 1}
        head = connection.head("PUT", raw.closing_target(place, blob.digest), **rest)
        connection.send_part(head, file, 1, blob.size - 1)
    wanted(connection.reply(), 201)


def pull(connection, name, blob, room, take=None):
    connection.socket.sendall(connection.head("GET", f"/v2/{name}/blobs/{blob.digest}"))
    status, fields = connection.reply_head()
    if (status, int(fields["content-length"])) != (200, blob.size):
        sys.exit(f"a pull was answered {status} {fields}")
    connection.body_over(room, blob.size, take)


def pulled_well(connection, name, blob, room):
    """Whether what is pulled is what was stored."""
    digest = hashlib.sha256()
    pull(connection, name, blob, room, digest.update)
    return "sha256:" + digest.hexdigest() == blob.digest


def seconds(work):
    start = time.monotonic()
    work()
    return time.monotonic() - start


class Beside:
    """Work that goes on beside the caller's, from the start of a `with` to its end. What fails in it ends this program.

    It has a process of its own, which waits for the `with`: of two threads of Python the one that takes a body would
    hold up the other.
    """

    def __init__(self, work):
        self.ready, self.begun, self.over = FORK.Event(), FORK.Event(), FORK.Event()
        self.process = FORK.Process(target=self.run, args=(work,), daemon=True)
        self.process.start()
        self.ready.wait(PATIENCE)

    def run(self, work):
        self.ready.set()
        self.begun.wait()
        try:
            work()
        finally:
            self.over.set()

    def is_alive(self):
        return not self.over.is_set()

    def __enter__(self):
        self.begun.set()
        return self

    def __exit__(self, *_):
        self.over.wait(PATIENCE)
        self.process.join(PATIENCE)
        if self.process.exitcode != 0:
            sys.exit("work beside another failed")


def seconds_of_both(works):
    """Seconds from the start of the first to the end of the last of several that run at once."""
    waiting = [Beside(work) for work in works]
    with contextlib.ExitStack() as at_once:
        start = time.monotonic()
        for work in waiting:
            at_once.enter_context(work)
        for work in waiting:
            work.over.wait(PATIENCE)
        return time.monotonic() - start


def ran(words):
    """Runs a program: what it printed, the seconds it took, those of the processor, and the most memory it had in
    bytes.

    The system counts the memory of the process that started it as its own, so that it is at least Python's, some 20
    MiB.
    """
    start = time.monotonic()
    with subprocess.Popen(words, stdout=subprocess.PIPE, text=True) as program:
        told = program.stdout.read()
        _, status, used = os.wait4(program.pid, 0)
        program.returncode = os.waitstatus_to_exitcode(status)
    return told, time.monotonic() - start, used.ru_utime + used.ru_stime, used.ru_maxrss * 1024


def hashed(blob):
    """Seconds that `sha256sum` takes, by the clock and of the processor."""
    told, wall, processor, _ = ran(["sha256sum", blob.path])
    if "sha256:" + told.split()[0] != blob.digest:
        sys.exit(f"sha256sum: {told}")
    return wall, processor


def hashed_by_library(blob):
    """The least processor seconds that Python's library (OpenSSL's code, mostly) takes, which may use instructions that
    `sha256sum` doesn't."""
    with open(blob.path, "rb") as file, mmap.mmap(file.fileno(), 0, prot=mmap.PROT_READ) as content:
        taken = []
        for _ in range(RUNS):
            start = time.process_time()
            hashlib.sha256(content)
            taken.append(time.process_time() - start)
    return min(taken)


def beside_hashing(blob, wall, processor, plain):
    """What uploads and pushes have in common, from their runs and those of `sha256sum`."""
    plain_wall, plain_processor = (min(taken) for taken in zip(*plain))
    return {
        "bytes_a_second": blob.size / min(wall),
        "of_sha256sum": plain_wall / min(wall),
        "of_sha256sum_by_processor": plain_processor / min(processor),
        "server_seconds": min(processor),
        "sha256sum_seconds": plain_processor,
    }


def moved_bare(blob, room):
    """Seconds that the blob takes over a connection to a process that only sends it."""

    def send(listener):
        sender, _ = listener.accept()
        with sender, open(blob.path, "rb") as file:
            sender.recv(1)
            sender.sendfile(file)

    with socket.create_server(("127.0.0.1", 0)) as listener:
        process = FORK.Process(target=send, args=(listener,))
        process.start()
        with socket.create_connection(listener.getsockname()) as connection:
            taken = seconds(lambda: (connection.sendall(b"x"), raw.receive(connection, blob.size, room)))
        process.join()
    return taken


# Each `.._row` is a generator. It yields behind each repetition, so that several servers are measured in turn, and it
# returns the figures.


def upload_row(server, blob, chunk):
    """An upload, each run with a new server."""
    wall, processor, plain, peaks = [], [], [], []
    for _ in range(RUNS):
        plain.append(hashed(blob))
        with server, server.connect() as connection:
            before = server.processor()
            wall.append(seconds(lambda: upload(connection, "lib/a", blob, chunk)))
            processor.append(server.processor() - before)
            peaks.append(server.peak())
        yield
    return {**beside_hashing(blob, wall, processor, plain), "peak_bytes_a_byte": max(peaks) / blob.size}


def pull_row(server, blob):
    room = bytearray(MIB)
    wall, processor, bare = [], [], []
    with server, server.connect() as connection:
        upload(connection, "lib/a", blob, blob.size)
        if not pulled_well(connection, "lib/a", blob, room):
            sys.exit("what was pulled isn't what was stored")
        for _ in range(RUNS):
            bare.append(moved_bare(blob, room))
            before = server.processor()
            wall.append(seconds(lambda: pull(connection, "lib/a", blob, room)))
            processor.append(server.processor() - before)
            yield
        peak = server.peak()
    return {
        "bytes_a_second": blob.size / min(wall),
        "of_bare_connection": min(bare) / min(wall),
        "peak_bytes_a_byte": peak / blob.size,
        "server_seconds": min(processor),
        "bare_seconds": min(bare),
    }


def uploads_at_once_row(server, blob, chunk, count):
    """Uploads at once, each over a connection of its own, beside one alone: the same work a server, each run with a new
    one."""

    def work(connection, name):
        return lambda: upload(connection, name, blob, chunk)

    alone, at_once, peaks = [], [], []
    for _ in range(RUNS):
        with server, server.connect() as connection:
            alone.append(seconds(work(connection, "lib/a")))
        with server, contextlib.ExitStack() as open_ones:
            connections = [open_ones.enter_context(server.connect()) for _ in range(count)]
            at_once.append(seconds_of_both([work(each, f"lib/a{number}") for number, each in enumerate(connections)]))
            peaks.append(server.peak())
        yield
    return of_one_alone(blob, count, alone, at_once, peaks)


def of_one_alone(blob, count, alone, at_once, peaks):
    """What several at once have in common. The same bytes come each time, and a registry keeps them once or several
    times."""
    return {
        "bytes_a_second": count * blob.size / min(at_once),
        "of_one_alone": count * min(alone) / min(at_once),
        "alone_seconds": min(alone),
        "at_once_seconds": min(at_once),
        "peak_bytes_a_byte": max(peaks) / blob.size,
    }


def pulls_at_once_row(server, blob, count):
    alone, at_once = [], []
    rooms = [bytearray(MIB) for _ in range(count)]
    with server, contextlib.ExitStack() as open_ones:
        connections = [open_ones.enter_context(server.connect()) for _ in range(count)]
        upload(connections[0], "lib/a", blob, blob.size)
        works = [lambda each=each, room=room: pull(each, "lib/a", blob, room) for each, room in zip(connections, rooms)]
        for _ in range(RUNS):
            alone.append(seconds(works[0]))
            at_once.append(seconds_of_both(works))
            yield
        peak = server.peak()
    return of_one_alone(blob, count, alone, at_once, [peak])


def longest_waits(server, work):
    """Does the work, and asks for `/v2/` all the while over another connection: the longest and the middle wait, in
    seconds, of the first thousand.

    The requests that the work outlasts are spread over it; what is left of the thousand comes behind it.
    """
    waits = []
    with server.connect() as other:
        request = other.head("GET", "/v2/")

        def ask():
            start = time.monotonic()
            other.socket.sendall(request)
            wanted(other.reply(), 200)
            waits.append(time.monotonic() - start)

        ask()
        waits.clear()
        with Beside(work) as working:
            while working.is_alive() and len(waits) < BESIDE:
                ask()
                time.sleep(0.001)
        beside = len(waits)
        while len(waits) < BESIDE:
            ask()
    waits.sort()
    return waits[-1], waits[len(waits) // 2], beside


def waiting_row(server, blob, work, is_stored):
    """The longest wait beside some work on a blob, which is stored before that if need be: the best of the runs, and
    the worst of them."""
    runs = []
    for _ in range(RUNS):
        with server, server.connect() as connection:
            if is_stored:
                upload_whole(connection, "lib/a", blob)
            runs.append(longest_waits(server, functools.partial(work, connection, "lib/a", blob)))
        yield
    return of_waits(runs)


def of_waits(runs):
    """What rows of waiting have in common: the longest wait of each run, the middle one, and how many were asked
    meanwhile."""
    longest, middle, beside = zip(*runs)
    return {
        "longest_wait_seconds": min(longest),
        "worst_wait_seconds": max(longest),
        "middle_wait_seconds": min(middle),
        "asked_beside": max(beside),
    }


def drip(connections):
    """Sends a byte of a head over each now and then; the heads end at last, and are answered."""
    end = time.monotonic() + DRIP_SECONDS
    while time.monotonic() < end:
        for connection in connections:
            connection.socket.sendall(b"a")
        time.sleep(DRIP_PAUSE)
    for connection in connections:
        connection.socket.sendall(b"\r\n\r\n")
        wanted(connection.reply(), 200)


def dripping_row(server, count):
    """The longest wait beside so many clients that drip: the best of the runs, and the worst of them. Each of them is
    served already."""
    runs = []
    for _ in range(RUNS):
        with server, contextlib.ExitStack() as open_ones:
            connections = [open_ones.enter_context(server.connect()) for _ in range(count)]
            for connection in connections:
                wanted(connection.ask("GET", "/v2/"), 200)
                connection.socket.sendall(connection.head("GET", "/v2/", X="").removesuffix(b"\r\n\r\n"))
            runs.append(longest_waits(server, lambda: drip(connections)))
        yield
    return of_waits(runs)


def idle_row(two, many, are_used):
    """The memory of a server with many workers and of one with two: before their first connection, or behind one of
    each worker. The least of the runs."""
    resident = {two: [], many: []}
    for _ in range(RUNS):
        for server, taken in resident.items():
            with server:
                server.wait_for_workers()
                if are_used:
                    use_each_worker(server)
                taken.append(server.resident())
        yield
    of_two, of_many = min(resident[two]), min(resident[many])
    return {
        "workers": many.workers,
        "resident_bytes": of_many,
        "resident_of_two_bytes": of_two,
        "bytes_a_worker": (of_many - of_two) / (many.workers - two.workers),
    }


def use_each_worker(server):
    """A request to each worker: as many connections at once."""
    with contextlib.ExitStack() as open_ones:
        for _ in range(server.workers):
            wanted(open_ones.enter_context(server.connect()).ask("GET", "/v2/"), 200)


def push_row(server, blob, chunk):
    """A push, each run to a new server; the client's own processor time and memory beside it."""
    wall, processor, client, plain, peaks = [], [], [], [], []
    for _ in range(RUNS):
        plain.append(hashed(blob))
        with server:
            before = server.processor()
            told, taken, used, peak = ran([OPTIONS.program, "push", server.server.addr, "lib/a", blob.path, str(chunk)])
            processor.append(server.processor() - before)
            if told != f"pushed {blob.digest}\n":
                sys.exit(f"a push ended with {told!r}")
            wall.append(taken)
            client.append(used)
            peaks.append(peak)
        yield
    figures = beside_hashing(blob, wall, processor, plain)
    return {**figures, "client_seconds": min(client), "client_peak_bytes_a_byte": max(peaks) / blob.size}


def converse(place, request, ending, rounds, together, meeting, told):
    """One client of several: the same request again and again, so many written together. A reply is told by its end:
    the clients have the processors with the server, and parts of replies that they looked at would cost it requests."""
    with raw.Connection(place) as connection:
        talk, batch = connection.socket, request * together

        def round_trip(sent, due):
            talk.sendall(sent)
            heard = b""
            while heard.count(ending) < due:
                part = talk.recv(65536)
                if not part:
                    sys.exit(f"the server closed behind {heard!r}")
                heard += part

        round_trip(request, 1)
        meeting.wait()
        start = time.monotonic()
        for _ in range(rounds):
            round_trip(batch, together)
        told.put((start, time.monotonic()))
        meeting.wait()


def run_clients(server, method, target, status, fields, count, at_once, together):
    """How many requests were answered, in how much time by the clock, and in how much of the server's processor
    time."""
    with server.connect() as first:
        request = first.head(method, target, **fields)
        ending = b"\r\n\r\n" + wanted(first.ask(method, target, **fields), status).body
    meeting, told = FORK.Barrier(at_once + 1, timeout=PATIENCE), FORK.Queue()
    rounds = count // together // at_once
    words = (server.place(), request, ending, rounds, together, meeting, told)
    clients = [FORK.Process(target=converse, args=words) for _ in range(at_once)]
    for client in clients:
        client.start()
    while meeting.n_waiting < at_once:
        time.sleep(0.01)
        if any(client.exitcode for client in clients):
            sys.exit("a client failed")
    before = server.processor()
    meeting.wait()
    spans = [told.get(timeout=PATIENCE) for _ in clients]
    processor = server.processor() - before
    meeting.wait()
    for client in clients:
        client.join()
    return rounds * together * at_once, max(last for _, last in spans) - min(start for start, _ in spans), processor


def small_row(server, method, target, status, fields, count, at_once, together):
    wall, processor = [], []
    for _ in range(RUNS):
        with server:
            answered, taken, used = run_clients(server, method, target, status, fields, count, at_once, together)
            wall.append(taken)
            processor.append(used)
        yield
    return {
        "requests": answered,
        "requests_a_second": answered / min(wall),
        "requests_a_server_second": answered / min(processor),
    }


def server_rows(server, blob, large):
    """The rows of large bodies, of a server with two workers: each one's kind, what is asked, and what measures it."""
    for what, chunk in (("one body", blob.size), *((f"chunks of {size} MiB", size * MIB) for size in (16, 4, 1))):
        yield "upload", f"upload in {what}", functools.partial(upload_row, server, blob, chunk)
    yield "pull", "pull", functools.partial(pull_row, server, blob)
    for what, chunk in (("one body", blob.size), ("chunks of 4 MiB", 4 * MIB)):
        yield "at once", f"two uploads in {what}", functools.partial(uploads_at_once_row, server, blob, chunk, 2)
    yield "at once", "two pulls", functools.partial(pulls_at_once_row, server, blob, 2)
    for what, work, is_stored in (
        ("an upload in one body", upload_whole, False),
        ("a close behind a byte", upload_with_the_close, False),
        ("a pull", functools.partial(pull, room=bytearray(MIB)), True),
    ):
        yield "waiting", f"beside {what} of {large.size // MIB} MiB", functools.partial(
            waiting_row, server, large, work, is_stored
        )


SMALL = {
    "GET /v2/": ("GET", "/v2/", 200, {}, SMALL_REQUESTS),
    "opening": ("POST", "/v2/lib/a/blobs/uploads/", 202, {"Content_Length": 0}, OPENINGS),
}


def small_rows(server):
    ways = {
        "one connection": (1, 1), "two at once": (2, 1), f"one connection, {PIPELINED} written together": (1, PIPELINED)
    }
    for asked, words in SMALL.items():
        for way, (at_once, together) in ways.items():
            yield "small", f"{asked}, {way}", functools.partial(small_row, server, *words, at_once, together)


def many_rows(server, blob):
    """Those of a server with sixteen workers."""
    yield "at once", "four uploads in one body", functools.partial(
        uploads_at_once_row, server, blob, blob.size, UPLOADS
    )
    yield "waiting", f"beside {DRIPPING} clients that drip", functools.partial(dripping_row, server, DRIPPING)


def crowd_rows(server):
    """That of a server with as many workers as there are clients at once."""
    yield "small", f"GET /v2/, {CROWD} at once", functools.partial(small_row, server, *SMALL["GET /v2/"], CROWD, 1)


def idle_rows(two, many):
    for what, are_used in (("before their first connection", False), ("behind a connection of each", True)):
        yield "idle", f"idle workers {what}", functools.partial(idle_row, two, many, are_used)


def pushes_at_once_row(server, blob, chunk, count):
    """Pushes at once, each a process of its own, beside one alone."""

    def work(name):
        def run():
            told, *_ = ran([OPTIONS.program, "push", server.server.addr, name, blob.path, str(chunk)])
            if told != f"pushed {blob.digest}\n":
                sys.exit(f"a push ended with {told!r}")

        return run

    alone, at_once, peaks = [], [], []
    for _ in range(RUNS):
        with server:
            alone.append(seconds(work("lib/a")))
        with server:
            at_once.append(seconds_of_both([work(f"lib/a{number}") for number in range(count)]))
            peaks.append(server.peak())
        yield
    return of_one_alone(blob, count, alone, at_once, peaks)


def push_rows(server, blob):
    for what, chunk in (("one chunk", blob.size), ("chunks of 1 MiB", MIB)):
        yield "push", f"push in {what}", functools.partial(push_row, server, blob, chunk)
    yield "at once", "two pushes in one chunk", functools.partial(pushes_at_once_row, server, blob, blob.size, 2)


def mib(value):
    return f"{value / MIB:.0f}"


def mib_and_tenths(value):
    return f"{value / MIB:.1f}"


def kib(value):
    return f"{value / 1024:.0f}"


def milliseconds(value):
    return f"{value * 1000:.2f}"


SPEED = {"MiB a second": ("bytes_a_second", mib)}
SPENT = {"server's processor, s": ("server_seconds", "{:.3f}".format)}
HASHING = {
    "of sha256sum's speed": ("of_sha256sum", "{:.2f}".format),
    "the same by processor time": ("of_sha256sum_by_processor", "{:.2f}".format),
    "sha256sum's processor, s": ("sha256sum_seconds", "{:.3f}".format),
}
COLUMNS = {
    "upload": {**SPEED, **HASHING, **SPENT, "server's peak memory a byte": ("peak_bytes_a_byte", "{:.3f}".format)},
    "pull": {
        **SPEED,
        "of a bare connection's": ("of_bare_connection", "{:.2f}".format),
        "bare connection, s": ("bare_seconds", "{:.3f}".format),
        **SPENT,
        "server's peak memory a byte": ("peak_bytes_a_byte", "{:.3f}".format),
    },
    "at once": {
        **SPEED,
        "of one alone's": ("of_one_alone", "{:.2f}".format),
        "one alone, s": ("alone_seconds", "{:.3f}".format),
        "at once, s": ("at_once_seconds", "{:.3f}".format),
        "server's peak memory a byte of one": ("peak_bytes_a_byte", "{:.3f}".format),
    },
    "waiting": {
        "the longest wait for GET /v2/, ms": ("longest_wait_seconds", milliseconds),
        "in the worst run": ("worst_wait_seconds", milliseconds),
        "the middle one": ("middle_wait_seconds", milliseconds),
        "asked meanwhile": ("asked_beside", "{}".format),
    },
    "small": {
        "requests a second by the clock": ("requests_a_second", "{:.0f}".format),
        "requests a second of the server's processor": ("requests_a_server_second", "{:.0f}".format),
    },
    "idle": {
        "server's memory, MiB": ("resident_bytes", mib_and_tenths),
        "that of two workers, MiB": ("resident_of_two_bytes", mib_and_tenths),
        "a worker more, KiB": ("bytes_a_worker", kib),
    },
    "push": {
        **SPEED,
        **HASHING,
        **SPENT,
        "client's processor, s": ("client_seconds", "{:.3f}".format),
        "client's peak memory a byte": ("client_peak_bytes_a_byte", "{:.3f}".format),
    },
}


def print_tables(rows):
    """A table for each kind of row, in Markdown, where each server's row stands beside the others'."""
    for kind, columns in COLUMNS.items():
        chosen = [row for row in rows if row["kind"] == kind]
        order = list(dict.fromkeys(row["what"] for row in chosen))
        chosen.sort(key=lambda row: order.index(row["what"]))
        lines = [[row["what"], row["server"], *(show(row[key]) for key, show in columns.values())] for row in chosen]
        if lines:
            print()
            raw.print_table(["what", "server", *columns], lines)


def machine():
    with open("/proc/cpuinfo", encoding="utf-8") as told:
        models = [line.split(":", 1)[1].strip() for line in told if line.startswith("model name")]
    memory = os.sysconf("SC_PAGE_SIZE") * os.sysconf("SC_PHYS_PAGES")
    return {
        "model": models[0] if models else os.uname().machine,
        "cores": os.cpu_count(),
        "memory_bytes": memory,
        "system": os.uname().release,
    }


def read_words():
    words = argparse.ArgumentParser(description="figures of `blobd serve` and `blobd push` over loopback")
    words.add_argument("program", metavar="PROGRAM")
    words.add_argument("--json", metavar="FILE", help="write the figures there too")
    words.add_argument("--mib", metavar="SIZE", type=int, default=256, help="the blob's size in MiB")
    words.add_argument(
        "--waiting-mib",
        metavar="SIZE",
        type=int,
        default=1024,
        help="the size in MiB of the blob beside which others wait",
    )
    words.add_argument("--small-pages", action="store_true", help="the server has its memory as glibc does by itself")
    words.add_argument(
        "--only", metavar="WORD", default="", help="only the rows whose name has this, as `drip` or `64 at once`"
    )
    return words.parse_args()


def planned(settings, blob, large, folder):
    """All rows: the server of each, its kind, its name, and what measures it."""
    blobd, with_log, many, crowd = Blobd(settings), BlobdWithLog(settings), Blobd(settings, MANY), Blobd(
        settings, CROWD
    )
    rows = [
        (blobd, server_rows(blobd, blob, large)),
        (blobd, small_rows(blobd)),
        (with_log, small_rows(with_log)),
        (blobd, push_rows(blobd, blob)),
        (many, many_rows(many, blob)),
        (crowd, crowd_rows(crowd)),
        (crowd, idle_rows(blobd, crowd)),
    ]
    if not servers.missing("docker-registry"):
        registry = DockerRegistry(folder)
        rows += [
            (registry, of_it)
            for of_it in (
                server_rows(registry, blob, large),
                itertools.islice(small_rows(registry), 1),
                many_rows(registry, blob),
                crowd_rows(registry),
            )
        ]
    else:
        print("skipped: docker-registry, which isn't installed", flush=True)
    return [(server, *row) for server, of_it in rows for row in of_it]


def measure(rows):
    """The figures of all rows. The servers that have a row of one name are measured in turn, one repetition of each
    after another: what slows the machine for a while slows them all."""
    for what in dict.fromkeys(what for _, _, what, _ in rows):
        going = {(server.name, kind): row() for server, kind, name, row in rows if name == what}
        while going:
            for (name, kind), repetitions in list(going.items()):
                try:
                    next(repetitions)
                except StopIteration as over:
                    del going[name, kind]
                    print(f"measured: {name}: {what}", file=sys.stderr, flush=True)
                    yield {"kind": kind, "what": what, "server": name, **over.value}


def main():
    words = read_words()
    OPTIONS.program = os.path.abspath(words.program)
    settings = {} if words.small_pages else servers.MALLOC
    load = [os.getloadavg()[0]]
    with tempfile.TemporaryDirectory(dir="/dev/shm") as folder:
        blob = Blob(os.path.join(folder, "blob"), words.mib * MIB)
        large = Blob(os.path.join(folder, "large"), words.waiting_mib * MIB)
        rows = [row for row in planned(settings, blob, large, folder) if words.only in row[2]]
        if not rows:
            sys.exit(f"no row's name has {words.only!r}")
        blob.write()
        if any(large in row.args for *_, row in rows):
            large.write()
        library = hashed_by_library(blob)
        rows = list(measure(rows))
    load.append(os.getloadavg()[0])
    told = {
        "machine": machine(),
        "load": load,
        "blob_bytes": blob.size,
        "runs": RUNS,
        "settings": settings,
        "hashlib_seconds": library,
        "rows": rows,
    }
    found = told["machine"]
    print(
        f"{found['model']}, {found['cores']} cores, {found['memory_bytes'] / (1 << 30):.0f} GiB; "
        f"Linux {found['system']}"
    )
    print(
        f"load {load[0]:.1f} before, {load[1]:.1f} after; a blob of {words.mib} MiB; the best of {RUNS} runs; "
        f"the server has {settings or 'no settings'}"
    )
    print(f"SHA-256 of the blob by Python's hashlib: {library:.3f} s of the processor")
    print_tables(rows)
    if words.json:
        with open(words.json, "w", encoding="utf-8") as file:
            json.dump(told, file, indent=2)
            file.write("\n")


if __name__ == "__main__":
    main()
