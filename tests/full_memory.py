#!/usr/bin/env python3
"""Fills the memory of `blobd serve`, and asks for what takes none.

    full_memory.py PROGRAM

A server may hold a few MiB (`BLOBD_MEMORY`), and gets as little address space beside that as the program as it is built
needs to serve (`ulimit -v`): how much that is, is found first, and told. It gets blobs and open uploads of one size or of mixed sizes until it refuses several in a row. Then each of its workers is asked for what
is stored, for the status of each kind of upload, and for what is refused. Each request has to get its usual reply: with
glibc as `make serve` sets it, with one heap for all threads, and as it is, if there is address space for a heap of each
thread; and from a worker that had served nobody before memory was full.
"""
import collections
import contextlib
import functools
import random
import subprocess

from harness import running
from harness.running import KIB, MIB
from harness.suite import case, check, equal, main
from harness.wire import Connection, connected, request_text, sha256
import servers

# What a server may hold, and how much address space it gets for that: with less the system refuses memory before the
# server's count does.
HELD = {"BLOBD_MEMORY": str(6 * MIB)}
ROOM = 16 * MIB
# A server with two workers may need no more KiB than this to serve. What it needs is found to so many. The system places
# things at random: so it is tried several times.
MOST_NEEDED, STEP, TRIES = 32 * KIB, 64, 4
# What heaps of their own reserve for the threads of a server with two workers, at most. A thread that can't have one takes
# a page of the system for each allocation.
HEAPS_SPACE = 8 * 128 * MIB
# So many refused in a row, and memory is full. A connection has at most 10,000 requests.
REFUSED, REQUESTS = 60, 9_000
# How often each worker is asked the same, and of how many stored blobs.
TIMES, BLOBS = 5, 40

HEAPS = {
    "as it is": {},
    "as `make serve` has it": servers.MALLOC,
    "with one heap for all threads": {"GLIBC_TUNABLES": "glibc.malloc.arena_max=1"},
}
SIZES = {
    "128 bytes": lambda chance: 128,
    "30,000 bytes": lambda chance: 30_000,
    "4 MiB": lambda chance: 4 * MIB,
    "mixed sizes": lambda chance: int(128 * 2 ** chance.uniform(0, 15)),
}


class Filling:
    """A client that stores blobs and begins uploads of these sizes until the server refuses."""

    def __init__(self, server, size, seed):
        self.place = server.place()
        self.size = size
        self.chance = random.Random(seed)
        self.connection = Connection(self.place)
        self.asked = 0
        self.stored = []
        self.begun = {}
        self.refused = collections.Counter()

    def ask(self, method, target, body=b""):
        """The reply, or nothing if the connection ended without one. A connection has at most 10,000 requests."""
        if not self.connection.is_open or self.asked == REQUESTS:
            self.connection.close()
            self.connection, self.asked = Connection(self.place), 0
        self.asked += 1
        self.connection.send(request_text(method, target, body))
        return self.connection.hear(method)

    def takes(self, reply, status):
        """Whether a reply is this one. What is refused is counted."""
        if reply and reply.status == status:
            return True
        self.refused[reply.status if reply else None] += 1
        return False

    def store(self):
        content = self.chance.randbytes(self.size(self.chance))
        reply = self.ask("POST", f"/v2/lib/a/blobs/uploads/?digest={sha256(content)}", content)
        if self.takes(reply, 201):
            self.stored.append(content)
            return True
        return False

    def begin(self):
        """An upload of one chunk, which stays open."""
        opening = self.ask("POST", "/v2/lib/a/blobs/uploads/")
        if not self.takes(opening, 202):
            return False
        place = opening.fields["Location"]
        self.begun[place] = 0
        content = self.chance.randbytes(self.size(self.chance))
        if self.takes(self.ask("PATCH", place, content), 202):
            self.begun[place] = len(content)
            return True
        return False

    def fill(self):
        """Goes on until nothing was taken so often in a row. Of ten blobs one is the chunk of an upload, as long as
        there is a place for it."""
        vain = 0
        while vain < REFUSED:
            begins = len(self.begun) < 900 and self.chance.random() < 0.1
            vain = 0 if (self.begin() if begins else self.store()) else vain + 1
        self.connection.close()


def replies(filling):
    """Requests that take no memory, or hardly any, each with the status and the body that are wanted."""
    chance = random.Random(0)
    for content in chance.sample(filling.stored, min(BLOBS, len(filling.stored))):
        blob = f"/v2/lib/a/blobs/{sha256(content)}"
        yield "GET", blob, b"", (200, content)
        yield "HEAD", blob, b"", (200, b"")
    for place, held in chance.sample(sorted(filling.begun.items()), min(BLOBS, len(filling.begun))):
        yield "GET", place, b"", (204, held)
    missing = f"/v2/lib/a/blobs/{sha256(b'')}"
    for _ in range(TIMES):
        yield "GET", "/v2/", b"", (200, b"")
        yield "HEAD", missing, b"", (404, b"")
        yield "GET", missing, b"", (404, None)
        yield "GET", "/v2/lib/a/blobs/uploads/ffffffff-0000-8000-8000-000000000000", b"", (404, None)
        yield "GET", "/v2/lib/a/blobs/sha256:12", b"", (400, None)
        yield "GET", "/v2/LIB/blobs/" + sha256(b""), b"", (404, None)
        yield "DELETE", missing, b"", (405, None)
        yield "PUT", "/v2/lib/a/blobs/uploads/ffffffff-0000-8000-8000-000000000000?digest=" + sha256(b""), b"", (
            404,
            None,
        )


def told(reply, wanted):
    """What a reply tells in the place of what was wanted; nothing if it is that."""
    status, body = wanted
    if reply is None:
        return "no reply"
    if reply.status != status:
        return reply.status
    if isinstance(body, int):
        return None if reply.held() == body else f"{reply.held()} bytes in place of {body}"
    return None if body is None or reply.body == body else "another body"


def asked(server, wanted):
    """What one worker says in the place of what was wanted, each request over a connection of its own."""
    others = collections.Counter()
    for method, target, body, reply in wanted:
        connection = Connection(server.place())
        connection.send(request_text(method, target, body, [("Connection", "close")]))
        if other := told(connection.hear(method), reply):
            others[f"{method} {reply[0]}: {other}"] += 1
        connection.close()
    return others


def held(server):
    """A connection that keeps the worker that serves it, and what was heard over it."""
    connection = Connection(server.place())
    connection.send(request_text("GET", "/v2/"))
    reply = connection.hear("GET")
    return connection, reply and reply.status


def limited(space, heap):
    """A server with so many KiB of address space, and these heaps."""
    return running.Server(1_000_000, env=heap | HELD, limits=[f"-v {space}"], stderr=subprocess.DEVNULL)


def serves(space, heap):
    """Whether each of its two workers answers in so many KiB of address space."""
    with limited(space, heap) as server, contextlib.ExitStack() as stack:
        if not server.first_line.startswith("listening "):
            return False
        for _ in range(2):
            # one whose worker couldn't start is refused, or ended without a reply
            with contextlib.suppress(OSError):
                connection = stack.enter_context(connected(server.place()))
                connection.sendall(request_text("GET", "/v2/"))
                if connection.recv(12) == b"HTTP/1.1 200":
                    continue
            return False
        return True


@functools.cache
def needed(heap):
    """The KiB of address space that a server with these heaps needs at least to serve."""
    too_little, enough = 0, MOST_NEEDED
    while enough - too_little > STEP:
        middle = (too_little + enough) // 2
        if all(serves(middle, HEAPS[heap]) for _ in range(TRIES)):
            enough = middle
        else:
            too_little = middle
    check(f"it serves, {heap}", enough < MOST_NEEDED, enough)
    print(f"{heap}: it needs {enough / KIB:.1f} MiB of address space to serve", flush=True)
    return enough


def within_least(heap):
    """A server with as little address space as it needs to serve, and to hold what it may."""
    room = ROOM if HEAPS[heap] else ROOM + HEAPS_SPACE
    return limited(needed(heap) + room // KIB, HEAPS[heap])


def full(name, size, heap, seed):
    with within_least(heap) as server:
        # This connection keeps one worker: the other one fills.
        keeping, status = held(server)
        equal(f"a worker is kept: {name}", status, 200)
        filling = Filling(server, size, seed)
        filling.fill()
        wanted = list(replies(filling))
        others = set(filling.refused) - {503, None}
        check(f"refused when memory is full: {name}", not others, filling.refused)
        equal(f"the worker that filled: {name}", asked(server, wanted), {})
        unused, status = held(server)
        keeping.close()
        equal(f"the other worker: {name}", (status, asked(server, wanted)), (200, {}))
        unused.close()
        check(f"the server goes on: {name}", server.process.poll() is None)


def unused_worker(name, heap):
    """A worker that had served nobody before another one filled the memory, over one connection."""
    with within_least(heap) as server:
        filling = Filling(server, SIZES["30,000 bytes"], 0)
        only = filling.connection
        check(f"a worker serves: {name}", filling.store())
        # Large ones first: a thread's heap has 64 MiB of address space before it needs more.
        for filling.size in SIZES["30,000 bytes"], SIZES["128 bytes"]:
            vain = 0
            while vain < REFUSED and filling.asked < REQUESTS:
                vain = 0 if filling.store() else vain + 1
        equal(f"one connection filled it: {name}", (vain, only.is_open), (REFUSED, True))
        equal(f"the worker that had served nobody: {name}", asked(server, list(replies(filling))), {})
        only.close()


@case()
def test_unused():
    for heap in HEAPS:
        unused_worker(heap, heap)


@case()
def test_full():
    for seed, (sizes, size) in enumerate(SIZES.items()):
        for heap in HEAPS:
            full(f"{sizes}, {heap}", size, heap, seed)


if __name__ == "__main__":
    main(__doc__)
