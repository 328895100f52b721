#!/usr/bin/env python3
"""Figures of `blobd serve` with a data directory, beside itself without one and docker-registry on the same disk.

    disk.py PROGRAM [--folder FOLDER] [--mib SIZE] [--blobs COUNT] [--runs N] [--starts] [--start-gib GIB] [--small COUNT]
    disk.py PROGRAM --syncs MICROSECONDS.. [--runs N]

The servers take turns, each run with a new server and a new folder in FOLDER, which should be on a disk and not in
memory. A figure is the best of the runs. Uploads are compared with `sha256sum` on the same bytes, in the same runs; small
blobs are counted by the second, beside the syncs of a journal alone: two for each request, or for each round of all
clients, in which each has a request. These clients are wrk's, and each asks as soon as it is answered; if wrk isn't
installed, one thread of Python sends a request of each before it reads a reply, and is slower than the server. A
request that changes nothing waits beside uploads of four times SIZE: its longest wait, and the longest of a sync beside
the same. A start is that of a server with a directory that has eight blobs of SIZE, in one body each or in chunks of
4 MiB, and that of one which was compacted since; `--start-gib` adds one with so many GiB of them. `blobd compact` has
eight blobs of SIZE in one body each, or twenty times COUNT small ones, or as many as `--small` says. It is measured
beside a start with them, and what it writes of the small ones beside the same bytes written one behind another, with a
sync at their end, in the same run. `--starts` measures no more than starts and compactions.

`--syncs` measures no more than small blobs by clients of wrk, with a directory in memory and syncs that take so long
(tests/shims/slow.c): beside two such syncs for each round of all clients, and with how many changes a round of the
server had. It needs wrk and cc.

Needs Linux.
"""
import collections
import contextlib
import functools
import hashlib
import os
import shutil
import socket
import subprocess
import sys
import tempfile
import time

import loopback
import raw
import servers
from harness import running, shims
from harness.running import MIB
from harness.suite import OPTIONS

SMALL_SIZE = 1_024
KIB = 1 << 10
CROWD = 16
# how often the blob is uploaded beside a request that waits, and how many others before a start
BESIDE, BEFORE_A_START = 4, 8
# how many times COUNT small blobs are compacted
COMPACTED = 20
CHUNK = 4 * MIB
SECTOR = 4_096
# the head of a batch of a journal
HEAD_LEN = 32
# what wrk runs, for how many seconds, and how many blobs there are for it, more than are stored meanwhile
WRK_SCRIPT = os.path.join(os.path.dirname(os.path.abspath(__file__)), "blobs.lua")
WRK_SECONDS, WRK_BLOBS = 2, 200_000


class OnDisk(loopback.Blobd):
    """`blobd serve` with a data directory, which is new unless it is given."""

    name = "blobd with data"

    def __init__(self, settings, data=None):
        super().__init__(settings, CROWD)
        self.name, self.data = OnDisk.name, data

    def begun(self):
        self.folder = self.data or tempfile.mkdtemp(dir=OPTIONS.folder)
        self.settings = self.settings | {"BLOBD_DATA": os.path.join(self.folder, "data")}
        return super().begun()

    def __exit__(self, *fault):
        super().__exit__(*fault)
        if not self.data:
            shutil.rmtree(self.folder)


class InMemory(loopback.Blobd):
    def __init__(self, settings):
        super().__init__(settings, CROWD)
        self.name = "blobd"


class DockerRegistry(loopback.DockerRegistry):
    """docker-registry with its files in a new folder."""

    def __init__(self):
        super().__init__(None)

    def begun(self):
        self.folder = tempfile.mkdtemp(dir=OPTIONS.folder)
        return super().begun()

    def __exit__(self, *fault):
        super().__exit__(*fault)
        shutil.rmtree(self.folder)


def timed(server, work):
    """The seconds that some work takes over a connection to a new server."""
    with server, server.connect() as connection:
        return loopback.seconds(lambda: work(connection))


def at_once(server, works):
    """The same of works that each have a connection of their own."""
    with server, contextlib.ExitStack() as all_:
        connections = [all_.enter_context(server.connect()) for _ in works]
        return loopback.seconds_of_both([functools.partial(*pair) for pair in zip(works, connections)])


def small_blob(number):
    """A small blob, and its digest."""
    content = number.to_bytes(8, "big") * (SMALL_SIZE // 8)
    return content, "sha256:" + hashlib.sha256(content).hexdigest()


class Round:
    """Clients that each store a small blob by an opening and a close: all send theirs, and then all read their replies.
    One thread does so, which waits for the server and not for other threads of its own."""

    def __init__(self, connections):
        self.connections = connections

    def asked(self, heads, status):
        """The replies to a request of each client."""
        for connection, head in zip(self.connections, heads):
            connection.socket.sendall(head)
        return [loopback.wanted(connection.reply(), status) for connection in self.connections]

    def store(self, blobs):
        openings = [each.head("POST", "/v2/lib/a/blobs/uploads/", Content_Length=0) for each in self.connections]
        begun = self.asked(openings, 202)
        closes = []
        for connection, opening, (content, digest) in zip(self.connections, begun, blobs):
            place = raw.closing_target(raw.target_of(opening.fields), digest)
            closes.append(connection.head("PUT", place, Content_Length=SMALL_SIZE) + content)
        self.asked(closes, 201)


def small_blobs(count, clients, server):
    """The seconds in which so many clients store so many small blobs together, or some less."""
    blobs = [small_blob(number) for number in range(count)]
    with server, contextlib.ExitStack() as all_:
        round_ = Round([all_.enter_context(server.connect()) for _ in range(clients)])

        def work():
            for first in range(0, count - clients + 1, clients):
                round_.store(blobs[first : first + clients])

        return loopback.seconds(work)


@functools.cache
def digests():
    return "".join(f"{small_blob(number)[1]}\n" for number in range(WRK_BLOBS))


def stored_by_wrk(clients, server):
    """How many small blobs so many clients of wrk store in its time, and the seconds that they took."""
    with server, tempfile.NamedTemporaryFile("w") as file:
        file.write(digests())
        file.flush()
        many, (host, port) = str(clients), server.place()
        words = ["wrk", "--threads", many, "--connections", many, "--duration", f"{WRK_SECONDS}s", "--timeout", "10s"]
        words += ["--script", WRK_SCRIPT, f"http://{host}:{port}", file.name, many]
        told = subprocess.run(words, check=True, capture_output=True, text=True).stdout
    stored, taken, faults = map(float, told.split()[-3:])
    if faults:
        sys.exit(f"wrk: {told}")
    return stored, taken


def small_blobs_by_wrk(count, clients, server):
    """The seconds in which clients of wrk store so many, from how many they store in its time."""
    stored, taken = stored_by_wrk(clients, server)
    return taken * count / stored


def uploaded(blob, chunk, connection):
    loopback.upload(connection, "lib/a", blob, chunk)


def pulled(blob, server):
    with server, server.connect() as connection:
        loopback.upload_whole(connection, "lib/a", blob)
        room = bytearray(MIB)
        return loopback.seconds(lambda: loopback.pull(connection, "lib/a", blob, room))


def rows(blob):
    """What is measured: a name, its bytes or the clients of its small blobs, and the seconds that a server takes."""
    for size in (blob.size, 16 * MIB, 4 * MIB, MIB):
        name = "one body" if size == blob.size else f"chunks of {size // MIB} MiB"
        work = functools.partial(uploaded, blob, size)
        yield name, blob.size, None, lambda server, work=work: timed(server, work)
    two = [functools.partial(uploaded, blob, blob.size)] * 2
    yield "two bodies at once", 2 * blob.size, None, lambda server: at_once(server, two)
    yield "a pull", blob.size, None, functools.partial(pulled, blob)
    count = OPTIONS.blobs
    yield f"{count} small blobs", None, 1, functools.partial(small_blobs, count, 1)
    whole = count // CROWD * CROWD
    if shutil.which("wrk"):
        yield f"the same by {CROWD} clients", None, CROWD, functools.partial(small_blobs_by_wrk, whole, CROWD)
    else:
        name = f"the same by {CROWD} clients in one thread, without wrk"
        yield name, None, CROWD, functools.partial(small_blobs, whole, CROWD)


def synced(file, at, content):
    """Writes at a place of a file, and syncs."""
    os.pwrite(file.fileno(), content, at)
    os.fdatasync(file.fileno())


def rounds_alone(clients):
    """The seconds of what a journal does for the small blobs of so many clients, by nothing else: a round of openings
    and one of closes for each of a client's, a gate with each round, and a sync behind each write. They are a share of
    as many rounds as one client has, so that it takes long enough to be measured."""
    with tempfile.TemporaryFile(dir=OPTIONS.folder) as file:
        rounds, size = OPTIONS.blobs * 2, clients * SMALL_SIZE + SECTOR
        os.posix_fallocate(file.fileno(), 0, rounds * (size + SECTOR))
        os.fsync(file.fileno())

        def work():
            for at in range(0, rounds * (size + SECTOR), size + SECTOR):
                synced(file, at + SECTOR, bytes(size))
                synced(file, at, bytes(SECTOR))

        return loopback.seconds(work) * (OPTIONS.blobs // clients) / OPTIONS.blobs


def uploads(blob, connection):
    for number in range(BESIDE):
        loopback.upload_whole(connection, f"lib/{number}", blob)


def longest_sync(server, work):
    """The longest of a sync while some work goes on."""
    times = [0]
    with tempfile.TemporaryFile(dir=OPTIONS.folder) as file, loopback.Beside(work) as working:
        while working.is_alive():
            times.append(loopback.seconds(lambda: synced(file, 0, bytes(SECTOR))))
    return max(times)


def waited(settings, blob):
    """The longest wait of a request that changes nothing beside uploads, and the longest sync beside the same."""
    best = []
    for _ in range(OPTIONS.runs):
        pair = []
        for measure in (lambda server, work: loopback.longest_waits(server, work)[0], longest_sync):
            with OnDisk(settings) as server, server.connect() as connection:
                pair.append(measure(server, functools.partial(uploads, blob, connection)))
        best.append(pair)
    return min(best)


def large_blobs(blob, chunk, server, count=BEFORE_A_START):
    """Has a new server get so many blobs of this size, each sent in chunks of that size."""
    with server, server.connect() as connection:
        for _ in range(count):
            # another one: a start would remove what was sent of one that is there
            blob.write()
            loopback.upload(connection, "lib/a", blob, chunk)


def compact(settings, data):
    """Has `blobd compact` write the journal of a directory anew."""
    words, env = [OPTIONS.program, "compact", data], running.environment(settings)
    subprocess.run(words, env=env, check=True, capture_output=True)


def started(settings, blob, chunk, is_compacted=False, count=BEFORE_A_START):
    """A start with so many blobs of this size, each sent in chunks of that size, and compacted if that is said: the bytes
    that it reads in a second, and `sha256sum`'s in the same run."""
    with tempfile.TemporaryDirectory(dir=OPTIONS.folder) as folder:
        server = OnDisk(settings, folder)
        large_blobs(blob, chunk, server, count)
        if is_compacted:
            compact(settings, server.settings["BLOBD_DATA"])
        best = []
        for _ in range(OPTIONS.runs):
            taken = loopback.seconds(lambda: server.__enter__())
            server.__exit__()
            best.append((count * blob.size / taken, blob.size / loopback.hashed(blob)[0]))
    return max(best)


def write_alone(size, file):
    """Writes so many bytes one behind another, and syncs."""
    part = os.urandom(MIB)
    for left in range(size, 0, -MIB):
        file.write(part[:left])
    os.fdatasync(file.fileno())


def written_alone(size):
    """The seconds of that, on the disk of the data directories."""
    with tempfile.TemporaryFile(dir=OPTIONS.folder, buffering=0) as file:
        return loopback.seconds(lambda: write_alone(size, file))


# A compaction: the seconds that it takes, those of a start before it, how many bytes its journal has, and the seconds in
# which as many are written alone.
Compacted = collections.namedtuple("Compacted", ["taken", "start", "size", "alone"])


def compacted(settings, fill):
    """A compaction of a directory that a server was filled with: the best of some, beside a start with it."""
    with tempfile.TemporaryDirectory(dir=OPTIONS.folder) as folder:
        server = OnDisk(settings, folder)
        fill(server)
        best = []
        for number in range(OPTIONS.runs):
            copy = os.path.join(folder, f"copy-{number}")
            shutil.copytree(server.settings["BLOBD_DATA"], copy)
            start = loopback.seconds(lambda: server.__enter__())
            server.__exit__()
            taken = loopback.seconds(functools.partial(compact, settings, copy))
            size = os.path.getsize(os.path.join(copy, "journal"))
            best.append(Compacted(taken, start, size, written_alone(size)))
            shutil.rmtree(copy)
    return min(best, key=lambda one: one.taken / one.start)


def measured(all_, blob):
    for name, size, clients, work in rows(blob):
        best, plain = {}, []
        for _ in range(OPTIONS.runs):
            plain.append(rounds_alone(clients) if clients else loopback.hashed(blob)[0])
            for server in all_:
                best[server.name] = min(work(server), best.get(server.name, float("inf")))
        for server, taken in best.items():
            if clients:
                count = OPTIONS.blobs // clients * clients
                beside = f"{min(plain) / taken:.2f} of the syncs alone"
                yield [name, server, f"{count / taken:,.0f} a second", beside]
            else:
                beside = f"{size / blob.size * min(plain) / taken:.2f} of `sha256sum`"
                yield [name, server, f"{size / taken / 1e6:,.0f} MB/s", beside]


def all_lines(settings, all_, blob):
    """All rows, one after another."""
    if not OPTIONS.starts:
        yield from measured(all_, blob)
        wait, sync = waited(settings, blob)
        beside = f"{wait / sync:.1f} of the longest sync there"
        yield ["a GET beside uploads", OnDisk.name, f"{wait * 1e3:,.1f} ms at most", beside]
    yield from all_starts(settings, blob)
    yield from all_compactions(settings, blob)


def all_starts(settings, blob):
    starts = [("a start", blob.size), ("a start with chunks", CHUNK), ("the same, compacted", CHUNK, True)]
    if OPTIONS.start_gib:
        starts.append((f"a start with {OPTIONS.start_gib} GiB", blob.size, False, OPTIONS.start_gib * KIB // OPTIONS.mib))
    for name, *how in starts:
        read, plain = started(settings, blob, *how)
        yield [name, OnDisk.name, f"{read / 1e6:,.0f} MB/s", f"{read / plain:.2f} of `sha256sum`"]


def all_compactions(settings, blob):
    one = compacted(settings, functools.partial(large_blobs, blob, blob.size))
    beside = f"{one.taken / one.start:.2f} of a start with them"
    speed = f"{BEFORE_A_START * blob.size / one.taken / 1e6:,.0f} MB/s"
    yield [f"a compaction of {BEFORE_A_START} blobs", "blobd compact", speed, beside]
    count = OPTIONS.small or COMPACTED * OPTIONS.blobs
    one = compacted(settings, functools.partial(small_blobs, count, CROWD))
    beside = f"{one.taken / one.start:.2f} of a start with them"
    yield [f"a compaction of {count} small blobs", "blobd compact", f"{count / one.taken:,.0f} a second", beside]
    beside = f"{one.alone / one.taken:.2f} of writes one behind another"
    yield ["what that writes", "blobd compact", f"{one.size / one.taken / 1e6:,.0f} MB/s", beside]


def rounds_of(data):
    """How many batches the journal of a directory has, one for each round: each is behind the sector of its open gate,
    and the third number of its head is the length of its records."""
    at, count = SECTOR, 0
    with open(os.path.join(data, "journal"), "rb") as file:
        while os.pread(file.fileno(), 1, at) == b"\1":
            length = int.from_bytes(os.pread(file.fileno(), 8, at + SECTOR + 16), "big")
            at += SECTOR + -(-(HEAD_LEN + length) // SECTOR) * SECTOR
            count += 1
    return count


def with_slow_syncs(settings):
    """Small blobs by clients of wrk, with a directory in memory and syncs that each take as long as is said."""
    for micros in OPTIONS.syncs:
        best = []
        for _ in range(OPTIONS.runs):
            with tempfile.TemporaryDirectory(dir="/dev/shm") as folder:
                server = OnDisk(settings | shims.loaded(folder, "slow", SYNC_MICROS=micros), folder)
                stored, taken = stored_by_wrk(CROWD, server)
                # a blob is an opening and a close
                best.append((stored / taken, 2 * stored / rounds_of(server.settings["BLOBD_DATA"])))
        speed, changes = max(best)
        # two rounds for a blob of each client, of two syncs each
        beside = f"{speed * 4 * micros / 1e6 / CROWD:.2f} of the syncs alone, {changes:.1f} changes a round"
        yield [f"{CROWD} clients, syncs of {micros} us", OnDisk.name, f"{speed:,.0f} a second", beside]


def tell(lines):
    told = []
    for line in lines:
        # each is told as soon as it is measured
        print("measured:", *line, sep="  ", file=sys.stderr, flush=True)
        told.append(line)
    raw.print_table(["row", "server", "speed", "beside"], told)


def main(settings):
    all_ = [OnDisk(settings), InMemory(settings)]
    if not servers.missing("docker-registry"):
        all_.append(DockerRegistry())
    with tempfile.TemporaryDirectory(dir="/dev/shm") as folder:
        blob = loopback.Blob(os.path.join(folder, "blob"), OPTIONS.mib * MIB)
        blob.write()
        tell(all_lines(settings, all_, blob))


if __name__ == "__main__":
    import argparse

    parser = argparse.ArgumentParser(description=__doc__, formatter_class=argparse.RawDescriptionHelpFormatter)
    parser.add_argument("program")
    parser.add_argument("--folder", default=".", help="where the data directories are made (%(default)s)")
    parser.add_argument("--mib", type=int, default=256, help="the size of a blob (%(default)s)")
    parser.add_argument("--blobs", type=int, default=1_000, help="how many small blobs are stored (%(default)s)")
    parser.add_argument("--runs", type=int, default=3, help="how often each is measured (%(default)s)")
    parser.add_argument("--starts", action="store_true", help="measure starts and compactions alone")
    parser.add_argument("--start-gib", type=int, default=0, help="a start with so many GiB more (none)")
    parser.add_argument("--small", type=int, default=0, help="how many small blobs are compacted (twenty times COUNT)")
    parser.add_argument("--syncs", type=int, nargs="+", metavar="MICROSECONDS", help="small blobs alone, by such syncs")
    parser.parse_args(namespace=OPTIONS)
    OPTIONS.program, OPTIONS.folder = map(os.path.abspath, (OPTIONS.program, OPTIONS.folder))
    if not OPTIONS.syncs:
        main(servers.MALLOC)
    elif missing := servers.missing("wrk", "cc"):
        sys.exit(f"not installed: {', '.join(missing)}")
    else:
        tell(with_slow_syncs(servers.MALLOC))
