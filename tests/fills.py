#!/usr/bin/env python3
"""Fills `blobd serve` by everything that clients do, and then asks each of its workers for what takes no memory.

    fills.py PROGRAM [--seconds N] [--times N] [--seed S]

Clients store blobs, send uploads in chunks and close or leave them, mount, are refused, and go away inside a body. The
bodies have 128 bytes to 8 MiB, with a length or chunked. There are fewer clients than workers, so some workers have
served nobody. Each server has a limit on its address space, or a budget (BLOBD_MEMORY; skipped if the program has
none), or neither, and heaps of one kind. Once it is full, each worker is asked for what is stored, for the status of
uploads and for what is refused, many times: each request has to get its usual reply.

Without one heap for all threads a worker may find no memory though another has some. So with a limit the heap is one
(docs/OPERATIONS.md, "Memory").
"""
import collections
import concurrent.futures
import contextlib
import dataclasses
import hashlib
import os
import random
import time

from harness import running, shims
from harness.running import MIB
from harness.suite import OPTIONS, case, check, equal, main, skip
from harness.wire import PATIENCE, Connection, chunk_text, head_text, request_text, sha256
import servers

SMALLEST, LARGEST = 128, 8 * MIB
# Without a limit clients store so much, and nothing large from then on.
MOST = 400 * MIB
# So often each client has to be refused for want of room.
REFUSED = 20
# What a server may hold beside its budget: a quarter of it, its program and its threads.
BASE = 48 * MIB
# What each further heap may keep of what was freed in it: malloc trims a heap once twice the largest block that it gave
# back, a part of 4 MiB, is free at its end.
KEPT_FREE = 8 * MIB
# How many blobs, and how many uploads, each worker is asked for.
ASKED = 6

# How many uploads may be open.
TABLE = 1_024
# Where no upload stands.
FAR = "Content-Range", f"{10**12}-{10**12}"

AS_IT_IS = {"GLIBC_TUNABLES": None}
ONE_HEAP = {"GLIBC_TUNABLES": "glibc.malloc.arena_max=1"}
# the first of the settings that `make serve` has
HUGE_PAGES = {name: value.partition(":")[0] for name, value in servers.MALLOC.items()}


@dataclasses.dataclass(frozen=True)
class Setting:
    """A server, and how many clients it has."""

    workers: int
    clients: int
    heap: dict
    # MiB of address space beside what it has once it listens
    room: int = 0
    # MiB that it may hold
    budget: int = 0

    def __str__(self):
        limit = f"{self.room} MiB of address space" if self.room else "no limit"
        budget = f"a budget of {self.budget} MiB" if self.budget else "no budget"
        heap = " ".join(value or "heaps as they are" for value in self.heap.values())
        return f"{self.workers} workers, {self.clients} clients, {limit}, {budget}, {heap}"

    @property
    def is_limited(self):
        return bool(self.room or self.budget)

    @property
    def most_resident(self):
        """How many bytes may be resident, with a budget."""
        heaps = 1 if any("arena_max=1" in (value or "") for value in self.heap.values()) else self.workers
        return self.budget * MIB * 5 // 4 + BASE + (heaps - 1) * KEPT_FREE

    def server(self, **env):
        """One with these variables too."""
        budget = {"BLOBD_MEMORY": f"{self.budget}M"} if self.budget else {}
        env = self.heap | budget | env | {"BLOBD_WORKERS": self.workers}
        limits = []
        if self.room:
            with running.Server(env=env) as server:
                limits = [f"-v {(server.address_space() + self.room * MIB) // 1024}"]
        return running.Server(env=env, limits=limits)


def has_budget():
    """Whether the program takes one."""
    is_there = "BLOBD_MEMORY" in running.run("--help")[0]
    if not is_there:
        skip("a budget", "the program has none")
    return is_there


class Filler:
    """A client that does what it likes until its time is over, and notes what it is told."""

    def __init__(self, server, setting, seed):
        self.server, self.setting, self.chance = server, setting, random.Random(seed)
        self.connection, self.name = Connection(server.place()), f"lib/{seed}"
        # blobs, and how many bytes an upload may have
        self.stored, self.held = [], {}
        self.seen, self.wrong, self.refused, self.taken = collections.Counter(), [], 0, 0
        self.works = [self.single] * 6 + [self.upload] * 4
        self.works += [self.misplace, self.mistake, self.cut, self.outsize, self.mount]

    def run(self):
        end, patience = time.monotonic() + OPTIONS.seconds, time.monotonic() + PATIENCE
        while time.monotonic() < end or (self.setting.is_limited and self.refused < REFUSED):
            self.chance.choice(self.works)()
            if time.monotonic() > patience:
                break
        self.connection.close()
        return self

    def content(self):
        largest = SMALLEST * 32 if not self.setting.is_limited and self.taken > MOST else LARGEST
        size = int(SMALLEST * (largest / SMALLEST) ** self.chance.random())
        self.taken += size
        return self.chance.randbytes(size)

    def text(self, method, target, body, fields=()):
        """A request whose body has a length, or is chunked in parts of one size."""
        if not body or self.chance.random() < 0.7:
            return request_text(method, target, body, fields)
        size = self.chance.choice((1_000, 60_000, 1_000_000))
        parts = [body[at : at + size] for at in range(0, len(body), size)]
        head = head_text(method, target, [("Host", "h"), *fields, ("Transfer-Encoding", "chunked")])
        return head + b"".join(map(chunk_text, [*parts, b""]))

    def ask(self, wanted, method, target, body=b"", fields=()):
        """The reply if it is the wanted one. For want of room there may be another, or none."""
        if not self.connection.is_open:
            self.connection.connect()
        self.connection.send(self.text(method, target, body, fields))
        reply = self.connection.hear(method)
        status = reply.status if reply else None
        self.seen[f"{method} {status}"] += 1
        if status == wanted:
            return reply
        lacks = {503, None} if body or self.setting.room else {503}
        if self.setting.is_limited and status in lacks:
            self.refused += 1
        # a connection ends behind its 10,000th request, and a table has 1,024 uploads
        elif status != 429:
            self.wrong.append((method, target[:60], len(body), status, wanted))
        return None

    def single(self):
        content = self.content()
        target = f"/v2/{self.name}/blobs/uploads/?digest={sha256(content)}"
        if self.ask(201, "POST", target, content):
            self.stored.append((sha256(content), len(content)))

    def upload(self):
        """An upload of some chunks, which is closed, or left."""
        opening = self.ask(202, "POST", f"/v2/{self.name}/blobs/uploads/")
        if not opening:
            return
        place, content = opening.fields["Location"], b""
        self.held[place] = {0}
        for _ in range(self.chance.randrange(4)):
            chunk = self.content()
            self.held[place] = {len(content), len(content) + len(chunk)}
            if not self.ask(202, "PATCH", place, chunk):
                return
            content += chunk
            self.held[place] = {len(content)}
        # the table has room for 1,024
        if self.chance.random() < 0.7 or len(self.held) > 1_000 // self.setting.clients:
            last = self.content() if self.chance.random() < 0.3 else b""
            # what becomes of it isn't known if there is no reply
            del self.held[place]
            if self.ask(201, "PUT", f"{place}?digest={sha256(content + last)}", last):
                self.stored.append((sha256(content + last), len(content + last)))

    def an_upload(self):
        return self.chance.choice(list(self.held)) if self.held else None

    def misplace(self):
        """A chunk at a place where no upload stands."""
        if place := self.an_upload():
            self.ask(416, "PATCH", place, self.content(), [FAR])

    def mistake(self):
        """A blob under another digest, and a close under another."""
        content = self.content()
        self.ask(400, "POST", f"/v2/{self.name}/blobs/uploads/?digest={sha256(b'another')}", content)
        if place := self.an_upload():
            self.ask(400, "PUT", f"{place}?digest={sha256(b'another')}", content)

    def cut(self):
        """A body that ends before its end, of an upload or of a blob."""
        content = self.content()
        target = self.an_upload() or f"/v2/{self.name}/blobs/uploads/?digest={sha256(content)}"
        text = self.text("PATCH" if target in self.held else "POST", target, content)
        self.connection.close()
        self.connection.connect()
        # never the whole body
        self.connection.send(text[: -self.chance.randrange(6, len(content))])
        self.connection.close(with_reset=self.chance.random() < 0.5)

    def outsize(self):
        with contextlib.suppress(OSError):
            reply = self.server.exchange(b"POST /v2/ HTTP/1.1\r\nContent-Length: 2147483649\r\n\r\n" + bytes(100_000))
            self.seen[f"outsize {reply[9:12].decode()}"] += 1
            if not reply.startswith(b"HTTP/1.1 413 "):
                self.wrong.append(("outsize", reply[:100]))

    def mount(self):
        if self.stored:
            digest, _ = self.chance.choice(self.stored)
            self.ask(201, "POST", f"/v2/{self.name}-b/blobs/uploads/?mount={digest}&from={self.name}")


def pulls(filler, chance):
    """Requests for blobs, each with the status that is wanted, and the digest."""
    for digest, _ in chance.sample(filler.stored, min(ASKED, len(filler.stored))):
        yield "GET", f"/v2/{filler.name}/blobs/{digest}", b"", 200, digest


def others(filler, chance):
    """Other requests that take no memory for what they ask, each with the status that is wanted, and what else is."""
    yield "GET", "/v2/", b"", 200, None
    for digest, size in chance.sample(filler.stored, min(ASKED, len(filler.stored))):
        yield "HEAD", f"/v2/{filler.name}/blobs/{digest}", b"", 200, size
    for place, may_be in chance.sample(sorted(filler.held.items()), min(ASKED, len(filler.held))):
        yield "GET", place, b"", 204, may_be
        yield "PATCH", place, b"x", 416, None
    missing = f"/v2/lib/a/blobs/{sha256(b'missing')}"
    unknown = "/v2/lib/a/blobs/uploads/ffffffff-0000-8000-8000-000000000000"
    yield "HEAD", missing, b"", 404, None
    yield "GET", missing, b"", 404, None
    yield "DELETE", missing, b"", 405, None
    yield "GET", "/v2/lib/a/blobs/sha256:12", b"", 400, None
    yield "GET", "/v2/LIB/blobs/" + sha256(b""), b"", 404, None
    yield "GET", unknown, b"", 404, None
    yield "PUT", f"{unknown}?digest={sha256(b'')}", b"", 404, None


def answered(connection, asked):
    """What is told over a connection in the place of what is wanted."""
    method, target, body, status, more = asked
    connection.send(request_text(method, target, body, [FAR] if status == 416 else []))
    reply = connection.hear(method)
    if reply is None:
        return "no reply"
    if reply.status != status:
        return reply.status
    if isinstance(more, set):
        return None if reply.held() in more else f"{reply.held()} bytes"
    if isinstance(more, int):
        return None if reply.fields["Content-Length"] == str(more) else "another length"
    if isinstance(more, str):
        return None if "sha256:" + hashlib.sha256(reply.body).hexdigest() == more else "other bytes"
    return None


def asked_of_each_worker(server, workers, small, large):
    """What workers tell in the place of what is wanted: as many connections as there are workers have one each. Each is
    asked for all that is small, and for one of the blobs by turns, again and again."""
    told = collections.Counter()
    with contextlib.ExitStack() as opened:
        connections = [opened.enter_context(Connection(server.place())) for _ in range(workers)]
        for connection in connections:
            connection.send(running.BASE)
            told["no first reply"] += connection.hear("GET") is None
        for turn in range(OPTIONS.times):
            for number, connection in enumerate(connections):
                at = (turn + number) % max(1, len(large))
                for asked in [*small, *large[at : at + 1]]:
                    if not connection.is_open:
                        connection.connect()
                    if other := answered(connection, asked):
                        told[f"{asked[0]} {asked[3]}: {other}"] += 1
    return +told


def filled(setting):
    with setting.server() as server, concurrent.futures.ThreadPoolExecutor(setting.clients) as pool:
        fillers = [Filler(server, setting, OPTIONS.seed * 100 + number) for number in range(setting.clients)]
        for filler in list(pool.map(Filler.run, fillers)):
            equal(f"what a client was told: {setting}", filler.wrong[:5], [])
            enough = filler.refused >= REFUSED
            check(f"it is full: {setting}", enough or not setting.is_limited, filler.seen)
        resident = server.memory()
        if setting.budget:
            most = setting.most_resident
            check(f"what is resident: {setting}", resident <= most, (resident, most))
        chance = random.Random(OPTIONS.seed)
        small, large = ([one for filler in fillers for one in kind(filler, chance)] for kind in (others, pulls))
        equal(f"each worker: {setting}", asked_of_each_worker(server, setting.workers, small, large), {})
        check(f"it goes on: {setting}", server.process.poll() is None)
        seen = sum((filler.seen for filler in fillers), collections.Counter())
        counts = ", ".join(f"{name} {count}" for name, count in sorted(seen.items()))
        print(f"{setting}: {resident // MIB} MiB resident: {counts}", flush=True)


def sent_until_refused(filler, size):
    """Opens as many uploads as there may be, and sends them chunks of this size, or of mixed sizes, until these are
    refused again and again. Gives how many were opened, and how many bytes they took."""
    places, taken, vain = [], 0, 0
    while len(places) < TABLE and vain < REFUSED:
        opening = filler.ask(202, "POST", f"/v2/{filler.name}/blobs/uploads/")
        vain = 0 if opening else vain + 1
        places += [opening.fields["Location"]] if opening else []
    vain = 0
    while places and vain < REFUSED:
        chunk = filler.chance.randbytes(size) if size else filler.content()
        is_taken = filler.ask(202, "PATCH", filler.chance.choice(places), chunk)
        vain, taken = (0, taken + len(chunk)) if is_taken else (vain + 1, taken)
    return len(places), taken


def left(folder, setting, size):
    """A server that is full of uploads, each of which is left for more than an hour: another table of them has as much
    room."""
    ahead = os.path.join(folder, "ahead")
    clock = shims.loaded(folder, "ahead", CLOCK_AHEAD=ahead)
    shims.pass_time(ahead, 0)
    with setting.server(**clock) as server:
        filler = Filler(server, setting, OPTIONS.seed)
        first = sent_until_refused(filler, size)
        shims.pass_time(ahead, 3_700)
        second = sent_until_refused(filler, size)
        name = f"{setting}, chunks of {size or 'mixed'} bytes"
        equal(f"uploads, and others once these are left: {name}", (first[0], second[0]), (TABLE, TABLE))
        check(f"the room of uploads that are left: {name}", second[1] >= first[1] * 0.98, (first, second))
        equal(f"what the client was told: {name}", filler.wrong[:5], [])
        filler.connection.close()


@case("cc")
def room_comes_back(folder):
    """Large chunks alone, if there is no budget: behind small ones too little is free to open an upload, as which the
    others would go."""
    left(folder, Setting(2, 1, servers.MALLOC, room=100), 4 * MIB)
    if has_budget():
        for size in (0, 30_000, 4 * MIB):
            left(folder, Setting(2, 1, AS_IT_IS, budget=64), size)


@case()
def without_a_limit():
    filled(Setting(5, 3, AS_IT_IS))
    filled(Setting(16, 4, HUGE_PAGES))


@case()
def in_an_address_space():
    filled(Setting(2, 1, ONE_HEAP, room=120))
    filled(Setting(16, 6, servers.MALLOC, room=200))


@case()
def in_a_budget():
    if not has_budget():
        return
    for heap in (AS_IT_IS, ONE_HEAP, HUGE_PAGES, servers.MALLOC):
        filled(Setting(2, 1, heap, budget=64))
        filled(Setting(16, 6, heap, budget=160))
    for heap in (ONE_HEAP, servers.MALLOC):
        filled(Setting(16, 6, heap, budget=160, room=600))


if __name__ == "__main__":
    main(
        __doc__,
        seconds=(1, "how long the clients of each server go on"),
        times=(3, "how often each worker is asked for everything"),
        seed=(1, "of the clients"),
    )
