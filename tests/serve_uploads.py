#!/usr/bin/env python3
"""Uploads to `blobd serve`: their references, each status, many of them, two at once, pauses, clients that go away, and
which thread hashes, or lets many bytes go.

    serve_uploads.py PROGRAM
"""
import collections
import concurrent.futures
import contextlib
import hashlib
import os
import random
import subprocess
import threading
import time

from harness import shims
from harness.running import MIB, SERVED, TABLE_FULL, Server, ask_alone, becomes, pull
from harness.suite import case, check, equal, main, skip
from harness.wire import PATIENCE, sha256, sha512, vanish

UPLOADS = "/v2/lib/a/blobs/uploads/"
# how many may be open
MOST_UPLOADS = 1_024


@case()
def first_references():
    """Two servers draw secrets of their own: the references of their first sessions differ. Each has one worker, so
    that the same one answers."""
    places = []
    for _ in range(2):
        with Server(1, env={"BLOBD_WORKERS": 1}) as server:
            places.append(server.opened("lib/a"))
    check("the first references of two servers", places[0] != places[1], places)


@case()
def secrets_are_drawn():
    """Each reference has its number, a UUID's version and variant, and a secret of its own, whichever worker it is
    of."""
    with Server() as server, server.client() as one, server.client() as other:
        # each keeps a worker
        begun = [client.ask("GET", "/v2/").status for client in (one, other)]
        places = [client.opened("lib/a").removeprefix(UPLOADS) for client in (one, other) for _ in range(2)]
        numbers = [place[:8] for place in places]
        wanted = [f"{number:08x}" for number in range(1, 5)]
        equal("the numbers of references", (begun, numbers), ([200, 200], wanted))
        are_laid_out = all(len(p) == 36 and p[14] == "8" and p[19] in "89ab" for p in places)
        check("the layout of references", are_laid_out, places)
        check("the secrets of references", len({place[9:] for place in places}) == 4, places)


def status_cases(name, place, next_place, digest):
    """Requests of each kind about a session that has received three bytes, each with the status that it has to get."""
    uploads, blob = f"/v2/{name}/blobs/uploads/", f"/v2/{name}/blobs/{digest}"
    absent = sha256(b"absent")
    return [
        ("GET", "/v2/", b"", {}, 200),
        ("GET", "/v2/none", b"", {}, 404),
        ("PUT", "/v2/", b"", {}, 405),
        ("POST", f"/v2/{name.upper()}/blobs/uploads/", b"", {}, 404),
        ("POST", uploads, b"x", {}, 400),
        ("PATCH", place, b"de", {"Content_Range": "5-6"}, 416),
        ("PATCH", place, b"de", {"Content_Range": "0-1"}, 416),
        ("PATCH", place, b"de", {"Content_Range": "3-9"}, 400),
        ("PATCH", place, b"de", {"Content_Range": "bytes 3-4"}, 400),
        ("GET", place, b"", {}, 204),
        ("PUT", f"{place}?digest={digest}", b"d", {"Content_Range": "9-9"}, 416),
        ("PUT", f"{place}?digest={absent}", b"", {}, 400),
        ("PUT", f"{place}?digest=md5:0", b"", {}, 400),
        ("GET", blob, b"", {}, 404),
        ("PUT", f"{place}?digest={digest}", b"", {}, 201),
        ("PATCH", place, b"de", {}, 404),
        ("HEAD", blob, b"", {}, 200),
        ("GET", blob, b"", {}, 200),
        ("GET", f"/v2/{name}/blobs/sha256:0", b"", {}, 400),
        ("GET", f"/v2/{name}/blobs/{absent}", b"", {}, 404),
        ("POST", f"{uploads}?digest={absent}", b"absent", {}, 201),
        ("POST", f"{uploads}?mount={digest}&from={name}", b"", {}, 201),
        ("PATCH", next_place, b"x", {"Content_Range": "1-1"}, 416),
        ("PATCH", next_place, b"x", {}, 202),
    ]


def answered(client, name):
    """The statuses of such requests over one connection, up to an error, and those that are wanted."""
    places = [client.opened(name) for _ in range(2)]
    begun = client.ask("PATCH", places[0], b"abc").status
    cases = status_cases(name, *places, sha256(b"abc"))
    got = []
    try:
        for method, target, body, fields, _ in cases:
            got.append(client.ask(method, target, body, **fields).status)
    except OSError as error:
        got.append(error)
    return [begun, *got], [202, *(wanted for *_, wanted in cases)]


@case()
def statuses():
    """Each kind of answer is told by each worker, and the requests behind it are answered too."""
    with Server(stderr=subprocess.PIPE) as server, server.client() as one, server.client() as other:
        for which, client in enumerate((one, other)):
            equal(f"the statuses that worker {which} tells", *answered(client, f"lib/{which}"))
        opened = [one.ask("POST", "/v2/lib/many/blobs/uploads/").status for _ in range(1030)]
        # two sessions of answered() are still open
        is_right = opened == [202] * 1022 + [429] * 8
        check("as many sessions as there may be, and no more", is_right, opened[1015:])
        equal("what is told of that", server.told(), TABLE_FULL)


@case()
def many_uploads():
    """More uploads one behind the other than may be open at once, and more blobs: each is stored, and each comes
    back."""
    contents = [b"%d" % number for number in range(1_500)]
    with Server() as server, server.client() as client:
        statuses = collections.Counter()
        for content in contents:
            opening, fields, _ = client.ask("POST", UPLOADS)
            statuses[opening, client.ask("PUT", f"{fields['Location']}?digest={sha256(content)}", content).status] += 1
        equal("many uploads", statuses, {(202, 201): 1_500})
        pulled = [client.ask("GET", f"/v2/lib/a/blobs/{sha256(content)}").body for content in contents]
        equal("what many uploads left", pulled, contents)


@case()
def paused_upload():
    """A session of which four seconds nothing is heard is still open."""
    with Server() as server:
        place = server.opened("lib/a")
        first = ask_alone(server, "PATCH", place, b"abc").status
        time.sleep(4)
        second = ask_alone(server, "PATCH", place, b"def").status
        third = ask_alone(server, "PUT", f"{place}?digest={sha256(b'abcdef')}").status
        equal("an upload that pauses for four seconds", (first, second, third), (202, 202, 201))


@case("cc")
def idle_upload(folder):
    """An upload that pauses is there for an hour behind its last chunk, by the program's own clock, and not for
    longer."""
    ahead = os.path.join(folder, "ahead")
    with Server(env=shims.loaded(folder, "ahead", CLOCK_AHEAD=ahead)) as server:
        place, statuses = server.opened("lib/a"), []
        # seconds since the server began, and some more of the test's own: the last pause is longer than an hour, the
        # others aren't
        for seconds in (0, 3_500, 7_000, 10_602):
            shims.pass_time(ahead, seconds)
            statuses.append(ask_alone(server, "PATCH", place, b"a").status)
        equal("an upload that pauses for an hour", statuses, [202, 202, 202, 404])


def upload(server, name, content, size, meeting):
    """A whole upload over one connection, in chunks of this size, once the others have opened their sessions too."""
    with server.client() as client:
        place = client.opened(name)
        meeting.wait(timeout=PATIENCE)
        statuses = client.send_chunks(place, content, size)
        return [*statuses, client.ask("PUT", f"{place}?digest={sha256(content)}").status]


@case()
def two_uploads_at_once():
    contents = [random.Random(seed).randbytes(64 * MIB) for seed in (1, 2)]
    sizes, meeting = [64 * MIB, MIB], threading.Barrier(2)
    with Server(8) as server, concurrent.futures.ThreadPoolExecutor(2) as pool:
        names = ["lib/0", "lib/1"]
        uploads = [pool.submit(upload, server, *words, meeting) for words in zip(names, contents, sizes)]
        for which, done in enumerate(uploads):
            equal(f"upload {which} of two at once", done.result(), [202] * (64 * MIB // sizes[which]) + [201])
        for which, content in enumerate(contents):
            equal(f"what upload {which} of two left", pull(server, names[which], sha256(content)), content)
        equal("a repository that doesn't have it", pull(server, "lib/1", sha256(contents[0])), 404)
        equal("the last line after two uploads", server.end(), SERVED)


def vandalize(server, place, times):
    """Connections whose clients go away in mid-body, by a reset or by a close, and some before a reply is read."""
    head = f"PATCH {place} HTTP/1.1\r\nHost: h\r\nContent-Length: {MIB}\r\n\r\n".encode()
    for which in range(times):
        connection = server.connect()
        with contextlib.suppress(OSError):
            connection.sendall(head + bytes(which * MIB // times))
            if which % 3 == 2:
                connection.sendall(b"GET /v2/ HTTP/1.1\r\n")
            if which % 2:
                vanish(connection)
        connection.close()


def push_over_many(server, name, content):
    """A push in chunks, over a connection for each request."""
    with server.client() as client:
        client.is_fresh = True
        return client.push(name, content, 2 * MIB)


@case()
def clients_that_vanish():
    contents = [random.Random(seed).randbytes(32 * MIB) for seed in (3, 4)]
    with Server(200) as server, concurrent.futures.ThreadPoolExecutor(3) as pool:
        place = server.opened("lib/gone")
        uploads = [pool.submit(push_over_many, server, f"lib/{which}", contents[which]) for which in (0, 1)]
        vandal = pool.submit(vandalize, server, place, 30)
        for which, done in enumerate(uploads):
            equal(f"upload {which} beside clients that vanish", done.result(), [202] * 17 + [201])
        vandal.result()
        for which, content in enumerate(contents):
            digest = sha256(content)
            equal(f"what upload {which} left beside them", pull(server, f"lib/{which}", digest), content)
            for _ in range(4):
                connection = server.connect()
                connection.sendall(f"GET /v2/lib/{which}/blobs/{digest} HTTP/1.1\r\n\r\n".encode())
                connection.recv(1)
                vanish(connection)
        status, fields, _ = ask_alone(server, "GET", place)
        check("a session whose bodies were all cut", status == 204 and "Range" not in fields, (status, fields.items()))
        equal("the last line after clients that vanished", server.end(), SERVED)


def processor_times(server):
    """The seconds that the thread which owns the service has had a processor, and those of all other threads, also of
    those that have ended."""
    pid = server.process.pid
    with open(f"/proc/{pid}/task/{pid}/schedstat", encoding="ascii") as file:
        keeper = int(file.read().split()[0]) / 1e9
    with open(f"/proc/{pid}/stat", encoding="ascii") as file:
        ticks = sum(map(int, file.read().rpartition(")")[2].split()[11:13]))
    return keeper, ticks / os.sysconf("SC_CLK_TCK") - keeper


class Hashing:
    """A client of a server with one worker, which looks whether its uploads are hashed by the thread that owns the
    service, or by others."""

    def __init__(self, server, client):
        self.server, self.client = server, client
        self.chance, self.before, self.replies = random.Random(12), (0, 0), []

    def ask(self, method, target, body=b""):
        status, fields, _ = self.client.ask(method, target, body)
        self.replies.append(status)
        return fields["Location"]

    def spent(self):
        """The processor times since it was last asked. Once this request is answered, the thread that owns the service
        has done all that it had begun."""
        self.ask("GET", "/v2/")
        before, self.before = self.before, processor_times(self.server)
        return tuple(now - then for now, then in zip(self.before, before))

    def hashed_by_others(self, algorithm, *uploading):
        """Whether the thread that owns the service has little to do for an upload that is sent so, and other threads
        have much."""
        # no upload before had these bytes, so that no blob is replaced
        content = self.chance.randbytes(32 * MIB)
        digest = f"{algorithm}:{hashlib.new(algorithm, content).hexdigest()}"
        place = self.ask("POST", UPLOADS)
        self.spent()
        for method, target, part in uploading:
            self.ask(method, target.format(place=place, digest=digest), content[part])
        keeper, others = self.spent()
        return keeper * 4 < others, (keeper, others)


ALL, NOTHING = slice(None), slice(0)
# How an upload is sent: the requests, and which part of the content each has.
SINGLE = [("POST", UPLOADS + "?digest={digest}", ALL)]
WITH_THE_CLOSE = [("PUT", "{place}?digest={digest}", ALL)]
CLOSE = ("PUT", "{place}?digest={digest}", NOTHING)
IN_ONE_CHUNK = [("PATCH", "{place}", ALL), CLOSE]
IN_TWO_CHUNKS = [("PATCH", "{place}", slice(1)), ("PATCH", "{place}", slice(1, None)), CLOSE]


@case()
def each_byte_is_hashed_once():
    """A large body that is the first of its upload is hashed by its worker as it comes, and not again. A later one is
    hashed in a thread of its own, and so are all chunks of an upload that is closed by a SHA-512. What a thread does is
    told from the time that it has a processor, compared with that of others. A machine that is stopped while one of
    them runs may disturb one try, and not each of three."""
    if not os.path.exists("/proc/self/schedstat"):
        skip("who hashes", "the system doesn't tell the processor time of threads")
        return
    with Server(env={"BLOBD_WORKERS": 1}) as server, server.client() as client:
        hashing = Hashing(server, client)
        looks = {
            "a POST by its sha256": ("sha256", *SINGLE),
            "a POST by its sha512": ("sha512", *SINGLE),
            "a body of a close by its sha256": ("sha256", *WITH_THE_CLOSE),
            "a body of a close by its sha512": ("sha512", *WITH_THE_CLOSE),
            "a first chunk": ("sha256", *IN_ONE_CHUNK),
            "a second chunk": ("sha256", *IN_TWO_CHUNKS),
            "chunks by their sha512": ("sha512", *IN_TWO_CHUNKS),
        }
        for name, look in looks.items():
            for _ in range(3):
                is_once, told = hashing.hashed_by_others(*look)
                if is_once:
                    break
            check(f"who hashes {name}", is_once, told)
        counts = collections.Counter(hashing.replies)
        check("the replies to what is hashed", set(counts) == {200, 201, 202}, counts)


@case()
def hash_threads_keep_no_stack():
    """Many open uploads, each of which a thread of its own hashed, take little more address space than their bytes.
    With a stack for each thread it would be half as much again."""
    size, many = 270_000, 500
    heap = {"BLOBD_WORKERS": 1, "GLIBC_TUNABLES": "glibc.malloc.arena_max=1"}
    with Server(env=heap) as server, server.client() as client:
        before, statuses = server.address_space(), collections.Counter()
        for _ in range(many):
            place = client.opened("lib/a")
            # the first chunk is hashed by the worker as it comes
            statuses.update(client.ask("PATCH", place, chunk).status for chunk in (b"x", bytes(size)))
        took = (server.address_space() - before) / (size * many)
    equal("uploads that threads hash", statuses, {202: 2 * many})
    check("what uploads take that threads hashed", took < 1.25, took)


def timed_close(client, place, digest, body=b""):
    """The status of a close, and how long it took."""
    begun = time.monotonic()
    return client.ask("PUT", f"{place}?digest={digest}", body).status, time.monotonic() - begun


def longest_wait(client, other):
    """The longest time that a request took, of requests one after another until the other is done."""
    longest = 0
    while not other.done():
        begun = time.monotonic()
        client.ask("GET", "/v2/")
        longest = max(longest, time.monotonic() - begun)
    return longest


@case()
def closes_hold_nobody():
    """While all of a large upload is hashed for its close, others are answered. A machine that is stopped meanwhile may
    disturb one try, and not each of three."""
    chance, told = random.Random(13), []
    with Server(env={"BLOBD_WORKERS": 2}) as server, concurrent.futures.ThreadPoolExecutor(1) as pool:
        with server.client() as closer, server.client() as other:
            for _ in range(3):
                content = chance.randbytes(128 * MIB)
                digest = sha512(content)
                place = closer.opened("lib/a")
                statuses = closer.send_chunks(place, content, 32 * MIB)
                close = pool.submit(timed_close, closer, place, digest)
                longest = longest_wait(other, close)
                status, took = close.result()
                told.append(([*statuses, status], longest, took))
                if longest * 4 < took:
                    break
    check("the replies to large uploads", all(statuses == [202] * 4 + [201] for statuses, _, _ in told), told)
    check("a close that is waited for by nobody else", longest * 4 < took, told)


def waits_beside(other, closers, pool, place, digest, body):
    """The longest wait of a request beside these closes, the shortest time of a close, and their statuses."""
    closes = [pool.submit(timed_close, closer, place, digest, body) for closer in closers]
    longest = max(longest_wait(other, close) for close in closes)
    statuses, times = zip(*(close.result() for close in closes))
    return longest, min(times), list(statuses)


@case()
def large_closes_hold_nobody():
    """While the body of a close is hashed behind what its upload has, others are answered: beside several such closes
    of one upload at once, which are refused, and beside one that is stored. A machine that is stopped meanwhile may
    disturb one try, and not each of three."""
    chance, told = random.Random(14), []
    with Server(env={"BLOBD_WORKERS": 4}) as server, concurrent.futures.ThreadPoolExecutor(3) as pool:
        with contextlib.ExitStack() as opened:
            other, *closers = [opened.enter_context(server.client()) for _ in range(4)]
            for _ in range(3):
                content = chance.randbytes(128 * MIB)
                place = other.opened("lib/a")
                begun = other.ask("PATCH", place, content[:1]).status
                refused = waits_beside(other, closers, pool, place, sha256(b""), content[1:])
                stored = waits_beside(other, closers[:1], pool, place, sha256(content), content[1:])
                told.append((begun, refused, stored))
                if all(longest * 4 < took for longest, took, _ in (refused, stored)):
                    break
            pulled = other.ask("GET", f"/v2/lib/a/blobs/{sha256(content)}").body
    replies = [(begun, refused[2], stored[2]) for begun, refused, stored in told]
    check("the replies to large closes", all(got == (202, [400] * 3, [201]) for got in replies), told)
    waits = [longest * 4 < took for longest, took, _ in told[-1][1:]]
    check("large closes that are waited for by nobody else", all(waits), told)
    equal("what a large close stored", pulled, content)


# How many closes of one upload come at once, and what they may take at most of what one takes.
AT_ONCE, AT_MOST = 100, 10


def closed_at_once(server, opener, closers, pool, content, body, digest_of):
    """Sends an upload and closes it over each of these connections at once, once by its digest: the statuses, the
    longest wait of another request beside the closes, their longest time, and the processor time of it all."""
    before = sum(processor_times(server))
    place = opener.opened("lib/a")
    sent = opener.send_chunks(place, content, 8 * MIB)
    digests = [digest_of(b"another")] * len(closers)
    digests[len(closers) // 2] = digest_of(content + body)
    closes = [pool.submit(timed_close, *words, body) for words in zip(closers, [place] * len(closers), digests)]
    longest = max(longest_wait(opener, close) for close in closes)
    statuses, times = zip(*(close.result() for close in closes))
    spent = sum(processor_times(server)) - before
    return collections.Counter([*sent, *statuses]), longest, max(times), spent


@case()
def closes_at_once_share_a_hash():
    """Of a hundred closes of an upload at once one is stored. They take hardly more of the processors than one does, so
    what the upload received is hashed once for all of them; and if they have no bodies, others are answered meanwhile.
    A machine that is stopped meanwhile may disturb one try, and not each of three."""
    chance = random.Random(15)
    with Server(env={"BLOBD_WORKERS": AT_ONCE + 1}) as server, contextlib.ExitStack() as opened:
        pool = opened.enter_context(concurrent.futures.ThreadPoolExecutor(AT_ONCE))
        opener, *closers = [opened.enter_context(server.client()) for _ in range(AT_ONCE + 1)]
        for digest_of in (sha256, sha512):
            for size in (0, 300_000):
                name = f"closes at once by {digest_of.__name__}, with {size} bytes each"
                for _ in range(3):
                    told = []
                    for count in (1, AT_ONCE):
                        content, body = chance.randbytes(32 * MIB), chance.randbytes(size)
                        told.append(closed_at_once(server, opener, closers[:count], pool, content, body, digest_of))
                    (_, _, _, alone), (statuses, longest, took, spent) = told
                    are_answered = size or longest < max(1, took / 4)
                    if spent < AT_MOST * alone and are_answered:
                        break
                equal(f"{name}: stored", (statuses[202], statuses[201]), (4, 1))
                equal(f"{name}: refused", statuses[400] + statuses[404], AT_ONCE - 1)
                check(f"{name}: hashed once", spent < AT_MOST * alone, told)
                check(f"{name}: others are answered", are_answered, told)


def counted(folder):
    """The variables of a server whose threads are counted and whose time passes as it is told; what counts them; and
    the file in which the time is told."""
    told, ahead = os.path.join(folder, "told"), os.path.join(folder, "ahead")
    threads = shims.loaded(folder, "threads", THREADS_TOLD=told)
    shims.pass_time(ahead, 0)

    def began(client):
        """How many threads began, once all is done that was asked before."""
        client.ask("GET", "/v2/")
        return len(shims.told(told))

    return shims.together(threads, shims.loaded(folder, "ahead", CLOCK_AHEAD=ahead)), began, ahead


@case("cc")
def many_bytes_go_in_a_thread(folder):
    """The bytes of a chunk that is refused, of a blob whose place another takes, and of an idle upload that leaves a
    full table go in a thread if they are many, so that nobody waits for that. Few go where their request is served."""
    (loaded, began, ahead), content = counted(folder), bytes(20 * MIB)
    with Server(env=loaded | {"BLOBD_WORKERS": 1}) as server, server.client() as client:

        def begun(*request, **fields):
            """The status of a request, and how many threads began meanwhile."""
            before = began(client)
            return client.ask(*request, **fields).status, began(client) - before

        for name, size, threads in (("few", 12 * MIB, 0), ("many", len(content), 1)):
            missed = begun("PATCH", client.opened("lib/a"), content[:size], Content_Range=f"1-{size}")
            equal(f"a chunk of {name} bytes that misses its place", missed, (416, threads))
        for name, threads in (("a blob", 0), ("the same again, which takes its place", 1)):
            place = client.opened("lib/a")
            equal(f"{name}: its first byte", client.ask("PATCH", place, content[:1]).status, 202)
            equal(name, begun("PUT", f"{place}?digest={sha256(content)}", content[1:]), (201, threads))
        sizes = len(content), *[1] * (MOST_UPLOADS - 3)
        left = [client.ask("PATCH", client.opened("lib/a"), content[:size]).status for size in sizes]
        equal("uploads that their client leaves", left, [202] * len(sizes))
        shims.pass_time(ahead, 3_700)
        equal("one more than the table has", begun("POST", UPLOADS), (202, 1))


@case("cc")
def bytes_that_give_way_go_in_a_thread(folder):
    """If another needs the room of an idle upload, a thread hashes its bytes by what they weren't hashed by yet. Then
    they go, in another thread if they are many. One more hashes the chunk of the other, which asks for nothing else."""
    for name, size, threads in (("few", 12 * MIB, 2), ("many", 20 * MIB, 3)):
        loaded, began, ahead = counted(folder)
        room = {"BLOBD_WORKERS": 1, "BLOBD_MEMORY": size + 200_000}
        with Server(env=loaded | room, stderr=subprocess.DEVNULL) as server, server.client() as client:
            left, before = client.ask("PATCH", client.opened("lib/a"), bytes(size)).status, began(client)
            shims.pass_time(ahead, 3_700)
            place, chunk = client.opened("lib/a"), bytes(4 * MIB)
            is_taken = becomes(202, lambda: client.ask("PATCH", place, chunk).status)
            check(f"a chunk has the room of {name}", is_taken, left)
            equal(f"the threads of {name}", began(client) - before, threads)


if __name__ == "__main__":
    main(__doc__)
