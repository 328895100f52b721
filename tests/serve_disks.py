#!/usr/bin/env python3
"""`blobd serve` with a data directory whose disk fails: at each sync and each write of a chunk, under clients, in a
start, and at reads for a reply; on a disk that fills, is made larger and fills again; and on one that may only be read.

    serve_disks.py PROGRAM
"""
import errno
import itertools
import os
import random
import re
import tempfile
import time

from harness import shims
from harness.data import FILLED, LARGEST_IN_JOURNAL, REFUSED, bodies, filled, is_refused, named_losses, serving, tree
from harness.pushers import NAME, Pusher, Told, fill, has_all, held, look
from harness.running import MIB, Repeated, SmallDisk, becomes, pull, pulled_until_its_end, run
from harness.suite import case, check, equal, main, skip
from harness.wire import PATIENCE, Connection, request_text, sha256

WORKERS = 3
# what standard error says of the call that failed
FAILED = re.compile(r"blobd: can't keep a change in \S+: (journal|bodies): Input/output error \(os error 5\)\n")
# and of a file that can't be read for a reply
UNREAD = re.compile(r"blobd: \S+ can't be read: Input/output error \(os error 5\): a reply with it was cut\n")
# Chunks that are in a record, in a file of their own, and in a file that is written and synced part by part.
SIZES = 100, 70_000, 9 * MIB


def failing(folder, path, call, spared):
    """What loads a server so that one of its syncs or writes in a directory fails, behind so many others that are made once
    a file is there, and that file: it is gone once the call has failed."""
    fails = os.path.join(folder, "fails")
    told = {"DISK_FOLDER": path, "DISK_FAILS": fails, "DISK_CALL": call, "DISK_SPARED": spared, "DISK_ERROR": errno.EIO}
    return shims.loaded(folder, "faults", **told), fails


def made(path):
    with open(path, "wb"):
        pass


def asked(connection, *words):
    """The status of the reply to a request, or nothing if the connection ended without one."""
    connection.send(request_text(*words))
    reply = connection.hear(words[0])
    return reply and reply.status


def occupied(server):
    """A connection to each worker but one, over which it has answered."""
    connections = [Connection(server.place()) for _ in range(WORKERS)]
    equal("replies before", [asked(connection, "GET", "/v2/") for connection in connections], [200] * WORKERS)
    return connections


def stored_by(server):
    """Has a new server store blobs, and begin an upload of three bytes, whose place is given."""
    with server.client() as client:
        equal("pushes", [client.push(NAME, content)[-1] for content in FILLED], [201] * len(FILLED))
        place = client.opened(NAME)
        equal("a chunk", client.send_chunks(place, b"abc"), [202])
    return place


def has_failed(name, server):
    """Checks that a server ends soon, though nobody asks it for anything more, and says why."""
    begun = time.monotonic()
    equal(f"{name}: how it ends", server.ended(), REFUSED)
    check(f"{name}: it ends soon", time.monotonic() - begun < 20)
    told = server.told()
    check(f"{name}: what failed is told", FAILED.fullmatch(told), told)


def goes_on_behind(name, path, place, size):
    """Checks that the next server has what was answered, and of the chunk that wasn't all or nothing."""
    with serving(path) as server, server.client() as client:
        equal(f"{name}: a start without a loss", server.first_line[:10], "listening ")
        has_all(f"{name}: the blobs", server, FILLED)
        found = held(client, place)
        check(f"{name}: the upload", found in ((204, 3), (204, 3 + size)), found)
        equal(f"{name}: a push", client.push(NAME, b"more")[-1], 201)


def a_call_fails(folder, call, spared, size):
    """Sends a chunk to a server whose call behind so many others fails then, and checks that nobody hears anything from
    there on. Gives whether there is such a call."""
    name, path = f"{call} {spared} of {size} bytes", os.path.join(folder, "data")
    env, fails = failing(folder, path, call, spared)
    with serving(path, env=env | {"BLOBD_WORKERS": WORKERS + 1}) as server:
        equal(f"{name}: a start", named_losses(server), [])
        place = stored_by(server)
        first, other, idle = occupied(server)
        made(fails)
        status = asked(first, "PATCH", place, bytes(size))
        if os.path.exists(fails):
            equal(f"{name}: a chunk whose calls go well", status, 202)
            return False
        equal(f"{name}: no reply to the chunk", status, None)
        if status is not None:
            return True
        equal(f"{name}: no reply to another", asked(other, "GET", f"/v2/{NAME}/blobs/{sha256(FILLED[0])}"), None)
        equal(f"{name}: an idle connection is ended", idle.hear("GET"), None)
        has_failed(name, server)
    goes_on_behind(name, path, place, size)
    return True


def calls_of_a_chunk(call, size):
    """Has each call of a chunk fail in turn, and gives how many there are."""
    for spared in itertools.count():
        with tempfile.TemporaryDirectory() as folder:
            if not a_call_fails(folder, call, spared, size):
                return spared


@case("cc")
def each_sync_fails():
    """A sync that fails once, whichever it is: the server answers nothing more, though later ones go well, says why and
    ends. After a start all that was answered is there."""
    counts = [calls_of_a_chunk("sync", size) for size in SIZES]
    are_more = 1 < counts[0] < counts[1] < counts[2]
    check("syncs of the journal, of a file and its name, and of parts", are_more, counts)


@case("cc")
def each_write_fails():
    """The same of a write."""
    counts = [calls_of_a_chunk("write", size) for size in SIZES]
    are_more = 1 < counts[0] < counts[1] < counts[2]
    check("writes of the journal, of a file, and of parts", are_more, counts)


@case("cc")
def a_read_fails(folder):
    """A reply with a file that can't be opened or read ends before its last byte, and standard error says why. One of
    which a read comes short is whole. The server goes on, and the next reply is whole."""
    content = random.Random(1).randbytes(3 * MIB)
    for call, spared, is_whole in (("open", 0, False), *(("read", spared, False) for spared in range(3)), ("short", 1, True)):
        name, path = f"{call} {spared}", os.path.join(folder, f"{call}-{spared}")
        env, fails = failing(folder, path, call, spared)
        with serving(path, env=env) as server, server.client() as client:
            equal(f"{name}: a start without a loss", named_losses(server), [])
            equal(f"{name}: it is stored", client.push(NAME, content)[-1], 201)
            made(fails)
            length, came = pulled_until_its_end(server, NAME, sha256(content))
            check(f"{name}: the call was made", not os.path.exists(fails))
            equal(f"{name}: the length", length, len(content))
            check(f"{name}: what comes", content.startswith(came) and (len(came) == length) == is_whole, len(came))
            equal(f"{name}: the next reply", pull(server, NAME, sha256(content)) == content, True)
            told = server.told(0.2 if is_whole else PATIENCE)
            check(f"{name}: what is told", UNREAD.fullmatch(told) if not is_whole else not told, told)


@case("cc")
def a_sync_fails_under_clients(folder):
    """Clients push while a sync fails: whatever any of them was told is there after a start."""
    path, told = os.path.join(folder, "data"), Told()
    env, fails = failing(folder, path, "sync", 20)
    with serving(path, env=env | {"BLOBD_WORKERS": 8}) as server:
        equal("a start", named_losses(server), [])
        pushers = Repeated([Pusher(server, told, seed).turn for seed in range(8)])
        check("blobs before", becomes(True, lambda: len(told.stored) > 50), told.done)
        made(fails)
        has_failed("under clients", server)
        pushers.end()
    with serving(path) as server:
        look(server, told, random.Random(1))


@case("cc")
def a_start_fails(folder):
    """Each sync of a start that fails refuses the directory, and nothing is lost by it."""
    path = os.path.join(folder, "data")
    filled(path)
    for spared in itertools.count():
        env, fails = failing(folder, path, "sync", spared)
        made(fails)
        with serving(path, env=env) as server:
            if server.first_line != REFUSED[0]:
                break
            equal(f"sync {spared} of a start: its end", server.ended(), ("", REFUSED[1]))
            told = server.told()
            check(f"sync {spared} of a start is told", "Input/output error (os error 5)" in told, told)
    check("there were syncs, and then a start", spared > 1 and os.path.exists(fails), spared)
    with serving(path) as server:
        equal("nothing is lost", named_losses(server), [])
        has_all("the blobs", server, FILLED)


def answers_while_full(path, server, client, told, place):
    """On a full disk what would change something is answered 503, and leaves no file. What is refused is refused as
    ever, and what is stored is handed out. The upload has received three bytes."""
    files = sum(len(content) > LARGEST_IN_JOURNAL for content in told)
    equal("files of bodies", len(bodies(path)), files)
    long = bytes(200_000)
    requests = [
        ("PATCH", place, b"de", {"Content_Range": "5-6"}, 416),
        ("PATCH", place, long, {"Content_Range": "5-200004"}, 416),
        ("PUT", f"{place}?digest={sha256(b'other')}", long, {}, 400),
        ("PUT", f"{place}?digest=sha256:7", b"", {}, 400),
        ("PATCH", f"{place[:-8]}00000000", long, {}, 404),
        ("POST", f"/v2/{NAME}/blobs/uploads/?digest={sha256(b'other')}", long, {}, 400),
        ("GET", f"/v2/{NAME}/blobs/{sha256(b'nothing')}", b"", {}, 404),
        ("GET", "/v2/", b"", {}, 200),
        ("PATCH", place, long, {}, 503),
        ("PATCH", place, b"de", {}, 503),
        ("PUT", f"{place}?digest={sha256(b'abc')}", b"", {}, 503),
        ("POST", f"/v2/{NAME}/blobs/uploads/", b"", {}, 503),
        ("POST", f"/v2/{NAME}/blobs/uploads/?digest={sha256(long)}", long, {}, 503),
        ("POST", f"/v2/lib/b/blobs/uploads/?mount={sha256(told[0])}&from={NAME}", b"", {}, 503),
    ]
    for method, target, body, fields, status in requests:
        equal(f"{method} {target} of {len(body)} bytes", client.ask(method, target, body, **fields).status, status)
    equal("where the upload is", held(client, place), (204, 3))
    equal("files of bodies after it", len(bodies(path)), files)
    has_all("what is stored is handed out", server, told)


def filled_again(disk):
    """Fills a disk twice under a server, which is killed and started in between, also while there is no room."""
    path, told, chance = f"{disk.path}/data", [], random.Random(3)
    with serving(path) as server, server.client() as client:
        place = client.opened(NAME)
        equal("a chunk", client.ask("PATCH", place, b"abc").status, 202)
        equal("a disk that fills", fill(client, told, chance), [503] * 5)
        check("blobs before", sum(map(len, told)) > 200 * MIB, len(told))
        answers_while_full(path, server, client, told, place)
        server.process.kill()
    with serving(path) as server, server.client() as client:
        has_all("a start on a full disk", server, told)
        # what the server before it had tried to reserve is room in the journal now
        equal("the disk is full soon", fill(client, told, chance), [503] * 5)
        answers_while_full(path, server, client, told, place)
        disk.grow(350)
        long = chance.randbytes(200_000)
        equal("a push once there is room", client.push(NAME, long), [202, 202, 201])
        told.append(long)
        equal("the upload goes on", client.ask("PUT", f"{place}?digest={sha256(b'abcde')}", b"de").status, 201)
        told.append(b"abcde")
        place = client.opened(NAME)
        equal("a chunk of another", client.ask("PATCH", place, b"abc").status, 202)
        before = len(told)
        equal("a disk that fills again", fill(client, told, chance), [503] * 5)
        check("blobs after it", sum(map(len, told[before:])) > 20 * MIB, len(told))
        answers_while_full(path, server, client, told, place)
        server.process.kill()
    disk.grow(400)
    with serving(path) as server, server.client() as client:
        has_all("after both", server, told)
        equal("the upload of then goes on", held(client, place), (204, 3))


@case()
def full_disk(folder):
    """A disk that fills, is made larger and fills again: what would change something is answered 503, and nothing stays
    of it. Once there is room the server goes on by itself, and after a kill all that was told is there."""
    with SmallDisk(folder, 300) as disk:
        if disk.is_there:
            filled_again(disk)
        else:
            skip("full_disk", "this user may mount no small disk")


@case()
def a_disk_that_may_only_be_read(folder):
    """It is refused, with a directory on it and without one, and serves once it may be written. What only looks at a
    directory does so there too."""
    with SmallDisk(folder, 60) as disk:
        if not disk.is_there:
            skip("a_disk_that_may_only_be_read", "this user may mount no small disk")
            return
        path = os.path.join(disk.path, "data")
        filled(path)
        looks = ["status", path], ["compact", "--dry-run", path]
        told = [run(*words) for words in looks]
        disk.protect()
        is_refused("a directory that may only be read", path, "journal: ")
        equal("who looks at it", [run(*words) for words in looks], told)
        before = tree(path)
        equal("a compaction", run("compact", path)[:2], REFUSED)
        check("nothing is changed", tree(path) == before)
        is_refused("a directory that can't be made", os.path.join(disk.path, "other"), "")
        disk.protect(False)
        with serving(path) as server:
            has_all("the blobs", server, FILLED)


if __name__ == "__main__":
    main(__doc__)
