#!/usr/bin/env python3
"""How much `blobd serve` holds at most: `BLOBD_MEMORY`.

    serve_room.py PROGRAM
"""
import os
import random
import subprocess
import time

from harness import shims
from harness.data import bodies
from harness.pushers import NAME, has_all, post
from harness.running import FULL, KIB, MIB, Server, pull, pulled_until_its_end, run
from harness.suite import OPTIONS, case, check, equal, main
from harness.wire import PATIENCE, begun_reply, is_silent, sha256, sha512

ROOM = 12 * MIB
# what the tables take for a blob, beside its name
ENTRY = 512


def serving(room=ROOM, **variables):
    env = {"BLOBD_MEMORY": room, **variables}
    return Server(env=env, stderr=subprocess.PIPE)


def filled(client, chance, sizes):
    """Stores blobs until one is refused, and gives what is stored."""
    stored = []
    while True:
        content = chance.randbytes(chance.choice(sizes))
        reply = post(client, content)
        if reply != 201:
            equal("what has no room", reply, 503)
            return stored
        stored.append(content)


def changes_nothing(client, chance):
    """Each request that changes nothing is answered while there is no room, also for a body that it brings."""
    content, large = chance.randbytes(10), bytes(5 * MIB)
    upload = f"/v2/{NAME}/blobs/uploads/{'0' * 8}-0000-0000-0000-{'0' * 12}"
    for name, method, target, body, status in [
        ("the base path", "GET", "/v2/", b"", 200),
        ("the base path, with a large body", "GET", "/v2/", large, 200),
        ("a blob that isn't there", "HEAD", f"/v2/{NAME}/blobs/{sha256(content)}", b"", 404),
        ("an upload that isn't open", "GET", upload, b"", 404),
        ("a large chunk of an upload that isn't open", "PATCH", upload, large, 404),
        ("an opening with a large body", "POST", f"/v2/{NAME}/blobs/uploads/", large, 400),
        ("another digest", "POST", f"/v2/{NAME}/blobs/uploads/?digest={sha256(b'x')}", content, 400),
    ]:
        equal(name, client.ask(method, target, body).status, status)


@case()
def full_is_a_number():
    """Blobs of many sizes are stored as long as their bytes and their entries fit, and not longer."""
    for seed in range(OPTIONS.seed, OPTIONS.seed + 3):
        chance = random.Random(seed)
        for sizes in ((300_000,), (1, 5_000, 70_000, 400_000), (3_000,)):
            with serving() as server, server.client() as client:
                stored = filled(client, chance, sizes)
                held = sum(map(len, stored)) + len(stored) * (ENTRY + 2 * len(NAME))
                check("it is filled", ROOM - max(sizes) - ENTRY - 1_000 < held <= ROOM, (held, ROOM))
                changes_nothing(client, chance)
                has_all("what is stored is handed out", server, stored)


@case()
def what_is_there_takes_no_more():
    """A blob that is stored again, and a mount that is made again, take nothing beside what they have."""
    chance = random.Random(OPTIONS.seed)
    with serving(MIB) as server, server.client() as client:
        content = chance.randbytes(1_000)
        mount = f"/v2/lib/b/blobs/uploads/?mount={sha256(content)}&from={NAME}"
        for _ in range(4_000):
            replies = post(client, content), client.ask("POST", mount).status
            if replies != (201, 201):
                break
        equal("the last of 4,000", replies, (201, 201))


def until(wanted, ask):
    """The statuses of what is asked again and again, up to this one."""
    statuses, end = [], time.monotonic() + PATIENCE
    while not statuses or (statuses[-1] != wanted and time.monotonic() < end):
        statuses.append(ask())
        time.sleep(0.1)
    return statuses


def posted_alone(server, content):
    """The status of a POST over a connection of its own, or why it has none."""
    with server.client() as client:
        try:
            return post(client, content)
        except OSError as error:
            return error


@case()
def room_comes_back():
    """What an upload or a body takes comes back with it: as often as one that fits is begun and cut, a blob of the same
    size is stored after it."""
    chance = random.Random(OPTIONS.seed)
    content = chance.randbytes(8 * MIB)
    with serving() as server:
        for _ in range(20):
            with server.client() as client:
                client.send(f"POST /v2/{NAME}/blobs/uploads/?digest={sha256(content)} HTTP/1.1\r\nHost: h\r\n"
                            f"Content-Length: {len(content)}\r\n\r\n".encode() + content[: chance.randrange(8 * MIB)])
        # a worker may take a while to see that its connection was cut; until then there is no room, and no reply
        equal("one that is whole", until(201, lambda: posted_alone(server, content))[-1], 201)
        with server.client() as client:
            equal("the same again, which replaces it", post(client, content[: 3 * MIB]), 201)


def uploaded(client, content):
    """The status of an upload in one chunk: of the opening if that is refused, else of the chunk."""
    opening = client.ask("POST", f"/v2/{NAME}/blobs/uploads/")
    if opening.status != 202:
        return opening.status
    return client.ask("PATCH", opening.fields["Location"], content).status


@case("cc")
def idle_uploads(folder):
    """What uploads have that their clients left is there for others once they are idle, and not before: all of it,
    whether they are few and large or many and small."""
    chance = random.Random(OPTIONS.seed)
    for count, size in ((1, 9 * MIB), (3, 3 * MIB), (40, 240_000), (700, 12_000)):
        ahead = os.path.join(folder, f"ahead-{count}")
        clock = shims.loaded(folder, "ahead", CLOCK_AHEAD=ahead)
        shims.pass_time(ahead, 0)
        with serving(**clock) as server, server.client() as client:
            left = [uploaded(client, chance.randbytes(size)) for _ in range(count)]
            equal(f"{count} of {size} bytes", left, [202] * count)
            blob = chance.randbytes(100)
            equal("a blob beside them", post(client, blob), 201)
            content = chance.randbytes(8 * MIB)
            equal("another, while they aren't idle", [uploaded(client, content) for _ in range(3)], [503] * 3)
            shims.pass_time(ahead, 3_700)
            statuses = until(202, lambda: uploaded(client, content))
            equal(f"another, after {len(statuses) - 1} that were refused", statuses[-1], 202)
            has_all("what is stored is handed out", server, [blob])


@case()
def larger_than_the_room():
    """A body that has no room for its bytes ends its connection, and an upload isn't opened where nothing could come to
    it. The server goes on."""
    chance = random.Random(OPTIONS.seed)
    with serving() as server:
        with server.client() as client:
            try:
                ended = post(client, chance.randbytes(ROOM + 6 * MIB))
            except OSError:
                ended = None
            check("a body that is too large", ended is None, ended)
        with server.client() as client:
            stored = filled(client, chance, (100_000,))
            stored += filled(client, chance, (1_000,))
            equal("an opening", client.ask("POST", f"/v2/{NAME}/blobs/uploads/").status, 503)
            has_all("what is stored is handed out", server, stored)


@case()
def wrong_numbers():
    """What may stand in the variable is told, and nothing is opened."""
    for value in ("", "0", "-1", "1.5G", "16MB", "8g", "2000000000G"):
        ran = run("serve", "127.0.0.1:0", env={"BLOBD_MEMORY": value})
        equal(f"BLOBD_MEMORY={value}", ran, ("", 2, "blobd: BLOBD_MEMORY is a number of bytes, as 512M or 8G\n"))


@case()
def less_than_a_blob_takes():
    """A server starts with it, and says so first."""
    few = "blobd: BLOBD_MEMORY is {}, in which hardly a blob has room: it may be 512M or 8G\n"
    for value, said in (("8", "8 B"), ("1K", "1.0 KiB"), ("65535", "63.9 KiB"), ("64K", None)):
        with Server(1, env={"BLOBD_MEMORY": value}, stderr=subprocess.PIPE) as server:
            # it stands before the line that was waited for
            equal(f"BLOBD_MEMORY={value}", server.told(0), few.format(said) if said else "")


def refused(path, memory, strict="0"):
    """What a start says that may hold so much, and can't use the directory."""
    env = {"BLOBD_DATA": path, "BLOBD_MEMORY": memory, "BLOBD_STRICT": strict}
    printed, status, told = run("serve", "127.0.0.1:0", env=env)
    equal("what it prints", (printed, status), ("fault: data\n", 3))
    return told


def in_chunks(server, content, size):
    """Uploads a blob in chunks of a size, and closes it without a body."""
    with server.client() as client:
        place = client.ask("POST", f"/v2/{NAME}/blobs/uploads/").fields["Location"]
        for at in range(0, len(content), size):
            place = client.ask("PATCH", place, content[at : at + size]).fields["Location"]
        return client.ask("PUT", f"{place}?digest={sha256(content)}").status


@case()
def larger_than_the_room_in_a_directory(folder):
    """What is stored in files takes no room: more is stored than the server may hold, and is handed out, also after a
    start, by whichever requests it came."""
    chance = random.Random(OPTIONS.seed)
    path = os.path.join(folder, "data")
    sizes = (64 * KIB + 1, 300_000, 4 * MIB - 65, 4 * MIB - 64, 4 * MIB - 63, 5 * MIB + 1)
    stored = [chance.randbytes(size) for size in sizes * 2]
    chunked = [chance.randbytes(size) for size in (200_000, 5 * MIB, 9 * MIB)]
    with serving(BLOBD_DATA=path) as server:
        with server.client() as client:
            equal("what comes whole", [post(client, content) for content in stored], [201] * len(stored))
        for content, size in zip(chunked, (64 * KIB + 1, 2 * MIB, 4 * MIB)):
            equal(f"what comes in chunks of {size}", in_chunks(server, content, size), 201)
        has_all("what is stored is handed out", server, stored + chunked)
    for _ in range(2):
        with serving(BLOBD_DATA=path) as server:
            has_all("after a start", server, stored + chunked)
            more = chance.randbytes(8 * MIB)
            with server.client() as client:
                equal("one more", post(client, more), 201)
            stored.append(more)


@case()
def an_upload_larger_than_the_room(folder):
    """The bytes of an open upload leave memory too once they are in files: it may be larger than the room, goes on after
    a start, and is closed by either digest. Closes that are refused change nothing."""
    chance = random.Random(OPTIONS.seed)
    for digest_of, is_killed in ((sha256, False), (sha512, False), (sha256, True), (sha512, True)):
        path = os.path.join(folder, f"{digest_of.__name__}-{is_killed}")
        content, size, taken = chance.randbytes(40 * MIB), 2 * MIB + 1, 0
        place = None
        while taken < len(content):
            with serving(BLOBD_DATA=path) as server, server.client() as client:
                place = place or client.ask("POST", f"/v2/{NAME}/blobs/uploads/").fields["Location"]
                end = len(content) // 2 if is_killed and taken == 0 else len(content)
                while taken < end:
                    chunk = content[taken : taken + size]
                    equal(f"a chunk at {taken}", client.ask("PATCH", place, chunk).status, 202)
                    taken += len(chunk)
                wrong = client.ask("PUT", f"{place}?digest={digest_of(b'other')}").status
                equal("a close by another digest", wrong, 400)
                at = client.ask("GET", place)
                equal("how far it is", (at.status, at.fields["Range"]), (204, f"0-{taken - 1}"))
                if taken == len(content):
                    equal("the close", client.ask("PUT", f"{place}?digest={digest_of(content)}").status, 201)
                    equal("the blob", pull(server, NAME, digest_of(content)) == content, True)
                if is_killed:
                    server.process.kill()
                    server.process.wait()
        with serving(BLOBD_DATA=path) as server:
            equal("the blob after a start", pull(server, NAME, digest_of(content)) == content, True)


@case()
def a_chunk_waits_for_the_hash(folder):
    """An upload whose hash stands still takes chunks up to an eighth of the room, and what came before that. Then a large
    chunk waits, and nobody else. All of it is taken in once the hash goes on."""
    room, size = 64 * MIB, MIB
    held = os.path.join(folder, "held")
    for kept in ({}, {"BLOBD_DATA": os.path.join(folder, "data")}):
        env = shims.loaded(folder, "threads", THREADS_HELD=held) | kept
        with serving(room, **env) as server, server.client() as client, server.client() as other:
            place = client.opened(NAME)
            open(held, "x", encoding="ascii").close()
            content = bytearray()
            while len(content) <= room:
                chunk = random.Random(len(content)).randbytes(size)
                content += chunk
                client.send_head("PATCH", place, Content_Length=size)
                client.send(chunk)
                if is_silent(client.socket, 1):
                    break
                equal(f"a chunk, {len(content)} bytes", client.reply("PATCH").status, 202)
            check("a chunk waits", room // 8 < len(content) <= room // 8 + 4 * size, len(content))
            equal("others don't", other.ask("GET", "/v2/").status, 200)
            equal("nor does a status", other.ask("GET", place).fields["Range"], f"0-{len(content) - size - 1}")
            equal("nor another upload", other.push(NAME, content[:size]), [202, 202, 201])
            os.remove(held)
            equal("it goes on with the hash", client.reply("PATCH").status, 202)
            equal("a close", client.ask("PUT", f"{place}?digest={sha256(content)}").status, 201)


@case()
def cut_under_a_server(folder):
    """A reply with a file that was cut, or is gone, ends before its last byte, and its connection with it. Standard error
    says so once. The server goes on."""
    chance = random.Random(OPTIONS.seed)
    path = os.path.join(folder, "data")
    content, other = chance.randbytes(3 * MIB), chance.randbytes(2 * MIB)
    with serving(BLOBD_DATA=path) as server, server.client() as client:
        equal("they are stored", [post(client, content), post(client, other)], [201, 201])
        server.told()
        files = [os.path.join(path, body) for body in bodies(path)]
        file = next(file for file in files if os.path.getsize(file) == len(content))
        for left in (3 * MIB - 1, MIB, 1, 0, None):
            if left is None:
                os.remove(file)
            else:
                os.truncate(file, left)
            length, came = pulled_until_its_end(server, NAME, sha256(content))
            equal(f"the length, with {left} bytes left of it", length, len(content))
            check(f"what comes, with {left} bytes left of it", len(came) < length and content.startswith(came), len(came))
            equal("a HEAD of it", client.ask("HEAD", f"/v2/{NAME}/blobs/{sha256(content)}").status, 200)
            equal("another is whole", pull(server, NAME, sha256(other)), other)
        told = server.told()
        check("it is told", told.startswith(f"blobd: {file} can't be read: ") and told.count("\n") == 1, told)


@case()
def stored_again_under_a_pull(folder):
    """A pull that goes on while its blob is stored again is whole."""
    content = random.Random(OPTIONS.seed).randbytes(9 * MIB)
    with serving(64 * MIB, BLOBD_DATA=os.path.join(folder, "data"), BLOBD_WORKERS=4) as server, server.client() as client:
        for _ in range(3):
            equal("it is stored", post(client, content), 201)
            with server.client() as puller:
                puller.connect()
                puller.send_head("GET", f"/v2/{NAME}/blobs/{sha256(content)}")
                reply = begun_reply(puller.socket, "GET")
                came = reply.read(MIB)
                equal("it is stored again", post(client, content), 201)
                equal("in chunks too", in_chunks(server, content, 4 * MIB), 201)
                equal("the pull", came + reply.read(), content)


@case()
def a_start_takes_more_than_there_is(folder):
    """What has no file takes room. A directory that has more of it than the server may hold is refused, and says so. With
    more room all is there."""
    chance = random.Random(OPTIONS.seed)
    path = os.path.join(folder, "data")
    stored = [chance.randbytes(100) for _ in range(1_500)]
    with serving(BLOBD_DATA=path) as server, server.client() as client:
        equal("small blobs", {post(client, content) for content in stored}, {201})
    for strict in "01":
        told = refused(path, "512K", strict)
        first = f"blobd: can't use {path}: BLOBD_MEMORY is 512.0 KiB, and a start takes more: "
        check("why, in the first line", told.startswith(f"{first}`blobd compact {path}` may help, or set BLOBD_MEMORY to more; ")
              and told.endswith("no memory for it\n") and told.count("\n") == 1, told)
    with serving(room="16M", BLOBD_DATA=path) as server:
        has_all("what is stored is handed out", server, stored)


@case("cc")
def a_full_server_says_so(folder):
    """On standard error, with a log and without one: at the first request that has no room, and then at most once a minute,
    by all workers together."""
    chance = random.Random(OPTIONS.seed)
    for log in "01":
        clock = os.path.join(folder, f"clock-{log}")
        shims.pass_time(clock, 0)
        ahead = shims.loaded(folder, "ahead", CLOCK_AHEAD=clock)
        with serving(room=100_000, BLOBD_LOG=log, BLOBD_WORKERS=4, **ahead) as server:
            with server.client() as one, server.client() as other:
                for seconds in (0, 59, 61, 121):
                    shims.pass_time(clock, seconds)
                    for client in (one, other, one):
                        filled(client, chance, (30_000,))
            server.process.terminate()
            told = server.process.stderr.read()
        equal(f"how often it is told, with BLOBD_LOG={log}", told.count(FULL), 3)
        check("no other line without a log", log == "1" or told == FULL * 3, told)


if __name__ == "__main__":
    main(__doc__, seed=(1, "of the bytes"))
