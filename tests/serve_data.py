#!/usr/bin/env python3
"""`blobd serve` with a data directory: what it has after a kill, at any moment, and after a copy.

    serve_data.py PROGRAM
"""
import contextlib
import os
import random
import subprocess
import time

from harness import shims
from harness.data import CONTENTS, LARGEST_IN_JOURNAL, killed_start, serving, serving_the_rest
from harness.pushers import NAME, Pusher, Told, close_some, has_all, held, look, post
from harness.running import MIB, SERVED, Repeated, becomes, page_lines, pull
from harness.suite import OPTIONS, case, check, equal, main
from harness.wire import PATIENCE, request_text, sha256, sha512


@case()
def what_was_answered_is_there(folder):
    """After a kill each blob is there byte for byte, in each repository that has it, and an upload goes on under its
    reference at its offset. So it is after a second kill."""
    path = os.path.join(folder, "data")
    begun, sized = random.Random(1).randbytes(200_000), 70_000
    with serving(path) as server, server.client() as client:
        stored = [client.push(NAME, content, 2 << 20) for content in CONTENTS]
        check("the pushes", all(statuses[-1] == 201 for statuses in stored), stored)
        mount = f"/v2/lib/b/blobs/uploads/?mount={sha256(CONTENTS[2])}&from={NAME}"
        statuses = [client.ask("POST", mount).status, post(client, CONTENTS[1], sha512)]
        equal("a mount, and a SHA-512", statuses, [201, 201])
        place, empty = client.opened(NAME), client.opened(NAME)
        equal("chunks of an upload", client.send_chunks(place, begun[:140_000], sized), [202, 202])
    for time_ in ("first", "second"):
        with serving(path) as server, server.client() as client:
            has_all(f"the blobs after the {time_} kill", server, CONTENTS)
            others = [pull(server, "lib/b", sha256(CONTENTS[at])) for at in (1, 2)]
            equal("the repository into which one was mounted", others, [404, CONTENTS[2]])
            equal("the blob under its SHA-512", pull(server, NAME, sha512(CONTENTS[1])), CONTENTS[1])
            equal("the uploads", [held(client, place), held(client, empty)], [(204, 140_000), (204, 0)])
            number = client.opened(NAME).rpartition("/")[2][:8]
            check("the number of another upload", int(number, 16) > int(place.rpartition("/")[2][:8], 16), number)
    with serving(path, 1) as server, server.client() as client:
        rest = client.ask("PATCH", place, begun[140_000:], Content_Range="140000-199999").status
        equal("an upload that goes on", [rest, client.ask("PUT", f"{place}?digest={sha256(begun)}").status], [202, 201])
        client.close()
        equal("a server that has served its count", server.end(), SERVED)
    with serving(path) as server:
        equal("what the upload left", pull(server, NAME, sha256(begun)), begun)


@case()
def many_large_bodies(folder):
    """A start over many large bodies has each blob byte for byte, however it was sent: whole, in chunks, or under its
    SHA-512."""
    path, chance = os.path.join(folder, "data"), random.Random(5)
    contents = [chance.randbytes(chance.randrange(LARGEST_IN_JOURNAL + 1, MIB)) for _ in range(30)]
    with serving(path) as server, server.client() as client:
        for number, content in enumerate(contents):
            if number % 3 == 0:
                post(client, content, sha512)
            client.push(NAME, content, 100_000 if number % 2 else len(content))
    with serving(path) as server:
        names = [(content, sha256(content)) for content in contents] + [(it, sha512(it)) for it in contents[::3]]
        wrong = [digest for content, digest in names if pull(server, NAME, digest) != content]
        check("each blob", not wrong, wrong)


def spooled(server, path):
    """How many files of bodies that have no number a server has in its folder, and how many of them it has open."""
    there = os.listdir(os.path.join(path, "bodies", "new"))
    fds = f"/proc/{server.process.pid}/fd"
    opened = 0
    for fd in os.listdir(fds):
        with contextlib.suppress(OSError):
            opened += "/bodies/new/" in os.readlink(os.path.join(fds, fd))
    return len(there), opened


@case()
def cut_bodies(folder):
    """A body that is cut leaves no file and no descriptor, wherever it is cut and whatever its request was to do."""
    path, chance = os.path.join(folder, "data"), random.Random(7)
    content = chance.randbytes(20 * MIB)
    with serving(path, env={"BLOBD_WORKERS": "2"}) as server:
        targets = [
            ("PATCH", server.opened(NAME)),
            ("PUT", f"{server.opened(NAME)}?digest={sha256(content)}"),
            ("POST", f"/v2/{NAME}/blobs/uploads/?digest={sha256(content)}"),
            ("PATCH", f"/v2/{NAME}/blobs/uploads/00000000-0000-4000-8000-000000000000"),
        ]
        for number in range(12):
            method, target = targets[number % len(targets)]
            cut = chance.randrange(5 * MIB, len(content))
            text = request_text(method, target, content)
            with server.connect() as connection:
                connection.sendall(text[: len(text) - len(content) + cut])
        is_gone = becomes((0, 0), lambda: spooled(server, path))
        check("what cut bodies leave: files, and how many are open", is_gone, spooled(server, path))
        check("the server goes on", server.process.poll() is None)


@case("cc")
def idle_hour(folder):
    """The hour for which an upload may pause goes on over a restart, in which the time between two servers doesn't
    count."""
    ahead, path = os.path.join(folder, "ahead"), os.path.join(folder, "data")
    clock = shims.loaded(folder, "ahead", CLOCK_AHEAD=ahead)
    shims.pass_time(ahead, 0)
    with serving(path, env=clock) as server, server.client() as client:
        places = [client.opened(NAME) for _ in range(2)]
        shims.pass_time(ahead, 3_000)
        equal("a chunk after fifty minutes", client.send_chunks(places[1], b"a"), [202])
    with serving(path, env=clock) as server, server.client() as client:
        # this server's time begins here, at the latest as it answers
        equal("an upload after a restart", held(client, places[0]), (204, 0))
        shims.pass_time(ahead, 3_000 + 500)
        early = [held(client, place) for place in places]
        shims.pass_time(ahead, 3_000 + 700)
        late = [held(client, place) for place in places]
        equal("uploads within the hour, and after it", [early, late],
              [[(204, 0), (204, 1)], [(404, None), (204, 1)]])


CLIENTS = 8
DEEDS = {"whole", "upload", "mount", "resume", "pull", "after a kill"}


def lacks(told):
    """What clients have yet to do before there is enough of each."""
    return DEEDS - told.done.keys() or len(told.stored) <= 50


@case()
def killed_at_random(folder):
    """Killed again and again under eight clients, and within starts: all that anybody was told is there, each upload
    has the offset that its client was told or one chunk more, and goes on there, and every byte is right."""
    path, told, chance = os.path.join(folder, "data"), Told(), random.Random(OPTIONS.seed)
    end, kills = time.monotonic() + OPTIONS.seconds, 0
    while kills < OPTIONS.kills or time.monotonic() < end or (lacks(told) and time.monotonic() < end + PATIENCE):
        for _ in range(chance.randrange(3)):
            killed_start(path, chance.choice((0, 0.001, 0.01, 0.05)))
        with serving(path, env={"BLOBD_WORKERS": CLIENTS}) as server:
            equal("a start after a kill", server.first_line[:10], "listening ")
            look(server, told, chance)
            close_some(server, told)
            clients = [Pusher(server, told, chance.randrange(1 << 32)) for _ in range(CLIENTS)]
            pushers = Repeated([one.turn for one in clients])
            time.sleep(chance.choice((0.05, 0.2, 0.5, 1.5)))
            server.process.kill()
            kills += 1
            pushers.end()
    with serving(path) as server:
        look(server, told, chance)
        wrong = [key for key, content in told.stored.items() if pull(server, *key) != content]
        check("all that was ever answered 201", not wrong, wrong[:3])
    check("there was each of what clients do", not lacks(told), told.done)
    print(f"{kills} kills, {len(told.stored)} blobs, {dict(told.done)}")


@case()
def copied_while_it_serves(folder):
    """A copy by the lines of docs/OPERATIONS.md, made while clients push, starts and has all that was told before it
    began: each blob, and each upload at that offset or further on. A client goes on with such an upload."""
    path, copy, told = os.path.join(folder, "data"), os.path.join(folder, "copy"), Told()
    (lines,) = page_lines("serve_data", {"/var/lib/blobd/5001/data": path, "/backup/5001": copy})
    content = random.Random(3).randbytes(200_000)
    with serving(path, env={"BLOBD_WORKERS": 6}) as server:
        with server.client() as client:
            place = client.opened(NAME)
            equal("chunks before the copy", client.send_chunks(place, content[:140_000], 70_000), [202, 202])
        pushers = Repeated([Pusher(server, told, seed).turn for seed in range(6)])
        time.sleep(1)
        # on a busy machine it may take longer until there is something to copy
        becomes(True, lambda: len(told.stored) > 20)
        with told.lock:
            stored, uploads = dict(told.stored), dict(told.uploads)
        ran = subprocess.run(["sh", "-euc", lines], capture_output=True, text=True, check=False)
        equal("the copy", (ran.returncode, ran.stderr), (0, ""))
        pushers.end()
        check("there was something to copy, and more after it", 20 < len(stored) < len(told.stored), len(stored))
    with serving_the_rest(copy) as server, server.client() as client:
        equal("a start on the copy", server.first_line[:10], "listening ")
        wrong = [key for key, kept in stored.items() if pull(server, *key) != kept]
        check("what was told before the copy began", not wrong, wrong[:3])
        found = {one: held(client, one) for one in uploads}
        wrong = [(one, found[one], uploads[one][0]) for one in uploads
                 if found[one] != (404, None) and not found[one][1] >= uploads[one][0]]
        check("the uploads", not wrong, wrong[:3])
        gone = [one for one in uploads if found[one][0] == 404 and one in told.uploads]
        check("those that stayed open are there", not gone, gone[:3])
        rest = client.ask("PATCH", place, content[140_000:], Content_Range="140000-199999").status
        closed = client.ask("PUT", f"{place}?digest={sha256(content)}").status
        equal("an upload that goes on in the copy", [rest, closed], [202, 201])


if __name__ == "__main__":
    main(__doc__, seconds=(25, "seconds of kills"), kills=(10, "kills at least"), seed=(1, "of the kills"))
