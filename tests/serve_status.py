#!/usr/bin/env python3
"""What `blobd` tells of what it holds: at a start, in its log, and by `blobd status`; and the files that a start removes.

    serve_status.py PROGRAM
"""
import contextlib
import json
import os
import pty
import random
import re
import shutil
import subprocess
import threading
import time

from harness import data, shims
from harness.data import LARGEST_IN_JOURNAL, REFUSED, SECTOR, bodies, content_of, killed_start, overwritten, tree
from harness.pushers import NAME, has_all, post
from harness.running import KIB, MIB, Repeated, Server, ask_alone, pull, run
from harness.suite import OPTIONS, case, check, equal, main
from harness.wire import sha256, sha512

# what a start says behind what it has
AT_MOST = "; in memory it holds at most 1.0 GiB (BLOBD_MEMORY)\n"


def serving(path, env=None, **options):
    """A server on a data directory that may hold so much."""
    return data.serving(path, env={"BLOBD_MEMORY": "1G", **(env or {})}, **options)


def size_text(size):
    """A count of bytes as it is told."""
    unit, name = next((unit, name) for unit, name in ((1, "B"), (KIB, "KiB"), (MIB, "MiB"), (KIB * MIB, "GiB"))
                      if size < unit * KIB or name == "GiB")
    return f"{size} B" if unit == 1 else f"{size // unit}.{size % unit * 10 // unit} {name}"


def many(count, thing):
    return f"{count} {thing}" + ("" if count == 1 else "s")


def holding(counts):
    """How a start tells these numbers."""
    return f"{many(counts['blobs'], 'blob')}, {size_text(counts['stored'])}, {many(counts['uploads'], 'upload')} open"


def status(path):
    """What `blobd status` prints of a directory, as words and as JSON, if all goes well."""
    words, numbers = run("status", path), run("status", "--json", path)
    check("a status", (words[1:], numbers[1:]) == ((0, ""), (0, "")), (words, numbers))
    return words[0], json.loads(numbers[0])


def is_status(name, path, counts):
    """Checks what `blobd status` prints."""
    words, numbers = status(path)
    equal(name, numbers, counts)
    equal(f"{name}, in words", words, f"{holding(counts)}, {size_text(counts['received'])} in them\n")


class Play:
    """Requests by chance, and what they come to."""

    def __init__(self, chance):
        self.chance, self.stored, self.uploads = chance, {}, {}

    def content(self):
        return self.chance.randbytes(self.chance.choice((0, 1, 700, LARGEST_IN_JOURNAL, LARGEST_IN_JOURNAL + 1, 300_000)))

    def turn(self, client):
        kind = self.chance.randrange(6)
        if kind == 0:
            self.uploads[client.opened(NAME)] = b""
        elif kind == 1:
            content, name = self.content(), self.chance.choice((sha256, sha512))
            equal("a whole blob", post(client, content, name), 201)
            self.stored[name(content)] = content
        elif kind == 2 and self.stored:
            digest = self.chance.choice(list(self.stored))
            target = f"/v2/lib/b/blobs/uploads/?mount={digest}&from={NAME}"
            equal("a mount", client.ask("POST", target).status, 201)
        elif kind == 3:
            target = f"/v2/lib/b/blobs/uploads/?mount={sha256(b'none')}&from=lib/c"
            self.uploads[client.ask("POST", target).fields["Location"].replace("lib/b", NAME)] = None
        elif self.uploads:
            self.go_on(client, self.chance.choice(list(self.uploads)), is_close=kind == 5)

    def go_on(self, client, place, is_close):
        """A chunk of an upload, or its close with one, perhaps of a content that is stored already."""
        if (received := self.uploads[place]) is None:
            return
        chunk = self.content()
        if not is_close:
            equal("a chunk", client.ask("PATCH", place, chunk).status, 202)
            self.uploads[place] = received + chunk
            return
        content = received + chunk
        equal("a close with another digest", client.ask("PUT", f"{place}?digest={sha256(b'other')}", chunk).status, 400)
        equal("a close", client.ask("PUT", f"{place}?digest={sha256(content)}", chunk).status, 201)
        self.stored[sha256(content)] = content
        del self.uploads[place]

    def counts(self):
        return {"blobs": len(self.stored), "stored": sum(map(len, self.stored.values())), "uploads": len(self.uploads),
                "received": sum(len(received or b"") for received in self.uploads.values())}


@case()
def what_is_held(folder):
    """Whatever was asked: a start says what it has, and `blobd status` says the same, also while a server has the
    directory. It changes nothing."""
    for seed in range(OPTIONS.seed, OPTIONS.seed + 4):
        path, play = os.path.join(folder, str(seed)), Play(random.Random(seed))
        for start in range(3):
            with serving(path) as server, server.client() as client:
                equal("what a start has", server.told(), f"blobd: {holding(play.counts())}{AT_MOST}")
                for _ in range(25):
                    play.turn(client)
                is_status(f"while it serves ({seed}, {start})", path, play.counts())
            before = tree(path)
            is_status("after a kill", path, play.counts())
            check("nothing is changed", tree(path) == before)
        with serving(path) as server:
            wrong = [digest for digest, content in play.stored.items() if pull(server, NAME, digest) != content]
            check("what is there", not wrong, wrong[:3])


@case()
def nothing_to_read(folder):
    """A directory that can't be read is named, and nothing is made."""
    none, file, other = (os.path.join(folder, name) for name in ("none", "file", "other"))
    with open(file, "wb"):
        pass
    os.mkdir(other)
    with open(f"{other}/journal", "wb") as journal:
        journal.write(b"something else".ljust(3 * SECTOR, b"."))
    for name, path, word in [("no folder", none, "No such file"), ("a file", file, "not a folder"),
                             ("another journal", other, "no server has written it"),
                             ("an empty folder", folder, "No such file")]:
        for words in (["status", path], ["status", "--json", path]):
            printed, code, told = run(*words)
            is_told = told.startswith(f"blobd: can't read {path}: ") and word in told and told.count("\n") == 1
            check(name, (printed, code) == REFUSED and is_told, (printed, code, told))
    equal("what is there", sorted(os.listdir(folder)), ["file", "other"])


@case()
def while_clients_push(folder):
    """A status that is read while clients push is always read, and its numbers rise."""
    path = os.path.join(folder, "data")
    with serving(path, env={"BLOBD_WORKERS": 4}) as server:
        def pusher(chance):
            with server.client() as client:
                content = chance.randbytes(chance.choice((100, LARGEST_IN_JOURNAL + 1)))
                check("a push", client.push(NAME, content)[-1] == 201)

        pushers = Repeated([lambda chance=random.Random(seed): pusher(chance) for seed in range(3)])
        seen = [status(path)[1]["blobs"] for _ in range(20)]
        pushers.end()
        check("the numbers rise", seen == sorted(seen) and seen[0] < seen[-1], seen)


def filled(path, contents):
    """A data directory in which there are these blobs."""
    with serving(path) as server, server.client() as client:
        for content in contents:
            equal("a blob", post(client, content), 201)


@case()
def damaged_records(folder):
    """Records that can't be read are counted, and the others are told."""
    path = os.path.join(folder, "data")
    filled(path, [b"one", b"two"])
    at = content_of(f"{path}/journal").index(b"two")
    # the kind of the entry, 4 + 5 bytes of a name, and 4 + 71 of a digest before the body's mark and length
    overwritten(f"{path}/journal", at - 90, b"c")
    printed, code, told = run("status", path)
    equal("a status", (printed, code), ("1 blob, 3 B, 0 uploads open, 0 B in them\n", 0))
    equal("what is damaged", told, f"blobd: damage in {path}: 1 record can't be read\n")


def killed_within_a_body(path, content):
    """Kills a server while it writes a large body that it was sent. Gives whether its file is there, and nothing names
    it."""
    before, named = set(bodies(path)), status(path)[1]
    with serving(path) as server:
        def push():
            with contextlib.suppress(OSError):
                ask_alone(server, "POST", f"/v2/{NAME}/blobs/uploads/?digest={sha256(content)}", content)

        pushing = threading.Thread(target=push)
        pushing.start()
        while pushing.is_alive():
            if any(name not in before for folder, _, names in os.walk(f"{path}/bodies")
                   for name in (os.path.relpath(os.path.join(folder, name), path) for name in names)):
                break
        server.process.kill()
        server.process.wait()
        pushing.join()
    return set(bodies(path)) != before and status(path)[1] == named


@case()
def files_that_nothing_names(folder):
    """A start removes the file of a body that a server was killed over, and all that was told is there. So it does after
    it was killed itself; and it doesn't touch what something names."""
    path, chance = os.path.join(folder, "data"), random.Random(OPTIONS.seed)
    kept = [chance.randbytes(size) for size in (10, 100_000, 2 * MIB)]
    filled(path, kept)
    named, caught = bodies(path), 0
    for turn in range(20):
        if not killed_within_a_body(path, chance.randbytes(48 * MIB)):
            # it came too early, or too late
            shutil.rmtree(path)
            filled(path, kept)
            named = bodies(path)
            continue
        caught += 1
        for pause in (0, 0.002, 0.01):
            killed_start(path, pause, BLOBD_STRICT=None)
        with serving(path, env={"BLOBD_STRICT": str(turn % 2)}) as server:
            check("what nothing names is gone", bodies(path) == named, sorted(set(bodies(path)) ^ set(named)))
            has_all("what was told", server, kept)
        if caught == 3:
            break
    check("there were such files", caught > 0)


@case()
def files_in_doubt(folder):
    """Behind a damaged record a file may be that of a record that isn't read, and so behind a gate and a head that are both
    damaged: all files stay."""
    good, path, kept = os.path.join(folder, "good"), os.path.join(folder, "data"), [bytes([i]) * 100_000 for i in range(3)]
    filled(good, kept)
    # a batch is one record without its body: it takes a gate's sector, and one of its own
    gates, head = [SECTOR + 2 * SECTOR * i for i in range(3)], SECTOR + 7
    journal = content_of(f"{good}/journal")
    equal("the gates", [journal[at] for at in gates], [1, 1, 1])
    stray, other = "bodies/07/7", "bodies/ff/4095"
    for name, changes, stay in [
        ("nothing", {}, False), ("a gate", {gates[1]: 0x41}, False), ("a head", {gates[1] + head: 77}, False),
        ("both", {gates[1]: 0x41, gates[1] + head: 77}, True), ("the last gate", {gates[2]: 0x81}, False),
        ("the last gate and its copy of the head", {gates[2]: 0x81, gates[2] + 8: 77}, True),
        ("a record", {gates[2] + SECTOR + 32: 99}, True),
    ]:
        shutil.copytree(good, path)
        for file in (stray, other):
            with open(os.path.join(path, file), "wb") as made:
                made.write(b"what nothing names")
        for at, byte in changes.items():
            overwritten(f"{path}/journal", at, bytes([byte]))
        before = bodies(path)
        for _ in range(2):
            with serving(path, env={"BLOBD_STRICT": "0"}) as server:
                equal(f"{name}: it serves", server.first_line[:10], "listening ")
                if stay:
                    check(f"{name}: all files stay", bodies(path) == before, sorted(set(bodies(path)) ^ set(before)))
                else:
                    equal(f"{name}: files that nothing names are gone", len(bodies(path)), 3)
        shutil.rmtree(path)


@case()
def a_line_a_minute(folder):
    """With a log, a line says what the service holds, and what room is left, if the first has changed, and a minute has
    passed since the last one: with a data directory and without one."""
    for kept in (False, True):
        clock = os.path.join(folder, f"clock-{kept}")
        shims.pass_time(clock, 0)
        env = shims.loaded(folder, "ahead", CLOCK_AHEAD=clock) | {"BLOBD_LOG": "1", "BLOBD_MEMORY": "1G"}
        if kept:
            env |= {"BLOBD_DATA": os.path.join(folder, "data")}
        with Server(env=env, stderr=subprocess.PIPE) as server, server.client() as client:
            if kept:
                equal("a start with nothing", server.told(), f"blobd: 0 blobs, 0 B, 0 uploads open{AT_MOST}")
            lines = []

            def said():
                """What a request has told beside its own line."""
                client.ask("GET", "/v2/")
                told = []
                while not (line := server.told()).endswith("ms\n") or " GET /v2/ " not in line:
                    told.append(line)
                # what the service holds is told between two requests, and perhaps behind that line
                time.sleep(0.3)
                client.ask("HEAD", "/v2/lib/a/blobs/" + sha256(b"none"))
                while " HEAD " not in (line := server.told()):
                    told.append(line)
                return [re.sub(r"^\S+Z holds ", "", line).strip() for line in told if " holds " in line]

            place = client.opened(NAME)
            client.send_chunks(place, bytes(3_000))
            lines.append(said())
            shims.pass_time(clock, 61)
            lines.append(said())
            client.push(NAME, bytes(5_000))
            shims.pass_time(clock, 100)
            lines.append(said())
            shims.pass_time(clock, 130)
            lines.append(said())
            shims.pass_time(clock, 200)
            lines.append(said())
            # of 1 GiB, but for some KiB
            left = "1023.9 MiB left"
            equal("the lines", lines, [[], [f"0 blobs, 0 B, 1 upload open, 2.9 KiB in them, {left}"], [],
                                       [f"1 blob, 4.8 KiB, 1 upload open, 2.9 KiB in them, {left}"], []])


@case()
def progress_of_a_start(folder):
    """On a terminal a start tells how far it has come, on one line, and then what it has; elsewhere only that."""
    path, contents = os.path.join(folder, "data"), [bytes([i]) * (8 * MIB) for i in range(4)]
    filled(path, contents)
    holds = "blobd: 4 blobs, 32.0 MiB, 0 uploads open"
    with serving(path) as server:
        equal("not a terminal", server.told(), holds + AT_MOST)
    ours, theirs = pty.openpty()
    parts = []

    def read():
        with contextlib.suppress(OSError):
            while part := os.read(ours, 65536):
                parts.append(part)

    reading = threading.Thread(target=read)
    reading.start()
    # a second of the program is a thirtieth of one
    with serving(path, env=shims.loaded(folder, "minutes"), stderr=theirs) as server:
        equal("it serves", server.first_line[:10], "listening ")
    os.close(theirs)
    reading.join()
    os.close(ours)
    told = b"".join(parts)
    before, found, _ = told.decode().partition(holds)
    steps = [step for step in before.replace("\x1b[K", "").split("\r") if step]
    check("what it has", bool(found), told)
    check("its progress", steps and all(re.fullmatch(
        r"reading \d+\.\d of 32\.0 MiB(, \d+ ([KM]iB|B)/s, \d+ s left)?", step) for step in steps), steps)
    check("nothing stands on its line at the end", before.endswith("\r\x1b[K"), before[-20:])


if __name__ == "__main__":
    main(__doc__, seed=(1, "of the requests"))
