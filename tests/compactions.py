#!/usr/bin/env python3
"""`blobd compact` on the data directory of a server that was stopped: what goes, what stays, and what it refuses; and a
start that does the same by itself.

    compactions.py PROGRAM
"""
import contextlib
import os
import random
import re
import shutil
import time

from harness import shims
from harness.data import REFUSED, SIZE, bodies, files, flipped, serving
from harness.pushers import NAME, has_all
from harness.running import MIB, SmallDisk, pull, run
from harness.suite import case, check, equal, main, skip
from harness.wire import sha256, sha512

HOUR = 3_600
# what a dry run says
WASTE = re.compile(rf"would go: {SIZE} of {SIZE} of records, (\d+) of (\d+) files?, {SIZE} of {SIZE} in them\n")


def room(path):
    return sum(map(len, files(path).values()))


def content(seed, size):
    return random.Random(seed).randbytes(size)


# A blob in one body, in files, in records, in files with records between and behind them, and with nothing behind.
BLOBS = [
    (content(1, 3 * MIB), 4 * MIB),
    (content(2, 700_000), 100_000),
    (content(3, 90_000), 20_000),
    (content(4, 170_000), 66_000),
    (content(5, 10), 100),
    (b"", 1),
]


def mixed(client, blob):
    """Sends a blob in chunks of which some have a file and some don't."""
    place, at = client.opened(NAME), 0
    for size in (70_000, 5, 9, 66_000, 100):
        equal("a chunk", client.ask("PATCH", place, blob[at : at + size]).status, 202)
        at += size
    equal("its close", client.ask("PUT", f"{place}?digest={sha512(blob)}", blob[at:]).status, 201)


def filled(path):
    """Fills a directory with what stays and what goes, and gives two open uploads."""
    with serving(path) as server, server.client() as client:
        for blob, size in BLOBS:
            client.push(NAME, blob, size)
            # once more, which leaves what was there
            client.push("lib/b", blob, size)
        mixed(client, MIXED)
        mount = f"/v2/lib/c/blobs/uploads/?mount={sha256(BLOBS[0][0])}&from={NAME}"
        equal("a mount", client.ask("POST", mount).status, 201)
        place, empty = client.opened(NAME), client.opened("lib/d")
        gone = client.opened(NAME)
        client.ask("PATCH", gone, content(7, 200_000))
        client.ask("PUT", f"{gone}?digest={sha256(content(7, 200_000))}")
        equal("chunks", client.send_chunks(place, content(6, 150_000), 70_000)[:2], [202, 202])
    return place, empty


MIXED = content(8, 140_000)


def what_is_there(server, client, place, empty):
    has_all("the blobs", server, [blob for blob, _ in BLOBS])
    equal("those of another", [pull(server, "lib/b", sha256(blob)) for blob, _ in BLOBS], [blob for blob, _ in BLOBS])
    equal("a mounted one", pull(server, "lib/c", sha256(BLOBS[0][0])), BLOBS[0][0])
    equal("no others", [pull(server, "lib/c", sha256(blob)) for blob, _ in BLOBS[1:]], [404] * (len(BLOBS) - 1))
    equal("one in files and records", pull(server, NAME, sha512(MIXED)), MIXED)
    equal("the uploads", [client.ask("GET", at).held() for at in (place, empty)], [150_000, 0])


@case()
def what_stays_and_what_goes(folder):
    """After it all that was there is there, in less room. A second one changes nothing. Uploads go on."""
    path = os.path.join(folder, "data")
    place, empty = filled(path)
    before, was = room(path), files(path)
    dry, status, more = run("compact", "--dry-run", path)
    equal("a dry run", (status, more, files(path) == was), (0, "", True))
    dead, all_ = map(int, WASTE.fullmatch(dry).groups())
    equal("the files that it counts", all_, len(bodies(path)))
    told, status, more = run("compact", path)
    equal("a compaction", (status, more), (0, ""))
    check("it says what went", told.startswith("compacted: ") and told.endswith(f" {dead} files went\n"), (told, dry))
    left = files(path)
    check("there is room", room(path) < before, (before, room(path)))
    equal("the files of bodies", len(bodies(path)), 19)
    told, status, more = run("compact", path)
    equal("a second one", (status, more, files(path) == left), (0, "", True))
    check("nothing went", told.endswith(" 0 files went\n"), told)
    dry = run("compact", "--dry-run", path)[0]
    equal("nothing would go", WASTE.fullmatch(dry).groups(), ("0", "19"))
    with serving(path) as server, server.client() as client:
        what_is_there(server, client, place, empty)
        number = client.opened(NAME).rpartition("/")[2][:8]
        check("the number of another upload", int(number, 16) > int(empty.rpartition("/")[2][:8], 16), number)
        rest = client.ask("PATCH", place, b"rest", Content_Range="150000-150003").status
        closed = client.ask("PUT", f"{place}?digest={sha256(content(6, 150_000) + b'rest')}").status
        equal("an upload that goes on", [rest, closed], [202, 201])
        equal("an upload with nothing", client.ask("PUT", f"{empty}?digest={sha256(b'')}").status, 201)
    with serving(path) as server:
        equal("after a kill", pull(server, NAME, sha256(content(6, 150_000) + b"rest")), content(6, 150_000) + b"rest")


@case()
def files_that_no_record_names(folder):
    """A dry run counts them, also with a list, and a compaction removes them."""
    path = os.path.join(folder, "data")
    with serving(path) as server, server.client() as client:
        equal("a blob", client.push(NAME, BLOBS[0][0], 4 * MIB)[-1], 201)
    for number, size in ((70_001, 1_000), (70_002, 5)):
        with open(f"{path}/bodies/{number % 256:02x}/{number}", "wb") as file:
            file.write(bytes(size))
    # and what names no body: no number, the number of another folder, and one behind a zero
    for other in ("00/other", "00/70001", "71/070001"):
        with open(f"{path}/bodies/{other}", "wb"):
            pass
    keep, was = listed(folder, (NAME, sha256(BLOBS[0][0]))), files(path)
    for more in ([], [keep]):
        dry = run("compact", "--dry-run", path, *more)[0]
        check("a dry run", ", 2 of 3 files, 1005 B of 3.0 MiB in them" in dry, dry)
    equal("nothing is changed", files(path) == was, True)
    copy = os.path.join(folder, "copy")
    shutil.copytree(path, copy)
    with serving(copy) as server:
        equal("a start", server.told(), f"blobd: {copy}: 2 files of bodies removed, which no record named\n")
    told, status, more = run("compact", path)
    equal("a compaction", (status, more), (0, ""))
    check("it says what went", told.endswith(" 2 files went\n"), told)
    equal("what is left", len(bodies(path)), 4)
    with serving(path) as server:
        equal("the blob", pull(server, NAME, sha256(BLOBS[0][0])), BLOBS[0][0])


@case()
def what_is_refused(folder):
    """A directory that a server has, that is damaged, or that is none is refused with a word, and nothing is changed."""
    path = os.path.join(folder, "data")
    with serving(path) as server, server.client() as client:
        client.push(NAME, BLOBS[0][0], MIB)
        told, status, more = run("compact", path)
        equal("beside a server", (told, status), REFUSED)
        check("it is named", "another server has it" in more, more)
        check("a dry run beside it", WASTE.fullmatch(run("compact", "--dry-run", path)[0]))
        equal("the server goes on", client.push(NAME, BLOBS[1][0], MIB)[-1], 201)
    body = next(iter(bodies(path)))
    os.rename(os.path.join(path, body), os.path.join(folder, "body"))
    before = files(path)
    told, status, more = run("compact", path)
    equal("a damaged one", (told, status, files(path) == before), (*REFUSED, True))
    check("the damage is named", "isn't there" in more, more)
    lacking = f"blobd: damage in {path}: a body that a record names is missing, or has another length: "
    check("a dry run of it", run("compact", "--dry-run", path)[2].startswith(lacking))
    os.rename(os.path.join(folder, "body"), os.path.join(path, body))
    equal("a dry run once it is mended", run("compact", "--dry-run", path)[1:], (0, ""))
    equal("once it is mended", run("compact", path)[1], 0)
    empty = os.path.join(folder, "empty")
    os.mkdir(empty)
    for none in (empty, os.path.join(folder, "nothing"), os.path.join(path, "journal")):
        equal("no directory", run("compact", none)[:2], REFUSED)
        equal("a dry run of none", run("compact", "--dry-run", none)[:2], REFUSED)
    equal("nothing is made", (os.listdir(empty), os.path.exists(os.path.join(folder, "nothing"))), ([], False))


@case()
def many_in_one_body(folder):
    """Blobs in one body each, which are read in another order from the new journal. If one of them is damaged, nothing
    is changed."""
    path = os.path.join(folder, "data")
    blobs = [content(100 + at, 70_000 + 1_000 * at) for at in range(40)]
    with serving(path) as server, server.client() as client:
        equal("blobs", [client.push(NAME, blob, MIB)[-1] for blob in blobs], [201] * 40)
        # once more, which names them a second time
        equal("of another", [client.push("lib/b", blob, MIB)[-1] for blob in blobs[::3]], [201] * 14)
    body = os.path.join(path, max(bodies(path)))
    flipped(body, 0, 0)
    before = files(path)
    told, status, _ = run("compact", path)
    equal("a damaged one", (told, status, files(path) == before), (*REFUSED, True))
    flipped(body, 0, 0)
    told, status, more = run("compact", path)
    equal("a compaction", (status, more), (0, ""))
    check("it says what went", told.endswith(" 14 files went\n"), told)
    with serving(path) as server:
        has_all("the blobs", server, blobs)
        equal("those of another", [pull(server, "lib/b", sha256(blob)) == blob for blob in blobs[::3]], [True] * 14)


# Blobs of repositories that a list refers to, of those that `filled` stores.
KEPT = {
    *((NAME, sha256(BLOBS[at][0])) for at in (0, 3, 5)),
    (NAME, sha512(MIXED)),
    ("lib/b", sha256(BLOBS[0][0])),
    ("lib/b", sha256(BLOBS[1][0])),
}
STORED = {
    *((name, sha256(blob)) for name in (NAME, "lib/b") for blob, _ in BLOBS),
    (NAME, sha512(MIXED)),
    ("lib/c", sha256(BLOBS[0][0])),
    (NAME, sha256(content(7, 200_000))),
}
CONTENTS = {sha256(blob): blob for blob, _ in BLOBS} | {
    sha512(MIXED): MIXED,
    sha256(content(7, 200_000)): content(7, 200_000),
}


def listed(folder, *pairs):
    """A file that refers to these."""
    path = os.path.join(folder, "keep")
    with open(path, "w", encoding="utf-8") as file:
        file.writelines(f"{name} {digest}\n" for name, digest in pairs)
    return path


def whats_wrong(path, pairs):
    """What a server that starts with nothing but all of a directory has otherwise than just these blobs."""
    with serving(path) as server:
        return {
            (name, digest)
            for name, digest in STORED
            if pull(server, name, digest) != (CONTENTS[digest] if (name, digest) in pairs else 404)
        }


def grow_old():
    """What was stored before isn't of this second any more."""
    time.sleep(1.1)


@case()
def what_nothing_refers_to(folder):
    """With a list what it doesn't have goes too, from each repository by itself, and what it has stays."""
    path = os.path.join(folder, "data")
    place, empty = filled(path)
    grow_old()
    others = [("lib/none", sha256(b"")), ("lib/c", sha256(b"never stored"))]
    keep, was = listed(folder, *sorted(KEPT), *others), files(path)
    dry, status, more = run("compact", "--dry-run", "--grace", "0", path, keep)
    equal("a dry run", (status, more, files(path) == was), (0, "", True))
    *lines, last = dry.splitlines(keepends=True)
    equal("the lines", sorted(lines), sorted(f"{name} {digest}\n" for name, digest in STORED - KEPT))
    gives_up = f"repositories would give up {len(STORED - KEPT)} blobs\n"
    check("how much", last.endswith(f", {gives_up}"), last)
    dead, all_ = map(int, WASTE.fullmatch(last.replace(f", {gives_up}", "\n")).groups())
    equal("the files that it counts", all_, len(bodies(path)))
    told, status, more = run("compact", "--grace", "0", path, keep)
    equal("a compaction", (status, more), (0, ""))
    wanted = f", {dead} files went, repositories gave up {len(STORED - KEPT)} blobs\n"
    check("it says what went", told.startswith("compacted: ") and told.endswith(wanted), (told, wanted))
    check("there is room", room(path) < sum(map(len, was.values())), room(path))
    equal("what is there", whats_wrong(path, KEPT), set())
    with serving(path) as server, server.client() as client:
        equal("the uploads", [client.ask("GET", at).held() for at in (place, empty)], [150_000, 0])
        mount = f"/v2/lib/c/blobs/uploads/?mount={sha256(BLOBS[2][0])}&from={NAME}"
        equal("a mount of what went", client.ask("POST", mount).status, 202)
        equal("it is pushed again", client.push(NAME, *BLOBS[2])[-1], 201)
    equal("with that", whats_wrong(path, KEPT | {(NAME, sha256(BLOBS[2][0]))}), set())


@case()
def all_go_from_a_list_of_others(folder):
    """One that is read from standard input, and has nothing of what is there. A small journal is written anew too."""
    path = os.path.join(folder, "data")
    with serving(path) as server, server.client() as client:
        equal("a blob", client.push(NAME, b"abc", 3)[-1], 201)
    grow_old()
    line = f"lib/b {sha256(b'abc')}\n"
    told, status, more = run("compact", "--grace", "0", path, "-", input=line)
    equal("a compaction", (status, more), (0, ""))
    check("it says so", told.endswith(", repositories gave up 1 blob\n"), told)
    with serving(path) as server:
        equal("it is gone", pull(server, NAME, sha256(b"abc")), 404)
    told, status, more = run("compact", "--grace", "0", path, "-", input=line)
    equal("once more", (status, more), (0, ""))
    check("it says that no blob went", told.endswith(", repositories gave up 0 blobs\n"), told)


@case("cc")
def what_is_young_stays(folder):
    """Whatever the list says: that of a day, or of the time that is said. A mount makes a pair young again."""
    path, ahead = os.path.join(folder, "data"), os.path.join(folder, "ahead")
    clock = shims.loaded(folder, "ahead", CLOCK_AHEAD=ahead)
    shims.pass_time(ahead, 0)
    old, young, often = b"old", b"young", b"often"
    mount = f"/v2/{NAME}/blobs/uploads/?mount={sha256(often)}&from={NAME}"
    with serving(path, env=clock) as server, server.client() as client:
        equal("blobs", [client.push(NAME, blob, 10)[-1] for blob in (old, often)], [201, 201])
        shims.pass_time(ahead, 2 * HOUR)
        equal("another one", client.push(NAME, young, 10)[-1], 201)
        equal("a mount", client.ask("POST", mount).status, 201)
    keep, was = listed(folder, ("lib/b", sha256(old))), files(path)
    for grace in ([], ["--grace", "86400"], ["--grace", "1000000000"]):
        dry, status, more = run("compact", "--dry-run", *grace, path, keep, env=clock)
        equal("nothing would go", (status, more, dry.count("\n")), (0, "", 1))
        check("it says so", dry.endswith(", repositories would give up 0 blobs\n"), dry)
    equal("nothing is changed", files(path) == was, True)
    told, status, more = run("compact", "--grace", str(HOUR), path, keep, env=clock)
    equal("a compaction", (status, more), (0, ""))
    check("it says so", told.endswith(", repositories gave up 1 blob\n"), told)
    with serving(path) as server:
        equal("what is there", [pull(server, NAME, sha256(blob)) for blob in (old, young, often)], [404, young, often])
    told = run("compact", path, keep, env=clock)[0]
    check("by a day nothing goes", told.endswith(", repositories gave up 0 blobs\n"), told)
    with serving(path) as server:
        has_all("what is still there", server, [young, often])


@case()
def lists_that_are_refused(folder):
    """A list of which a line can't be read, an empty one, and one that may be cut off: nothing is changed."""
    path, keep = os.path.join(folder, "data"), os.path.join(folder, "keep")
    with serving(path) as server, server.client() as client:
        equal("a blob", client.push(NAME, b"abc", 3)[-1], 201)
    grow_old()
    was, good = files(path), f"{NAME} {sha256(b'abc')}"
    no_line = "line {} is no NAME DIGEST"
    for text, why in (
        ("", "it has no lines, so all blobs would go"),
        (good, "its last line has no end, so it may be cut off"),
        (f"{good}\n{good[:-1]}", "its last line has no end, so it may be cut off"),
        ("\n", no_line.format(1)),
        (f"{good}\n\n", no_line.format(2)),
        (f"{good[:-1]}\n{good}\n", no_line.format(1)),
        (f"{good}\n{good} \n", no_line.format(2)),
        (f" {good}\n", no_line.format(1)),
        (f"{good.replace(' ', '  ')}\n", no_line.format(1)),
        (f"{good.replace(NAME, 'LIB/A')}\n", no_line.format(1)),
        (f"{NAME} {sha256(b'abc').upper()}\n", no_line.format(1)),
        (f"{NAME}\n", no_line.format(1)),
        (f"{sha256(b'abc')} {NAME}\n", no_line.format(1)),
        (f"# all\n{good}\n", no_line.format(1)),
    ):
        with open(keep, "w", encoding="utf-8") as file:
            file.write(text)
        wanted = "refused: keep\n", 1, f"blobd: can't read {keep}: {why}\n"
        for words in (["--grace", "0"], ["--dry-run", "--grace", "0"]):
            equal(f"the list {text!r}", run("compact", *words, path, keep), wanted)
    # an option behind DIR is taken for KEEP
    printed, status, told = run("compact", path, "--dry-run")
    equal("an option behind the directory", (printed, status), ("refused: keep\n", 1))
    check("what is told of it", told.endswith("; options stand before DIR\n"), told)
    with open(keep, "wb") as file:
        file.write(f"{good}\n".encode() + b"\xff\n")
    for none in (keep, folder, os.path.join(folder, "nothing")):
        equal("no list", run("compact", "--grace", "0", path, none)[:2], ("refused: keep\n", 1))
    equal("nothing is changed", files(path) == was, True)


LARGE, OFTEN = content(9, 48 * MIB), content(10, 16 * MIB)
TIMES = 6


def wasteful(path):
    """Stores a blob once and another one six times, in bodies of 4 MiB: 36 of them, and 20 more than are needed."""
    with serving(path) as server, server.client() as client:
        equal("a push", client.push(NAME, LARGE, 4 * MIB)[-1], 201)
        equal("others", [client.push(f"lib/{at}", OFTEN, 4 * MIB)[-1] for at in range(TIMES)], [201] * TIMES)
    equal("files", len(bodies(path)), 36)


def first_told(path, count, **variables):
    """What a start says first. It has all that was stored, and so many files."""
    with serving(path, env=variables) as server:
        told = server.told()
        stored = [(NAME, LARGE), *((f"lib/{at}", OFTEN) for at in range(TIMES))]
        equal("what is lost", [name for name, blob in stored if pull(server, name, sha256(blob)) != blob], [])
    equal("the files of bodies", len(bodies(path)), count)
    return told


@case()
def a_start_makes_room(folder):
    """It gives much room back by itself, and says so; the next one has nothing to give. One without the memory for it,
    or after one that was cut off, starts all the same, and says why it gave none."""
    path = os.path.join(folder, "data")
    wasteful(path)
    told = first_told(path, 36, BLOBD_MEMORY="100M")
    wanted = f"blobd: {path} wasn't compacted: that takes 128.0 MiB of memory, the server may hold 100.0 MiB\n"
    equal("without the memory", told, wanted)
    with open(os.path.join(path, "journal.new"), "wb"):
        pass
    told = first_told(path, 36)
    wanted = f"blobd: {path} wasn't compacted: it was cut off the last time; the next start tries it again\n"
    equal("after one that was cut off", told, wanted)
    told = first_told(path, 16)
    wanted = rf"blobd: {re.escape(path)} was compacted in \d+\.\d s: \d+ records became \d+, 20 files went\n"
    check("it says so", re.fullmatch(wanted, told), told)
    told = first_told(path, 16)
    check("the next one", told.startswith("blobd: 2 blobs, 64.0 MiB, "), told)


@case()
def a_start_on_a_full_disk(folder):
    """It gives no room back, since a new journal finds none, and says so. It leaves nothing of that, and starts."""
    with SmallDisk(folder, 200) as disk:
        if not disk.is_there:
            skip("a_start_on_a_full_disk", "this user may mount no small disk")
            return
        path, other = os.path.join(disk.path, "data"), os.path.join(disk.path, "other")
        wasteful(path)
        with open(other, "wb", buffering=0) as file, contextlib.suppress(OSError):
            while file.write(bytes(MIB)):
                pass
        told = first_told(path, 36)
        check("it is told", told.startswith(f"blobd: {path} wasn't compacted: journal.new: "), told)
        check("why", "No space left on device" in told, told)
        equal("what is there", sorted(os.listdir(path)), ["bodies", "journal"])
        os.remove(other)
        told = first_told(path, 16)
        check("once there is room", "was compacted in" in told, told)


if __name__ == "__main__":
    main(__doc__)
