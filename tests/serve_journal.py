#!/usr/bin/env python3
"""`blobd serve` on a journal that is damaged between its records, or cut: what it mends, what it goes on without, and
what it refuses.

    serve_journal.py PROGRAM
"""
import json
import os
import random
import re
import shutil

from harness.data import (
    CONTENTS, HEAD_LEN, HOLDS, LARGEST_IN_JOURNAL, REFUSED, SECTOR, SIZE, bodies, content_of, flipped, gates_of,
    is_refused, overwritten, serving, serving_the_rest, tree, variables,
)
from harness.pushers import NAME, has_all, post
from harness.running import pull, run
from harness.suite import OPTIONS, case, check, equal, main
from harness.wire import sha256

MISSING = "damage in {0}: journal: records are missing at its end: "
WENT_ON = (
    "{0}: an earlier start went on without records that were missing; no file is removed before `blobd compact {0}`\n"
)
# what `blobd status` says of the end of a journal that is looked at
AT_THE_END = (
    "blobd: " + MISSING + "it is damaged or cut there, or a copy that was made while a server wrote; "
    "a start goes on without what it can't mend\n"
)
# how many sectors one start mends, and what it says if there are more
MOST_MENDED, HALF_MENDED = 4_096, "journal: more sectors are damaged than one start mends; start again"
MENDED = "blobd: damage in {0}: journal: 1 damaged sector mended, so that what stands there is read again\n"


def zeroed(path, first, last):
    """Writes zeros over a part of a file."""
    overwritten(path, first, bytes(last - first))


def goes_for_good(path, told):
    """How many files a compaction says to remove for good, behind what else is told."""
    begin = f"blobd: {path}: records may be missing, and a compaction makes that final: "
    last = told.removeprefix(begin)
    found = re.fullmatch(rf"(\d+) files?, {SIZE}, go that no record names\n", last)
    return int(found.group(1)) if found else 0 if not told else told


def is_looked_at(name, path, told, word):
    """Checks what is told of missing records by those commands that only look at a directory, and that they change
    nothing. Gives how many files a dry run says to go for good."""
    before, wanted, keep = tree(path), told.format(path), f"{path}-keep"
    with open(keep, "w", encoding="ascii") as file:
        file.write(f"{NAME} {sha256(b'')}\n")
    for words in (["status"], ["status", "--json"]):
        line, status, more_told = run(*words, path)
        equal(f"{name}: what {words} tells", (status, more_told), (0, wanted))
        if words[-1] == "--json":
            equal(f"{name}: as JSON", json.loads(line).get("missing"), word)
    going = []
    for more in ([], [keep]):
        line, status, more_told = run("compact", "--dry-run", path, *more)
        equal(f"{name}: what a dry run tells first", (status, more_told[:len(wanted)]), (0, wanted))
        going.append(goes_for_good(path, more_told[len(wanted):]))
        if not more:
            equal(f"{name}: the files of a dry run", int(re.search(r"records, (\d+) of", line).group(1)), going[0])
    equal(f"{name}: the same with a list", going[1], going[0])
    check(f"{name}: nothing is changed", tree(path) == before)
    return going[0]


def is_neither_opened_nor_compacted(name, path):
    """Checks that a strict start and a compaction refuse a directory for its journal."""
    is_refused(f"{name}: a strict start", path, "; put the journal back, or start without BLOBD_STRICT")
    told, status, more_told = run("compact", path)
    is_told = "records are missing" in more_told
    check(f"{name}: it isn't compacted", (told, status) == REFUSED and is_told, more_told)


def goes_on_without(name, path, contents):
    """Checks that a directory whose journal ends as no crash leaves it is refused if it is to be strict, and else
    served by what stands before; that no start removes a file before it is compacted; and that what is pushed then is
    there."""
    before, more = bodies(path), b"more"
    is_looked_at(name, path, AT_THE_END, "at the end")
    is_neither_opened_nor_compacted(name, path)
    with serving_the_rest(path) as server, server.client() as client:
        first = server.told()
        check(f"{name}: it is told", first.startswith("blobd: " + MISSING.format(path)), first)
        found = [pull(server, NAME, sha256(content)) for content in contents]
        there = sum(one == content for one, content in zip(found, contents))
        check(f"{name}: the first ones are there", found == contents[:there] + [404] * (len(contents) - there), found)
        equal(f"{name}: a push", client.push(NAME, more)[-1], 201)
    for _ in range(2):
        with serving(path) as server:
            equal(f"{name}: what a strict start says then", server.told(), "blobd: " + WENT_ON.format(path))
            has_all(f"{name}: what is there", server, [*contents[:there], more])
        check(f"{name}: no file is removed", before.items() <= bodies(path).items())
    going = is_looked_at(f"{name}: after a start", path, "blobd: " + WENT_ON, "before")
    was = bodies(path)
    told, status, more_told = run("compact", path)
    equal(f"{name}: a compaction", (status, goes_for_good(path, more_told)), (0, going))
    equal(f"{name}: the files that went", len(was.keys() - bodies(path).keys()), going)
    is_looked_at(f"{name}: after a compaction", path, "", None)
    with serving(path) as server:
        told = server.told()
        check(f"{name}: nothing is said any more", HOLDS.fullmatch(told), told)
        has_all(f"{name}: what is there after a compaction", server, [*contents[:there], more])
    return there


@case()
def broken_ends(folder):
    """Whatever stands between the records of a journal is changed, cut off or zeros: that is found."""
    good, bad = os.path.join(folder, "good"), os.path.join(folder, "bad")
    chance = random.Random(OPTIONS.seed)
    contents = [chance.randbytes(3), chance.randbytes(LARGEST_IN_JOURNAL + 1), chance.randbytes(5_000)]
    contents += [chance.randbytes(size) for size in (4, 2 * LARGEST_IN_JOURNAL, 5)]
    with serving(good) as server, server.client() as client:
        equal("pushes", [client.push(NAME, content)[-1] for content in contents], [201] * len(contents))
    gates = gates_of(content_of(f"{good}/journal"))
    check("a batch for each push at least", len(gates) >= len(contents), len(gates))
    journal, fewest = f"{bad}/journal", set()
    for left, at in enumerate(gates):
        head, is_last = at + SECTOR, left == len(gates) - 1

        def gate_and_head():
            flipped(journal, at, chance.randrange(8))
            flipped(journal, head + chance.randrange(8), chance.randrange(8))

        kinds = [
            ("a journal that is cut", lambda: os.truncate(journal, head + chance.randrange(SECTOR))),
            *([("a gate and its head", gate_and_head),
               ("a gate of zeros", lambda: zeroed(journal, at, head)),
               ("zeros", lambda: zeroed(journal, at, gates[-1]))] if not is_last else []),
        ]
        # a change for each gate, and all at one in the middle and at the last one
        for name, spoil in kinds if left == len(gates) // 2 or is_last else [kinds[left % len(kinds)]]:
            shutil.copytree(good, bad)
            spoil()
            fewest.add(goes_on_without(f"{name} at gate {left}", bad, contents))
            shutil.rmtree(bad)
    check("all, but for the last one, and none", 0 in fewest and max(fewest) < len(contents), fewest)


def comes_back(name, path, contents, is_told=True):
    """Checks that a directory of whose journal one sector is damaged, between records, is refused if it is to be
    strict, and not compacted; and that a start brings all back, says so, and is the last that does. Of the last gate
    nobody can tell whether it was being opened, so no start is refused for that."""
    is_looked_at(name, path, AT_THE_END if is_told else "", "at the end" if is_told else None)
    if is_told:
        before = tree(path)
        is_neither_opened_nor_compacted(name, path)
        check(f"{name}: a compaction that is refused changes nothing", tree(path) == before)
    with serving_the_rest(path) as server, server.client() as client:
        equal(f"{name}: it is told", server.told(), MENDED.format(path))
        has_all(f"{name}: what is there", server, contents)
        equal(f"{name}: a push", client.push(NAME, b"more")[-1], 201)
    is_looked_at(f"{name}: after a start", path, "", None)
    with serving(path) as server:
        told = server.told()
        check(f"{name}: nothing is said any more", HOLDS.fullmatch(told), told)
        has_all(f"{name}: what a strict start has", server, [*contents, b"more"])


@case()
def damaged_sectors(folder):
    """A bit of the first byte of a gate is changed, or one of the head of a batch: all comes back. One of the copy of a
    head that a gate has is no damage by itself."""
    good, bad = os.path.join(folder, "good"), os.path.join(folder, "bad")
    chance, journal = random.Random(OPTIONS.seed), f"{bad}/journal"
    contents = [chance.randbytes(size) for size in (3, LARGEST_IN_JOURNAL + 1, 5_000, 4)]
    with serving(good) as server, server.client() as client:
        equal("pushes", [client.push(NAME, content)[-1] for content in contents], [201] * len(contents))
    gates = gates_of(content_of(f"{good}/journal"))
    for at in gates:
        head = at + SECTOR
        kinds = [
            ("a head", lambda: flipped(journal, head + chance.randrange(HEAD_LEN), chance.randrange(8))),
            ("a length", lambda: flipped(journal, head + 16 + chance.randrange(8), chance.randrange(8))),
            ("a gate", lambda: flipped(journal, at, chance.randrange(8))),
        ]
        shutil.copytree(good, bad)
        flipped(journal, at + 1 + chance.randrange(HEAD_LEN), chance.randrange(8))
        is_looked_at(f"a copy at {at}", bad, "", None)
        with serving(bad) as server:
            check("a copy that has changed", HOLDS.fullmatch(told := server.told()), told)
            has_all("what is there", server, contents)
        shutil.rmtree(bad)
        for name, spoil in kinds:
            shutil.copytree(good, bad)
            spoil()
            comes_back(f"{name} at {at}", bad, contents, name != "a gate" or at != gates[-1])
            shutil.rmtree(bad)


@case()
def many_damaged_gates(folder):
    """A start brings back what each damaged gate hides. One that has mended as many as it may is refused, as is a
    compaction, and the next one goes on, so that nothing is lost."""
    good, bad = os.path.join(folder, "good"), os.path.join(folder, "bad")
    contents = [str(number).encode() for number in range(OPTIONS.damaged)]
    with serving(good) as server, server.client() as client:
        for content in contents:
            post(client, content)
    journal = bytearray(content_of(f"{good}/journal"))
    gates = gates_of(journal)
    equal("a batch for each", len(gates), len(contents))
    for at in gates:
        journal[at] ^= 2
    overwritten(f"{good}/journal", 0, journal)
    for words in (["serve", "127.0.0.1:0"], ["compact", bad]):
        shutil.copytree(good, bad)
        for _ in range((len(gates) - 1) // MOST_MENDED):
            printed, status, told = run(*words, env=variables(bad, BLOBD_STRICT="0"))
            check(f"{words[0]} is refused", (printed, status) == REFUSED and HALF_MENDED in told, (printed, told))
        if words[0] == "compact":
            equal("a compaction", run(*words)[1], 0)
        with serving_the_rest(bad) as server:
            has_all(f"what is there after {words[0]}", server, contents)
        shutil.rmtree(bad)


@case()
def compacted_with_a_damaged_gate(folder):
    """Of the last gate nobody can tell whether it was being opened. So a compaction mends it first, as a start does:
    the records behind it stay, and their bodies."""
    path = os.path.join(folder, "data")
    contents = [bytes([turn]) * (LARGEST_IN_JOURNAL + 1) for turn in range(3)]
    with serving(path) as server, server.client() as client:
        for content in [b"a", *contents]:
            equal("a push", [client.push(NAME, content)[-1] for _ in range(2)], [201, 201])
    last = gates_of(content_of(f"{path}/journal"))[-1]
    zeroed(f"{path}/journal", last, last + 1)
    told, status, more_told = run("compact", path)
    equal("a compaction", (status, more_told), (0, MENDED.format(path)))
    before, after = map(int, re.match(r"compacted: (\d+) records? became (\d+), ", told).groups())
    check("it makes the journal shorter", after < before, told)
    with serving(path) as server:
        has_all("what is there", server, [b"a", *contents])


@case()
def cut_before_its_first_record(folder):
    """Bodies whose journal was cut before its first record are left as they are, by each start and by a compaction. Who
    only looks at it says the same."""
    path = os.path.join(folder, "data")
    with serving(path) as server, server.client() as client:
        equal("a push", client.push(NAME, CONTENTS[-1])[-1], 201)
    for size in (2 * SECTOR - 1, SECTOR, 100, 0):
        os.truncate(f"{path}/journal", size)
        for strict in "10":
            is_refused(f"a journal of {size} bytes", path, "its journal is empty", BLOBD_STRICT=strict)
        for words in (["compact"], ["compact", "--dry-run"], ["status"], ["status", "--json"]):
            told, status, more = run(*words, path)
            check(f"{words} of {size} bytes", (told, status) == REFUSED and "its journal is empty" in more, more)
    shutil.rmtree(f"{path}/bodies")
    os.mkdir(f"{path}/bodies", 0o700)
    with serving(path) as server, server.client() as client:
        equal("a push after a journal that was cut, without bodies", client.push(NAME, b"a")[-1], 201)


@case()
def torn_gate(folder):
    """A gate that was being opened, as a power cut may leave it, is no damage: the start isn't refused for it. No file
    goes before the journal ends as usual again."""
    path = os.path.join(folder, "data")
    with serving(path) as server, server.client() as client:
        equal("pushes", [client.push(NAME, content)[-1] for content in (b"a", b"b")], [201] * 2)
    last = gates_of(content_of(f"{path}/journal"))[-1]
    zeroed(f"{path}/journal", last, last + SECTOR // 2)
    with serving(path) as server, server.client() as client:
        told = server.told()
        check("nothing is said", HOLDS.fullmatch(told), told)
        equal("what was acknowledged before", pull(server, NAME, sha256(b"a")), b"a")
        equal("a push", client.push(NAME, b"c")[-1], 201)
    with serving(path) as server:
        equal("what was pushed then", pull(server, NAME, sha256(b"c")), b"c")


if __name__ == "__main__":
    main(__doc__, seed=(1, "of the damage"), damaged=(9, "gates, where many are"))
