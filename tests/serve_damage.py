#!/usr/bin/env python3
"""`blobd serve` on a data directory in which a body or a record is damaged: what is lost is named, and the rest served.

    serve_damage.py PROGRAM
"""
import os
import random
import re
import shutil

from harness.data import (
    CONTENTS, FILLED, HEAD_LEN, REFUSED, SECTOR, changed, content_of, filled, flipped, gates_of, is_refused,
    named_losses, number_at, overwritten, serving, serving_the_rest,
)
from harness.pushers import NAME, has_all, held, post
from harness.running import pull
from harness.suite import OPTIONS, case, check, equal, main
from harness.wire import sha256

# when a record that is lost was written
WRITTEN = re.compile(r"journal: record \d+, written 20\d\d-\d\d-\d\dT\d\d:\d\d:\d\dZ, can't be run again: ")


def goes_on(name, path, lost, word):
    """Checks that a damaged directory is served but for the contents that are lost, each of which is named by this
    word; that what is pushed from then on survives a kill; and that a pull never has a wrong byte."""
    left = [404 if content in lost else content for content in FILLED]
    for pushed in ([], [b"more", CONTENTS[-1], *lost], [b"more", CONTENTS[-1], *lost]):
        with serving_the_rest(path) as server, server.client() as client:
            told = named_losses(server)
            digests = [sha256(content) for content in lost]
            check(f"{name}: what is lost is named", len(told) == len(lost)
                  and all(word in line and digest in line for line, digest in zip(told, digests)), told)
            check(f"{name}: when it was written", all(map(WRITTEN.search, told)), told)
            wanted = [content if content in pushed else found for content, found in zip(FILLED, left)]
            equal(f"{name}: what is left", [pull(server, NAME, digest) for digest in map(sha256, FILLED)], wanted)
            has_all(f"{name}: what was pushed before", server, pushed)
            for content in [b"more", CONTENTS[-1], *lost]:
                equal(f"{name}: a push", client.push(NAME, content)[-1], 201)


@case()
def damaged_directories(folder):
    """Of a directory that is damaged what is lost is named, one line each, and the rest is served, over further kills.
    If it is to be strict, the server doesn't start, and nothing is changed."""
    good, bad = os.path.join(folder, "good"), os.path.join(folder, "bad")
    (body, _), large = filled(good), [CONTENTS[-2]]
    cases = [
        ("a small body with a byte changed", lambda: changed(f"{bad}/journal", b"two", b"twp"), [b"two"],
         "its text has changed"),
        ("a body that is gone", lambda: os.remove(f"{bad}/{body}"), large, "isn't there"),
        ("a body that was cut", lambda: os.truncate(f"{bad}/{body}", 70), large, "has another length"),
        ("a body with a byte changed", lambda: changed(f"{bad}/{body}", CONTENTS[-2][:16], bytes(16)), large,
         "its answer comes out otherwise"),
    ]
    for name, spoil, lost, word in cases:
        shutil.copytree(good, bad)
        spoil()
        is_refused(name, bad, f"{word}; restore a copy, or start without BLOBD_STRICT")
        goes_on(name, bad, lost, word)
        shutil.rmtree(bad)


@case()
def file_put_back(folder):
    """A body that is put back is there again, beside what was pushed without it."""
    path = os.path.join(folder, "data")
    body, _ = filled(path)
    os.rename(f"{path}/{body}", f"{folder}/body")
    with serving_the_rest(path) as server, server.client() as client:
        check("the loss is named", len(named_losses(server)) == 1)
        equal("what is lost", pull(server, NAME, sha256(CONTENTS[-2])), 404)
        equal("another large body", client.push(NAME, CONTENTS[-1])[-1], 201)
    check("its number isn't given again", not os.path.exists(f"{path}/{body}"))
    os.rename(f"{folder}/body", f"{path}/{body}")
    with serving(path) as server:
        has_all("all", server, [*FILLED, CONTENTS[-1]])


@case()
def what_is_told_behind_losses_is_there(folder):
    """Behind a chunk that is lost, and that now reads as one of an upload with a much higher number, uploads are opened
    and go on over further kills."""
    path, content = os.path.join(folder, "data"), random.Random(5).randbytes(100_000)
    _, first = filled(path)
    reference, journal = first.rpartition("/")[2].encode(), f"{path}/journal"
    overwritten(journal, content_of(journal).rindex(reference) + 1, b"1")
    place, uploads = None, []
    for sent in (40_000, 80_000, 100_000, None):
        with serving_the_rest(path) as server, server.client() as client:
            told = named_losses(server)
            check("the chunk is named", len(told) == 1 and told[0].endswith(
                f"its text has changed; lost: upload 16777217 of {NAME}, up to byte 7\n"), told)
            equal("what hung on the chunk", held(client, first), (204, 0))
            equal("what was opened after it", [held(client, other) for other in uploads], [(204, 0)] * len(uploads))
            if sent is None:
                equal("the blob of the upload", pull(server, NAME, sha256(content)), content)
                break
            if place is None:
                place, begun = client.opened(NAME), 0
            equal("the upload that goes on", held(client, place), (204, begun))
            client.ask("PATCH", place, content[begun:sent], Content_Range=f"{begun}-{sent - 1}")
            begun = sent
            if sent == len(content):
                equal("its close", client.ask("PUT", f"{place}?digest={sha256(content)}").status, 201)
            uploads.append(client.opened(NAME))


@case()
def many_losses(folder):
    """Beyond the first 64 losses it is said how many more there are."""
    path = os.path.join(folder, "data")
    contents = [b"blob %d" % i for i in range(70)]
    with serving(path) as server, server.client() as client:
        for content in contents:
            post(client, content)
    overwritten(f"{path}/journal", 0, content_of(f"{path}/journal").replace(b"blob ", b"Blob "))
    with serving_the_rest(path) as server:
        told = named_losses(server)
        check("each is named, or counted", len(told) == 65 and all(sha256(content) in line for content, line in
              zip(contents, told[:64])) and told[64].endswith(": 6 more records lost\n"), told[-3:])
        equal("none is there", {pull(server, NAME, sha256(content)) for content in contents}, {404})


@case()
def damaged_journal(folder):
    """A journal with a bit changed anywhere is refused, or what is served of it is what was stored: no wrong byte is
    ever handed out."""
    good, bad = os.path.join(folder, "good"), os.path.join(folder, "bad")
    filled(good)
    size, chance = os.path.getsize(f"{good}/journal"), random.Random(7)
    for _ in range(40):
        shutil.copytree(good, bad)
        flipped(f"{bad}/journal", at := chance.randrange(size), bit := chance.randrange(8))
        with serving(bad) as server:
            if server.first_line == REFUSED[0]:
                told = server.told()
                check("a damaged journal is named", server.process.wait() == 3 and "journal: " in told, (at, bit, told))
            else:
                pulled = [pull(server, NAME, sha256(content)) for content in FILLED]
                is_right = all(map(lambda got, content: got in (content, 404), pulled, FILLED))
                check("what a damaged journal leaves", is_right, (at, bit))
        shutil.rmtree(bad)


def first_records(journal):
    """Where the bytes of the first record of each batch are, which begins with eight bytes of its length."""
    for gate in gates_of(journal):
        at = gate + SECTOR + HEAD_LEN
        yield range(at + 8, at + 8 + number_at(journal, at))


def spoiled_by(journal, at, place):
    """What the record has to do with in which a byte is: the digests of `FILLED`, and the place of an upload."""
    (record,) = [one for one in first_records(journal) if at in one]
    texts = {sha256(content): sha256(content) for content in FILLED} | {place: place.rpartition("/")[2]}
    return {what for what, text in texts.items() if text.encode() in journal[record.start : record.stop]}


def isnt_there(server, client, place):
    """What a server on a directory that was `filled` lacks: digests, and the place of the upload. A blob with other
    bytes than were stored fails a check."""
    pulled = {sha256(content): pull(server, NAME, sha256(content)) for content in FILLED}
    wrong = [digest for content, (digest, got) in zip(FILLED, pulled.items()) if got not in (content, 404)]
    check("no wrong byte", not wrong, wrong)
    missing = {digest for digest, got in pulled.items() if got == 404}
    return missing if held(client, place) == (204, 7) else missing | {place}


def is_named(what, lines):
    """Whether a line says that this is lost. The upload is the first one."""
    return any((f"upload 1 of {NAME}" if what.startswith("/") else what) in line for line in lines)


@case()
def damaged_anywhere(folder):
    """Whatever bit of a body or of a record's text is changed: it is found, what is lost is named and nothing else is,
    no wrong byte is handed out, and what is pushed from then on survives a kill. If it is to be strict, the server
    doesn't start."""
    good, bad = os.path.join(folder, "good"), os.path.join(folder, "bad")
    body, upload = filled(good)
    journal = content_of(f"{good}/journal")
    records = [at for record in first_records(journal) for at in record]
    chance = random.Random(OPTIONS.seed)
    for turn in range(60):
        file, at = ("journal", chance.choice(records)) if turn % 4 else (body, chance.randrange(len(CONTENTS[-2])))
        shutil.copytree(good, bad)
        flipped(f"{bad}/{file}", at, bit := chance.randrange(8))
        place = file, at, bit
        with serving(bad) as server:
            is_strict = server.first_line == REFUSED[0]
        for pushed in ([], [b"more"]):
            with serving_the_rest(bad) as server, server.client() as client:
                lines, missing = named_losses(server), isnt_there(server, client, upload)
                named = {what for what in [*map(sha256, FILLED), upload] if is_named(what, lines)}
                check("what has changed is found", lines, place)
                check("what is named is lost", named <= missing, (place, lines, missing))
                # a line of the record that was changed may not say what it held
                spoiled = spoiled_by(journal, at, upload) if file == "journal" else set()
                check("what is lost is named", missing <= named | spoiled, (place, lines, missing))
                check("it doesn't start if it is to be strict", is_strict, place)
                has_all("what was pushed after it", server, pushed)
                equal("a push", client.push(NAME, b"more")[-1], 201)
        shutil.rmtree(bad)


if __name__ == "__main__":
    main(__doc__, seed=(1, "of the damage"))
