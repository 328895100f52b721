"""Data directories of `blobd serve`: servers on them, what is in them, what is spoiled in them, what a start says."""
import os
import random
import re
import subprocess
import time

from .pushers import NAME, post
from .running import KIB, Server, environment, run
from .suite import OPTIONS, check

# a body of more bytes has a file of its own
LARGEST_IN_JOURNAL = 64 * KIB
SECTOR = 4 * KIB
# what a data directory that can't be used makes the program print, and its status
REFUSED = "fault: data\n", 3

# Contents from nothing to more than what the journal itself takes.
LARGE = 64 * KIB, 64 * KIB + 1, 3 << 20
CONTENTS = [b"", b"a", bytes(5_000), *(random.Random(size).randbytes(size) for size in LARGE)]
# what `filled` puts into a directory
FILLED = [b"one", b"two", CONTENTS[-2]]

# what a start says that it has
SIZE = r"\d+(?:\.\d)? (?:[KMG]i)?B"
UNSET = r"three quarters of what it may use, since BLOBD_MEMORY isn't set"
HOLDS = re.compile(rf"blobd: \d+ blobs?, {SIZE}, \d+ uploads? open; in memory it holds at most {SIZE} \({UNSET}\)\n")

# the head of a batch: four numbers
HEAD_LEN = 32


def variables(path, **more):
    """Those of a server that starts with nothing but all of a directory."""
    return {"BLOBD_DATA": path, "BLOBD_STRICT": "1", **more}


def serving(path, *words, env=None, **options):
    """A server on a data directory, whose standard error is read."""
    options = {"stderr": subprocess.PIPE} | options
    return Server(*words, env=variables(path, **env or {}), **options)


def serving_the_rest(path, **options):
    """The same on a directory that may be damaged."""
    return serving(path, env={"BLOBD_STRICT": None}, **options)


def killed_start(path, seconds, **more):
    """Begins a server on a directory, and kills it so many seconds later."""
    words, options = [OPTIONS.program, "serve", "127.0.0.1:0"], {"env": environment(variables(path, **more))}
    with subprocess.Popen(words, stdout=subprocess.DEVNULL, stderr=subprocess.DEVNULL, **options) as process:
        time.sleep(seconds)
        process.kill()


def filled(path):
    """A data directory in which there are three blobs, and an open upload: the path of the last one's file in there,
    and the upload's place."""
    with serving(path) as server, server.client() as client:
        for content in FILLED:
            post(client, content)
        place = client.opened(NAME)
        client.send_chunks(place, b"a chunk")
    (body,) = bodies(path)
    return body, place


def content_of(path):
    """The bytes of a file."""
    with open(path, "rb") as file:
        return file.read()


def tree(path):
    """What stands in a folder: by its path in there the bytes of a file, or nothing of a folder."""
    found = {".": None}
    for above, folders, names in os.walk(path):
        below = os.path.relpath(above, path)
        found |= {os.path.normpath(os.path.join(below, name)): None for name in folders}
        found |= {os.path.normpath(os.path.join(below, name)): content_of(os.path.join(above, name)) for name in names}
    return found


def files(path):
    """Each file within a folder, with its bytes."""
    return {name: content for name, content in tree(path).items() if content is not None}


def bodies(path):
    """The files that the bodies of a directory have."""
    return {name: content for name, content in files(path).items() if name.startswith("bodies/")}


def overwritten(path, at, content):
    """Puts bytes in the place of those that stand there in a file."""
    with open(path, "r+b") as file:
        file.seek(at)
        file.write(content)


def changed(path, old, new):
    """Puts bytes in the place of others that stand once in a file."""
    content = content_of(path)
    assert content.count(old) == 1, (path, old, content.count(old))
    overwritten(path, content.index(old), new)


def flipped(path, at, bit):
    """Changes a bit of a file."""
    overwritten(path, at, bytes([content_of(path)[at] ^ 1 << bit]))


def number_at(journal, at):
    """A number of eight bytes."""
    return int.from_bytes(journal[at : at + 8], "big")


def gates_of(journal):
    """Where the open gates of a journal stand. Behind the sector of each is its batch: its head, of which the third
    number is the length of its records, and those."""
    at, found = SECTOR, []
    while journal[at] == 1:
        found.append(at)
        at += SECTOR + -(-(HEAD_LEN + number_at(journal, at + SECTOR + 16)) // SECTOR) * SECTOR
    return found


def is_refused(name, path, word, options=(), **more):
    """Checks that a directory is refused, by this word, and left as it was. The options are those of the process."""
    before = tree(path)
    printed, status, told = run("serve", "127.0.0.1:0", env=variables(path, **more), **dict(options))
    is_told = told.startswith(f"blobd: can't use {path}: ") and word in told and told.count("\n") == 1
    check(name, (printed, status) == REFUSED and is_told, (printed, status, told))
    check(f"{name}: nothing is changed", tree(path) == before)


def named_losses(server):
    """The lines in which a server that listens has named what of its directory is damaged."""
    *lines, holds = iter(lambda: server.told(0), "")
    check("what it has is told last", HOLDS.fullmatch(holds), holds)
    check("each is of the damage", all(line.startswith("blobd: damage in ") for line in lines), lines)
    return lines
