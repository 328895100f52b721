#!/usr/bin/env python3
"""Which folders `blobd serve` takes as its data directory, and which it refuses.

    serve_folders.py PROGRAM
"""
import ctypes
import os
import shutil
import socket

from harness.data import (
    CONTENTS, FILLED, REFUSED, changed, filled, is_refused, named_losses, serving, serving_the_rest, tree, variables,
)
from harness.pushers import NAME, has_all
from harness.running import USAGE, Server, ask_alone, pull, run
from harness.suite import case, check, equal, main
from harness.wire import sha256

# what takes a capability from the programs that a process starts, and the two by which modes don't count
DROP_CAPABILITY, DAC_OVERRIDE, DAC_READ_SEARCH = 24, 1, 2
# the largest blob, as a journal's first line has it, and the limits behind it
LIMIT = b"".join(limit.to_bytes(8) for limit in (1 << 34, 1 << 31, 1_024, 3_600))


@case()
def whose_it_is(folder):
    """A directory is made for its owner alone, and holds a journal and bodies."""
    path = os.path.join(folder, "data")
    with serving(path) as server, server.client() as client:
        client.push(NAME, CONTENTS[-1])
    there = tree(path)
    modes = {name: os.stat(os.path.join(path, name)).st_mode & 0o777 for name in there}
    wanted = {name: 0o700 if content is None else 0o600 for name, content in there.items()}
    equal("the modes of what is there", modes, wanted)
    equal("what is there", sorted(os.listdir(path)), ["bodies", "journal"])


@case()
def nothing_without_it(folder):
    """Without the variable nothing is written, and nothing else reads it."""
    with Server(env={"HOME": folder, "TMPDIR": folder}, cwd=folder) as server, server.client() as client:
        equal("a push", client.push(NAME, CONTENTS[-1])[-1], 201)
    path = os.path.join(folder, "data")
    for words in (["--help"], ["--version"], ["once"], ["push", "127.0.0.1:1", "A", __file__]):
        run(*words, env=variables(path), input="")
    equal("what was written", os.listdir(folder), [])


@case()
def before_it_is_opened(folder):
    """Words and variables are judged before the directory, and that before the port. A server that can't listen leaves
    the directory to the next."""
    path, file = os.path.join(folder, "data"), os.path.join(folder, "file")
    with open(file, "wb"):
        pass
    equal("words that are no command", run("serve", "nowhere", env=variables(path)), ("", 2, USAGE))
    workers = run("serve", "127.0.0.1:0", env=variables(path, BLOBD_WORKERS="0"))
    equal("a variable that is none", workers[:2], ("", 2))
    for value in ("", os.fsdecode(b"\xff")):
        told = run("serve", "127.0.0.1:0", env=variables(value))
        equal("a variable that is no path", told, ("", 2, "blobd: BLOBD_DATA is the path of a folder, or not set\n"))
    equal("what they made", os.listdir(folder), ["file"])
    with socket.create_server(("127.0.0.1", 0)) as taken:
        addr = "%s:%d" % taken.getsockname()[:2]
        equal("no directory, and no port", run("serve", addr, env=variables(file))[:2], REFUSED)
        equal("no port", run("serve", addr, env=variables(path))[:2], ("fault: listen\n", 3))
    with serving(path) as server:
        equal("the next server", server.first_line[:10], "listening ")


@case()
def second_server(folder):
    """A directory is one server's at a time."""
    path = os.path.join(folder, "data")
    with serving(path) as server:
        cause = "another server has it; stop that one first: `fuser` names it"
        is_refused("a directory that another server has", path, cause)
        equal("the first one goes on", ask_alone(server, "GET", "/v2/").status, 200)
    with serving(path) as server:
        equal("the next one", ask_alone(server, "GET", "/v2/").status, 200)


@case()
def no_directory(folder):
    """What is no folder that may be written is named, and nothing is made in its place."""
    file, link, inner = (os.path.join(folder, name) for name in ("file", "link", "file/inner"))
    with open(file, "wb"):
        pass
    os.symlink("folder", link)
    os.mkdir(os.path.join(folder, "folder"))
    for name, path, word in [
        ("a file", file, "not a folder; name the folder itself"),
        ("a link", link, "not a folder"),
        ("a folder within a file", inner, "not a folder"),
        ("a folder within none", os.path.join(folder, "none/inner"), "No such file"),
    ]:
        is_refused(name, path, word)
    equal("what was made", sorted(os.listdir(folder)), ["file", "folder", "link"])
    equal("what was made behind the link", os.listdir(link), [])
    os.mkdir(inner := os.path.join(folder, "taken"))
    os.mkdir(os.path.join(inner, "journal"))
    is_refused("a journal that is a folder", inner, "journal: not a file")


def heed_modes():
    """In a program that is started: files' modes count for root too."""
    for capability in (DAC_OVERRIDE, DAC_READ_SEARCH):
        ctypes.CDLL(None).prctl(DROP_CAPABILITY, capability, 0, 0, 0)


@case()
def no_leave(folder):
    """A folder that may not be written is refused, a new one as one with a journal, and one of another user. Once there
    is leave, all is there."""
    path, plain = os.path.join(folder, "data"), os.path.join(folder, "plain")
    filled(path)
    os.mkdir(plain)
    for name, closed, directory, mode in [
        ("an empty folder", plain, plain, 0o500),
        ("a folder in which nothing may be made", plain, os.path.join(plain, "inner"), 0o500),
        ("a folder with a journal that may not be looked at", path, path, 0),
        ("a journal that may only be read", f"{path}/journal", path, 0o400),
    ]:
        was = os.stat(closed).st_mode
        os.chmod(closed, mode)
        is_refused(name, directory, "no leave to read and write it; give it and all", {"preexec_fn": heed_modes})
        os.chmod(closed, was)
    if os.geteuid() == 0:
        os.chown(path, 65534, 65534)
        is_refused("a folder of another user", path, "no leave to read and write it", {"preexec_fn": heed_modes})
        os.chown(path, 0, 0)
    with serving(path) as server:
        has_all("all is there", server, FILLED)


@case()
def bodies_of_another_user(folder):
    """One that may not be read is named as damage, with what the system says. Once it may be it is there again."""
    path = os.path.join(folder, "data")
    body, large = filled(path)[0], FILLED[-1]
    os.chmod(f"{path}/{body}", 0)
    with serving_the_rest(path, preexec_fn=heed_modes) as server:
        end = f"Permission denied (os error 13); its body is in {body}; lost: blob {sha256(large)} of {NAME}\n"
        lines = named_losses(server)
        check("it is named", len(lines) == 1 and lines[0].endswith(f"can't be read: {end}"), lines)
        equal("it isn't there", pull(server, NAME, sha256(large)), 404)
    os.chmod(f"{path}/{body}", 0o600)
    with serving(path) as server:
        equal("a start after it", named_losses(server), [])
        has_all("all is there", server, FILLED)


@case()
def a_folder_of_something_else(folder):
    """A folder without a journal is refused if it has what no server makes. `lost+found` is no such thing."""
    path = os.path.join(folder, "data")
    os.mkdir(path)
    for name in ("notes", ".hidden", "lost+found", "journal.new", "bodies"):
        if name[0] in "n.":
            with open(f"{path}/{name}", "wb"):
                pass
            for strict in "01":
                cause = "it isn't empty, and has no journal; name a folder that is empty, or isn't there"
                is_refused(f"a folder with {name}", path, cause, BLOBD_STRICT=strict)
            os.remove(f"{path}/{name}")
        elif name == "journal.new":
            with open(f"{path}/{name}", "wb"):
                pass
        else:
            os.mkdir(f"{path}/{name}", 0o700)
    with serving(path) as server, server.client() as client:
        equal("a push", client.push(NAME, b"a")[-1], 201)
    with open(f"{path}/notes", "wb"):
        pass
    with serving(path) as server:
        equal("what a folder with a journal has beside it doesn't matter", pull(server, NAME, sha256(b"a")), b"a")


@case()
def strict_or_not(folder):
    """The variable is a switch."""
    path = os.path.join(folder, "data")
    for value in ("yes", "2", os.fsdecode(b"\xff")):
        told = run("serve", "127.0.0.1:0", env=variables(path, BLOBD_STRICT=value))
        equal("a variable that is none", told,
              ("", 2, "blobd: BLOBD_STRICT is 1 to refuse a damaged folder, or 0, or not set\n"))
    equal("what they made", os.listdir(folder), [])
    for value in ("0", "1", ""):
        with serving(path, env={"BLOBD_STRICT": value}) as server:
            equal("a folder that isn't damaged", [server.first_line[:10], named_losses(server)], ["listening ", []])


@case()
def other_directories(folder):
    """A directory of another version, or of other limits, is named. Nothing is changed."""
    good = os.path.join(folder, "good")
    filled(good)
    journal = f"{folder}/bad/journal"
    cases = [
        ("no journal at all", lambda: changed(journal, b"journal\n", b"JOURNAL\n"), "no server has written it"),
        ("another format", lambda: changed(journal, b"journal\n\0\0\0\0\0\0\0\2", b"journal\n\0\0\0\0\0\0\0\3"),
         "the format of another version"),
        ("another version", lambda: changed(journal, b"uploads\n\0\0\0\0\0\0\0\2", b"uploads\n\0\0\0\0\0\0\0\3"),
         "another version has written it"),
        ("other limits", lambda: changed(journal, LIMIT, LIMIT[::-1]), "other limits"),
        ("no bodies", lambda: shutil.rmtree(f"{folder}/bad/bodies"),
         "its bodies are missing; put them back, or move it away"),
        ("no journal", lambda: os.remove(journal), "its journal is missing; put that back, or move it away"),
        ("a journal of another name", lambda: os.rename(journal, f"{journal}.new"), "its journal is missing"),
        ("an empty journal beside one", lambda: shutil.copy2(journal, f"{journal}.new") and os.truncate(journal, 0),
         "its journal is empty"),
    ]
    for name, spoil, word in cases:
        shutil.copytree(good, f"{folder}/bad")
        spoil()
        for strict in ("", "0", "1"):
            is_refused(name, f"{folder}/bad", word, BLOBD_STRICT=strict)
        shutil.rmtree(f"{folder}/bad")
    with serving(good) as server:
        has_all("the directory that wasn't changed", server, FILLED)


if __name__ == "__main__":
    main(__doc__)
