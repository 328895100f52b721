#!/usr/bin/env python3
"""Pushes files with the built program to its own server, over loopback and through a proxy that cuts connections.

    pushes.py PROGRAM

It tries what a push prints, on a terminal too, and what it leaves in the server; files that are there already; sizes of
chunks, and how much is moved at once; an IPv6 address; servers with a data directory that are killed again and again; a
close whose reply is lost; more chunks than one connection takes; several pushes at once.
"""
import collections
import concurrent.futures
import contextlib
import os
import random
import re
import socket
import subprocess
import time

from harness import shims
from harness.listeners import Proxy, Scripted, head_of, reply_of
from harness.running import (
    MIB, USAGE, Server, already, free_port, has_ipv6, on_a_terminal, pull, push, pushed, unhurried, written,
)
from harness.suite import OPTIONS, case, check, equal, main, skip
from harness.wire import PATIENCE, sha256

CUT_PUSHES = 50
# what standard error says of a name that isn't one
NAME_RULE = (
    "blobd: a NAME is one or more parts with / between them, as lib/a: a part is of a to z and 0 to 9, "
    "inside also one of . _ __ or hyphens between two of these; 255 bytes at most\n"
)


@case()
def pushes_and_their_lines(folder):
    abc = written(folder, b"abc")
    with Server(100) as server:
        equal("one chunk", push(server.addr, "lib/a", abc, 2147483648), pushed(b"abc"))
        equal("the same digest by another client", push(server.addr, "lib/b", abc, 1), pushed(b"abc"))
        equal("the same again", push(server.addr, "lib/a", abc, 2), already(b"abc"))
        for name in ("lib/a", "lib/b"):
            equal(f"pull of {name}", pull(server, name, sha256(b"abc")), b"abc")
        equal("an empty file", push(server.addr, "lib/a", written(folder, b""), 2), pushed(b""))
        for name in ("A", "", "a" * 256):
            equal(f"a name that isn't one: {name}", push(server.addr, name, abc, 2), ("refused: name\n", 1, NAME_RULE))
        missing = abc + "-that-is-not-there"
        no_file = ("fault: file\n", 3, f"blobd: can't push {missing}: No such file or directory (os error 2)\n")
        equal("a missing file", push(server.addr, "lib/a", missing, 2), no_file)
        equal("a missing file goes before the name", push(server.addr, "A", missing, 2), no_file)
        a_folder = ("fault: file\n", 3, f"blobd: can't push {folder}: Is a directory (os error 21)\n")
        equal("a folder in place of a file", push(server.addr, "lib/a", folder, 2), a_folder)


@case()
def a_file_whose_name_is_no_text(folder):
    """The words of a command are UTF-8: a FILE of another name gets the usage, and is read from standard input."""
    strange = os.path.join(os.fsencode(folder), b"\xff")
    os.rename(written(folder, b"strange"), strange)
    with Server(1) as server, open(strange, "rb") as file:
        equal("a FILE whose name isn't UTF-8", push(server.addr, "lib/a", strange), ("", 2, USAGE))
        ended = push(server.addr, "lib/a", "/dev/stdin", stdin=file)
        equal("the same file as standard input", ended, pushed(b"strange"))


@case()
def a_bar_on_a_terminal(folder):
    """Standard error that is a terminal gets a bar, which is gone at the end; standard output is what it is without
    one."""
    content = random.Random(11).randbytes(64 * MIB)
    path = written(folder, content)
    with Server(100) as server:
        told, drawn = on_a_terminal("push", server.addr, "lib/a", path, str(MIB))
        equal("what a push prints beside its bar", told, pushed(content)[:2])
        begun, *lines = drawn.split("\r")
        are_cleared = not begun and all(line.endswith("\x1b[K") for line in lines)
        check("each line is drawn from its start, and clears what is behind it", are_cleared, drawn)
        lines = [line.removesuffix("\x1b[K") for line in lines]
        # a busy machine may keep it waiting
        lines = [line for line in lines if not line.startswith("blobd: waits for ")]
        equal("the last line is cleared", lines[-1], "")
        count = r"[0-9]+(\.[0-9] [KMG]i| )B"
        form = re.compile(rf"(hashing|sending)  {count} of 64\.0 MiB(  {count}/s  [0-9]+ s left)?")
        check("each line says how far it is", all(map(form.fullmatch, lines[:-1])), lines)
        words = [line.split(" ")[0] for line in lines[:-1]]
        check("it hashes and then sends", set(words) == {"hashing", "sending"} and words == sorted(words), words)
        check("each line has room", max(map(len, lines)) < 80, lines)
        no_bar = ("refused: name\n", 1), NAME_RULE.replace("\n", "\r\n")
        equal("a name that isn't one has no bar", on_a_terminal("push", server.addr, "A", path, str(MIB)), no_bar)


def held(data):
    """How many bytes the bodies of a data directory have."""
    count = 0
    for folder, _, names in os.walk(os.path.join(data, "bodies")):
        for name in names:
            # one that was removed just now has none
            with contextlib.suppress(FileNotFoundError):
                count += os.stat(os.path.join(folder, name)).st_size
    return count


def push_over_kills(folder, *away):
    """A push in chunks of 4 MiB to a server that is killed within chunks, and starts again after so many seconds each
    time: its content, how it ended, and what the last server has of that."""
    chance = random.Random(OPTIONS.mib + len(away))
    content = b"".join(chance.randbytes(MIB) for _ in range(OPTIONS.mib))
    path, data = written(folder, content), os.path.join(folder, f"data{len(away)}")
    # before the last chunks, so that none falls after the end of a push
    moments = sorted(chance.sample(range(len(content) // 20, len(content) // 2), len(away)))
    port, before = free_port(), 0
    server = Server(port=port, env={"BLOBD_DATA": data})
    try:
        words = [OPTIONS.program, "push", server.addr, "lib/a", path, "4M"]
        with subprocess.Popen(words, stdout=subprocess.PIPE, stderr=subprocess.PIPE, text=True) as pushing:
            for moment, seconds in zip(moments, away):
                # something of a chunk has come since the start
                while held(data) < max(moment, before + MIB) and pushing.poll() is None:
                    time.sleep(0.001)
                check("a kill within a push", pushing.poll() is None, moment)
                server.stop()
                before = held(data)
                time.sleep(seconds)
                server = Server(port=port, env={"BLOBD_DATA": data})
            out, error = pushing.communicate(timeout=PATIENCE)
        return content, (out, pushing.returncode, unhurried(error)), pull(server, "lib/a", sha256(content))
    finally:
        server.stop()
        os.unlink(path)


@case()
def pushes_over_restarts(folder):
    """A server with a data directory is killed within chunks, and starts again: each kill costs a push one of its five
    tries, however long it takes within a minute, and each byte is there once. One more kill ends the push."""
    # the first is away for longer than the tries and the waits between them take
    for away in ((8, 0, 0.5), (0.1,) * 5):
        content, ended, got = push_over_kills(folder, *away)
        equal(f"a push over {len(away)} restarts", ended, pushed(content))
        check(f"what a push over {len(away)} restarts left", got == content, "other bytes")
    content, (line, status, why), got = push_over_kills(folder, *(0.1,) * 6)
    equal("a push over six restarts", (line, status), ("refused: out of tries\n", 1))
    check("why it was given up", why.endswith(" (tried 6 times)\n"), why)
    equal("what it left", got, 404)


@case()
def another_version(folder):
    """A push goes to an IPv6 address as it goes to an IPv4 one."""
    if not has_ipv6():
        skip("a push to an IPv6 address", "the system has none")
        return
    with Server(100, host="[::1]") as server:
        equal("a push to an IPv6 address", push(server.addr, "lib/a", written(folder, b"abc"), 2), pushed(b"abc"))
        equal("what it left at an IPv6 address", pull(server, "lib/a", sha256(b"abc")), b"abc")


@case("cc")
def moves_much_at_once(folder):
    """A push writes each request at once, a chunk's bytes behind its head, without delay; and it reads each reply at
    once."""
    content = random.Random(9).randbytes(50_000)
    path, told, options = written(folder, content), os.path.join(folder, "moves"), os.path.join(folder, "options")
    with Server(100) as server:
        ended = push(server.addr, "lib/a", path, env=shims.loaded(folder, "moves", MOVES_TOLD=told))
        equal("a push whose moves are counted", ended, pushed(content))
        ended = push(server.addr, "lib/b", path, env=shims.loaded(folder, "options", OPTIONS_TOLD=options))
        equal("a push whose options are told", ended, pushed(content))
    moves = shims.told(told)
    # HEAD, POST, PATCH and PUT
    calls = "send recv send recv send send recv send recv".split()
    is_right = [call for call, _ in moves] == calls and moves[5][1] == 50_000
    check("how much a push moves at once", is_right, moves[:50])
    without_delay = shims.told(options).count((socket.IPPROTO_TCP, socket.TCP_NODELAY, 1))
    equal("a push that writes without delay", without_delay, 1)


def logging_server(count):
    return Server(count, env={"BLOBD_LOG": 1}, stderr=subprocess.PIPE)


def methods_logged(server):
    """Those of the requests that the server had."""
    server.end()
    return collections.Counter(line.split(" ")[1] for line in server.process.stderr.read().splitlines())


@case()
def what_is_there(folder):
    """A HEAD goes first. If it and another find the blob nothing is sent; what another repository has is sent."""
    abc = written(folder, b"abc")
    with logging_server(3) as server:
        equal("a first push", push(server.addr, "lib/a", abc, 2), pushed(b"abc"))
        equal("what is there", push(server.addr, "lib/a", abc, 2), already(b"abc"))
        equal("another repository", push(server.addr, "lib/b", abc, 2), pushed(b"abc"))
        ended = push(server.addr, "B", abc, 2)
        equal("what is there, of a name that isn't one", ended[0], "refused: name\n")
        equal("what was asked", methods_logged(server), {"HEAD": 4, "POST": 2, "PATCH": 4, "PUT": 2})
    with Scripted([head_of(3)]) as there:
        equal("a server that has it", push(there.addr, "lib/a", abc, 2), already(b"abc"))
        wanted = [[f"HEAD /v2/lib/a/blobs/{sha256(b'abc')} HTTP/1.1"]] * 2
        equal("two requests to a server that has it", there.asked, wanted)
    with Scripted([{"HEAD": reply_of("500 Internal Server Error"), "POST": reply_of("403 Forbidden")}]) as unsure:
        equal("a HEAD that is refused", push(unsure.addr, "lib/a", abc, 2), ("refused: 403 -\n", 1, ""))
        equal("a push behind a HEAD that is refused", unsure.methods(), [["HEAD"], ["POST"]])


@case()
def chunks_of_sizes(folder):
    """How many requests a chunk's size makes, and what is said of a small one."""
    slow = "blobd: chunks of {} bytes make a slow push, since each is a request: 16M is a good CHUNK\n"
    table = [
        # the file's bytes, the words for the chunk, the PATCHes, the chunk that is slow
        (17 * MIB, [], 2, None),
        (16 * MIB, [], 1, None),
        (2500, ["1K"], 3, None),
        (3 * MIB + 1, ["1M"], 4, None),
        (5 * MIB, ["2G"], 1, None),
        (4 * MIB + 1, ["64K"], 65, None),
        (4 * MIB, ["32K"], 128, None),
        (4 * MIB + 1, ["65535"], 65, 65535),
    ]
    for number, (size, words, patches, small) in enumerate(table):
        content = random.Random(20 + number).randbytes(size)
        with logging_server(1) as server:
            ended = push(server.addr, "lib/a", written(folder, content), *words)
            wanted = (pushed(content)[0], 0, slow.format(small) if small else "")
            equal(f"a push of {size} bytes in chunks of {words}", ended, wanted)
            equal(f"the chunks of {words}", methods_logged(server)["PATCH"], patches)


EVERYTHING = 1 << 62


@case()
def a_lost_reply_to_the_close(folder):
    content = random.Random(5).randbytes(5000)
    with Server(100) as server:
        with Proxy(server.addr, lambda number: (EVERYTHING, EVERYTHING, b"" if number else b" 201 ")) as proxy:
            ended = push(proxy.addr, "lib/a", written(folder, content), 1000)
        equal("a push whose close was answered unheard", ended, already(content))
        equal("what it left", pull(server, "lib/a", sha256(content)), content)


@case()
def more_chunks_than_six_connections_take(folder):
    """The server closes a connection behind its 10,000th reply, and a push has five tries."""
    content = random.Random(6).randbytes(61_000)
    with Server(100) as server:
        ended = push(server.addr, "lib/a", written(folder, content), 1)
        equal("more chunks than six connections take", ended, pushed(content))


@case()
def two_pushes_at_once(folder):
    contents = [random.Random(seed).randbytes(64 * MIB) for seed in (1, 2)]
    paths = [written(folder, content) for content in contents]
    with Server(100) as server, concurrent.futures.ThreadPoolExecutor(2) as pool:
        pushes = [pool.submit(push, server.addr, f"lib/{which}", paths[which], MIB) for which in (0, 1)]
        for which, ended in enumerate(pushes):
            equal(f"push {which} of two at once", ended.result(), pushed(contents[which]))
        for which, content in enumerate(contents):
            equal(f"pull {which} of two", pull(server, f"lib/{which}", sha256(content)), content)
            equal(f"a repository without blob {which}", pull(server, f"lib/{1 - which}", sha256(content)), 404)


def cut_push(server, folder, seed):
    """A push through a proxy that cuts connections by chance: what it printed, its status and what the server has of
    its content."""
    chance = random.Random(seed)
    content = chance.randbytes(20_000 + seed)
    often = 0.6 if seed % 2 else 1.0

    def judge(_):
        cut = chance.random() < often
        return (chance.randrange(1, 12_000), chance.randrange(1, 2_000), b"") if cut else (EVERYTHING, EVERYTHING, b"")

    with Proxy(server.addr, judge) as proxy:
        line, status, why = push(proxy.addr, "lib/a", written(folder, content), 1500)
    return content, line, status, why, pull(server, "lib/a", sha256(content))


@case()
def pushes_over_cut_connections(folder):
    counts = collections.Counter()
    # most of a push's time is waits
    with Server(1000) as server, concurrent.futures.ThreadPoolExecutor(8) as pool:
        pushes = [pool.submit(cut_push, server, folder, seed) for seed in range(CUT_PUSHES)]
        for seed, ended in enumerate(pushes):
            content, line, status, why, got = ended.result()
            counts[re.split("[: ]", line)[0]] += 1
            if status == 0:
                check(f"what cut push {seed} says", line in (pushed(content)[0], already(content)[0]), line)
                check(f"what cut push {seed} left", got == content, "other bytes")
            else:
                equal(f"what cut push {seed} says", (line, status), ("refused: out of tries\n", 1))
                is_told = why.startswith("blobd: can't push to ") and why.endswith(" times)\n")
                check(f"why cut push {seed} was given up", is_told, why)
                check(f"what cut push {seed} left", got in (404, content), "other bytes")
    got_through = counts["pushed"] > 5 and counts["refused"] > 0
    check("pushes got through the proxy, and some were given up", got_through, counts)


if __name__ == "__main__":
    main(__doc__, mib=(128, "MiB of a file that is pushed over restarts"))
