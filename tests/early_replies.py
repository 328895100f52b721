#!/usr/bin/env python3
"""Pushes files with the built program to servers that reply too early: before the request, or before it was sent whole.

    early_replies.py PROGRAM
"""
import time

from harness import shims
from harness.listeners import Deaf, Early, Scripted
from harness.running import MIB, push, pushed, run, written
from harness.suite import case, check, equal, main

PLACE = b"/v2/lib/a/blobs/uploads/00000001-0000-8000-8000-000000000000"


def reply(status, *fields, body=b""):
    """A reply with an empty reason; each field is a line."""
    lines = [b"HTTP/1.1 %d " % status, *fields, b"Content-Length: %d" % len(body)]
    return b"\r\n".join(lines) + b"\r\n\r\n" + body


def taken(last):
    return reply(202, b"Location: " + PLACE, b"Range: 0-%d" % last)


OPENED = reply(202, b"Location: " + PLACE)
CREATED = reply(201, b"Location: /v2/lib/a/blobs/sha256:00")
MISSING = reply(404, body=b'{"errors":[{"code":"BLOB_UNKNOWN"}]}')
REFUSED_404 = "refused: 404 BLOB_UNKNOWN\n", 1
LARGE = bytes(64 * MIB)
TOO_LARGE = reply(413, b"Connection: close", body=b'{"errors":[{"code":"SIZE_INVALID"}]}')


def goes(name, folder, content, chunk, connections, asked, ended):
    """Pushes to a server that replies so over each connection: what it was asked there, and how the push ended. Before
    all of that it is asked by a HEAD whether it has the file, and says no. Gives how long the push went on after the
    last request's head had come."""
    first, *others = connections
    with Scripted([reply(404), *first], *others) as server:
        got = push(server.addr, "lib/a", written(folder, content), chunk)[:2]
        took = time.monotonic() - server.heard
    equal(name, (got, server.methods()), (ended, [["HEAD", *asked[0]], *asked[1:]]))
    return took


@case()
def test_created_behind_the_reply_to_the_last_chunk(folder):
    """It isn't heard as the reply to the close: the client connects again, and closes there."""
    connections, asked = [[OPENED, taken(2) + CREATED], [MISSING]], [["POST", "PATCH"], ["PUT"]]
    goes("created behind the last chunk", folder, b"abc", 3, connections, asked, REFUSED_404)


@case()
def test_a_reply_behind_the_reply_to_a_chunk(folder):
    connections, asked = [[OPENED, taken(1) + reply(200)], [taken(3), CREATED]], [["POST", "PATCH"], ["PATCH", "PUT"]]
    goes("a reply behind that to a chunk", folder, b"abcd", 2, connections, asked, pushed(b"abcd")[:2])


@case()
def test_a_byte_behind_the_reply_to_the_opening(folder):
    connections, asked = [[OPENED + b"x"], [taken(2), CREATED]], [["POST"], ["PATCH", "PUT"]]
    goes("a byte behind the reply to the opening", folder, b"abc", 3, connections, asked, pushed(b"abc")[:2])


@case()
def test_refusals_of_a_part_of_a_chunk(folder):
    """The server answers behind a chunk's head and closes, so that the client's write fails; the system still has the
    reply."""
    for text, line in ((TOO_LARGE, "refused: 413 SIZE_INVALID\n"), (MISSING, REFUSED_404[0])):
        goes(line, folder, LARGE, len(LARGE), [[OPENED, Early(text)]], [["POST", "PATCH"]], (line, 1))


@case()
def test_other_replies_to_a_part_of_a_chunk(folder):
    """They are no replies to it: the client connects again, and asks how much has arrived."""
    for text in (taken(len(LARGE) - 1), CREATED, reply(408), reply(416), reply(500), reply(503)):
        name, connections = text.split(b"\r\n")[0].decode(), [[OPENED, Early(text)], [MISSING, reply(404)]]
        asked = [["POST", "PATCH"], ["GET", "HEAD"]]
        goes(name, folder, LARGE, len(LARGE), connections, asked, ("refused: 404 -\n", 1))


@case()
def test_a_server_that_is_full(folder):
    """It answers 503 behind the head of a large chunk, and closes: the client says why, and not what its write met."""
    half = len(LARGE) // 2
    begun, again = [OPENED, taken(half - 1)], [reply(204, b"Location: " + PLACE, b"Range: 0-%d" % (half - 1))]
    full = [Early(reply(503, b"Connection: close", body=b'{"errors":[{"message":"it is full"}]}'))]
    with Scripted([reply(404), *begun, *full], again + full) as server:
        got = push(server.addr, "lib/a", written(folder, LARGE), half)
        told = f"blobd: can't push to {server.addr}: the server answers 503: it is full (tried 6 times)\n"
        equal("a server that is full", got, ("refused: out of tries\n", 1, told))


@case()
def test_servers_that_refuse_and_read_no_more(folder):
    """They neither read what is left nor close. The reply is heard at once behind a body that the system takes whole,
    and soon behind one that it doesn't."""
    for size in (1, 100_000, MIB, 8 * MIB, len(LARGE)):
        for text, line in ((TOO_LARGE, "refused: 413 SIZE_INVALID\n"), (MISSING, REFUSED_404[0])):
            name = f"{line.strip()} behind {size} bytes"
            took = goes(name, folder, LARGE[:size], size, [[OPENED, Deaf(text)]], [["POST", "PATCH"]], (line, 1))
            check(f"{name}: soon", took < 30, took)


@case("cc")
def test_servers_that_say_nothing_and_read_no_more(folder):
    """After half a minute, which takes a second here, the request isn't heard, and no reply to it is waited for."""
    fast, half = shims.loaded(folder, "minutes", MINUTES_OF="pauses"), len(LARGE) // 2
    held = reply(204, b"Location: " + PLACE, b"Range: 0-%d" % (half - 1))
    again = {"GET": held, "PATCH": taken(len(LARGE) - 1), "PUT": CREATED}
    with Scripted([reply(404), OPENED, taken(half - 1), Deaf()], [again] * 3) as server:
        begun = time.monotonic()
        line, status, told = run("push", server.addr, "lib/a", written(folder, LARGE), str(half), env=fast)
        took = time.monotonic() - begun
        equal("a server that reads no more, and then another one", (line, status), pushed(LARGE)[:2])
        check("the first is left soon", took < 60, took)
        check("no reply is waited for", "which says nothing" not in told, told)


if __name__ == "__main__":
    main(__doc__)
