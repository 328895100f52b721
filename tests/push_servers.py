#!/usr/bin/env python3
"""Pushes files with the built program to servers that don't serve: they aren't there, or not yet, are silent, slow or
full, or reply strangely.

    push_servers.py PROGRAM
"""
import concurrent.futures
import contextlib
import os
import random
import re
import socket
import subprocess
import time

from harness import shims
from harness.listeners import Scripted, head_of, reply_of
from harness.pushers import SIZES, fill, has_all
from harness.running import (
    KIB, MIB, Server, already, free_port, halt, on_a_terminal, pull, push, pushed, run, unhurried, written,
)
from harness.suite import OPTIONS, case, check, equal, main
from harness.wire import PATIENCE, address_of, sha256
import servers

# What is waited for, once some five seconds of it have passed.
REFUSED, NOBODY, NOTHING = "Connection refused (os error 111)", "where nobody listens: 5x", "which says nothing: 25"

PLACE = b"Location: /v2/lib/a/blobs/uploads/00000001-0000-8000-8000-000000000000\r\n"
STATEFUL = PLACE.replace(b"\r\n", b"?_state=x\r\n")
LOCATION_ELSEWHERE = b"Location: https://h/v2/lib/a/blobs/uploads/1?_state=x\r\n"
THROUGH_THE_ADAPTER = b"via: 1.1 blobd-adapter\r\n"
CODED = b'{"errors":[{"code":"DENIED"}]}'
TOLD = b'{"errors":[{"code":"DENIED","message":"lib is full"}]}'
# a server that loses the upload
LOSES = {
    "HEAD": reply_of("404 Not Found"),
    "POST": reply_of("202 Accepted", fields=PLACE),
    "PATCH": reply_of("404 Not Found", b'{"errors":[{"code":"BLOB_UPLOAD_UNKNOWN"}]}'),
}
# one that wants a state with each request to an upload, as docker-registry
WANTS_STATE = LOSES | {"POST": reply_of("202 Accepted", fields=STATEFUL)}
# What is said of a reply on standard error.
HTTPS = "is this https? A push speaks plain HTTP"
ADAPTER = "`make adapter REGISTRY=http://host:port`"
LOGIN = (
    "it wants a login, and a push has none: push to the reverse proxy's local address, "
    "or through `make adapter REGISTRY=http://host:port LOGIN=FILE`"
)
OTHER = f"it is another kind of server, as by the form of its Location: push through {ADAPTER}"
ELSEWHERE = (
    "it sends elsewhere, and a push doesn't follow: push to the server of its Location, "
    "or, if that is https, through `make adapter REGISTRY=host:port`"
)
NO_REGISTRY = "it takes no uploads into this repository: is it a registry?"
NONE = "it is no registry: one answers 202 to the opening of an upload, or with an error code"
LOST = "it lost the upload: push again"
STATE = f"it is docker-registry, as by the state in its Location: push through {ADAPTER}"
OTHER_LOGIN = (
    "the registry behind the adapter wants a login, or another one: "
    "start `make adapter` with the LOGIN=FILE of one that it knows"
)
NO_HTTP = "the reply isn't HTTP: is this https? (tried 7 times)"
TLS = f"the reply is TLS: {HTTPS} (tried 7 times)"
CLOSED = "the server closed the connection before it had replied: is this https? (tried 7 times)"
NO_FORM = "no reply of a form that is read (tried 7 times)"
CUT = (
    "the server ended the connection before it had replied: it was ended itself, or it is full: "
    "see what it says on its standard error (tried 6 times)"
)
UNAVAILABLE = (
    "the server answers 503: it has no room (raise its BLOBD_MEMORY, or make room on its disk), "
    "or it is a reverse proxy with no server behind it (tried 7 times)"
)


def waits_for(addr, what):
    """What standard error says of a wait for a server."""
    return f"blobd: waits for {addr}, {what} s left\n"


def untimed(ended):
    """What a push prints, without how long exactly it dials: each dial takes its time."""
    line, status, told = ended
    return line, status, re.sub(r"(where nobody listens: 5)\d", r"\1x", told)


def given_up(addr, why, line="out of tries", waits=()):
    """What a push prints that was given up, and on standard error why, behind these waits."""
    told = "".join(waits_for(addr, what) for what in waits)
    return f"refused: {line}\n", 1, f"{told}blobd: can't push to {addr}: {why}\n"


@case()
def servers_that_come_again(folder):
    """A push goes on: over a server that starts again within a minute, and for some seconds over one that can't serve
    yet."""
    content = random.Random(8).randbytes(5000)
    path, port = written(folder, content), free_port()
    with Server(100, port) as server:
        addr = server.addr
        equal("a push before the server ends", push(addr, "lib/a", path, 1000), pushed(content))
    with concurrent.futures.ThreadPoolExecutor(1) as pool:
        late = pool.submit(push, addr, "lib/a", path, 1000)
        # longer than its tries and the waits between them take
        time.sleep(8)
        with Server(100, port) as server:
            equal("a server that starts again", late.result(), pushed(content))
            equal("what it was sent", pull(server, "lib/a", sha256(content)), content)
    with Scripted([reply_of("503 Service Unavailable")]) as busy:
        begun = time.monotonic()
        ended = push(busy.addr, "lib/a", path, 1000)
        waited = time.monotonic() - begun
        equal("a server that can't serve", (ended, 3 < waited < 60), (given_up(busy.addr, UNAVAILABLE), True))


@case("cc")
def servers_that_stay_away(folder):
    """Where nobody listens one ask dials for a minute, and those after it once each. That is told once, and a terminal
    sees how long it goes on."""
    abc, hasty = written(folder, b"abc"), shims.loaded(folder, "minutes", MINUTES_OF="pauses")
    addr = servers.free_address()
    begun = time.monotonic()
    ended = run("push", addr, "lib/a", abc, "2", env=hasty)
    waited = time.monotonic() - begun
    equal("a server that isn't there", untimed(ended), given_up(addr, f"{REFUSED} (tried 7 times)", waits=[NOBODY]))
    # a minute, and the waits between the tries, thirty times as fast; seven minutes are more
    check("as long as it is dialed", 2.1 < waited < 13, waited)
    told, drawn = on_a_terminal("push", addr, "lib/a", abc, "2", env=hasty)
    equal("a server that isn't there, on a terminal", told, ("refused: out of tries\n", 1))
    line = rf"\rblobd: waits for {addr}, where nobody listens: (\d+) s left\x1b\[K"
    left = [int(left) for left in re.findall(line, drawn)]
    check("the minute is counted down", left == sorted(left, reverse=True) and len(left) > 20 and left[0] > 50, left)
    # its minute is a whole one, within which a busy machine starts the server too
    words, pipe = [OPTIONS.program, "push", addr, "lib/a", abc, "2"], subprocess.PIPE
    with subprocess.Popen(words, stdout=pipe, stderr=pipe, text=True) as waiting:
        told = waiting.stderr.readline()
        with Server(100, servers.place(addr)[1]):
            line, rest = waiting.communicate(timeout=PATIENCE)
        wanted = (*pushed(b"abc")[:2], waits_for(addr, NOBODY))
        equal("a server that starts within the minute", untimed((line, waiting.returncode, told + rest)), wanted)


def unavailable(body, message=None):
    """A 503 with this body, and what is said of it: the message in it, if there is one."""
    why = f"the server answers 503: {message} (tried 7 times)" if message else UNAVAILABLE
    return f"a 503 with {body[:40]}", reply_of("503 Service Unavailable", body), "out of tries", why


LONG = b"x" * 1000
# Replies of servers, the line that a push gives up with, and why.
STRANGE = [
    ("a refusal with a code", reply_of("403 Forbidden", CODED), "403 DENIED", None),
    ("a refusal without a code", reply_of("403 Forbidden"), "403 -", None),
    ("a refusal with its reason", reply_of("403 Forbidden", TOLD), "403 DENIED", "the server says: lib is full"),
    ("a code of two lines", reply_of("403 Forbidden", b'{"errors":[{"code":"A\\nB"}]}'), "403 -", None),
    ("an empty code", reply_of("403 Forbidden", b'{"errors":[{"code":""}]}'), "403 -", None),
    ("a login", reply_of("401 Unauthorized"), "401 -", LOGIN),
    ("a login of the adapter's", reply_of("401 Unauthorized", CODED, THROUGH_THE_ADAPTER), "401 DENIED", OTHER_LOGIN),
    ("a redirect", reply_of("303 See Other", fields=b"Location: https://h/\r\n"), "303 -", ELSEWHERE),
    ("the last redirect", reply_of("399 None"), "399 -", ELSEWHERE),
    ("a request that TLS was wanted for", reply_of("400 Bad Request"), "400 -", HTTPS),
    ("a refused request", reply_of("400 Bad Request", CODED), "400 DENIED", None),
    ("a server that is no registry", reply_of("404 Not Found"), "404 -", NO_REGISTRY),
    ("a page for all", {"HEAD": head_of(9), "POST": reply_of("200 OK", b"<html></html>")}, "200 -", NONE),
    ("the last of its kind", reply_of("299 None"), "299 -", NONE),
    ("a server without POST", reply_of("501 Unsupported method ('POST')", b"<html></html>"), "501 -", NONE),
    ("a page without POST", reply_of("405 Not Allowed", b"<html></html>"), "405 -", NONE),
    ("a registry that is only read", reply_of("405 Method Not Allowed", CODED), "405 DENIED", None),
    ("a proxy without its server", reply_of("502 Bad Gateway"), "502 -", None),
    ("a chunk that is answered by a page", LOSES | {"PATCH": reply_of("200 OK")}, "200 -", None),
    ("a server that loses the upload", LOSES, "404 BLOB_UPLOAD_UNKNOWN", LOST),
    ("docker-registry", WANTS_STATE, "404 BLOB_UPLOAD_UNKNOWN", STATE),
    ("docker-registry, later", WANTS_STATE | {"PATCH": reply_of("400 Bad Request", CODED)}, "400 DENIED", STATE),
    ("a login within an upload", WANTS_STATE | {"PATCH": reply_of("401 Unauthorized")}, "401 -", LOGIN),
    ("a server that ends within the upload", LOSES | {"PATCH": b"", "GET": b""}, "out of tries", CUT),
    ("a 202 without a place", reply_of("202 Accepted"), "bad server", OTHER),
    ("a place of another registry", reply_of("202 Accepted", fields=LOCATION_ELSEWHERE), "bad server", OTHER),
    ("no HTTP", b"SSH-2.0-none\r\n", "out of tries", NO_HTTP),
    ("an alert of TLS", bytes([21, 3, 1, 0, 2, 2, 70]), "out of tries", TLS),
    ("no reply", b"", "out of tries", CLOSED),
    ("half a reply", b"HTTP/1.1 20", "out of tries", CLOSED),
    ("an odd reply", b"HTTP/1.1 2xx\r\n\r\n", "out of tries", NO_FORM),
    unavailable(b""),
    unavailable(b"full"),
    unavailable(b'{"errors":[{"code":"UNAVAILABLE","message":"the shard is full"}]}', "the shard is full"),
    unavailable(b'{"errors":[{"message":"one \\"word\\""}]}', "one "),
    unavailable(b'{"errors":[{"message":"\x1b[2J"}]}'),
    unavailable(b'{"errors":[{"message":"a\nblobd: b"}]}', "a"),
    unavailable(b'{"errors":[{"message":""}]}'),
    unavailable(b'{"message":"' + LONG + b'"}', "x" * 240),
    unavailable(b"<html><body><h1>503 Service Unavailable</h1>\nNo server is there.\n</body></html>\n", "No server is there."),
]


@case()
def strange_servers(folder):
    abc = written(folder, b"abc")
    # most of the time is waits
    with concurrent.futures.ThreadPoolExecutor(len(STRANGE)) as pool, contextlib.ExitStack() as open_ones:
        servers = [open_ones.enter_context(Scripted([reply])) for _, reply, _, _ in STRANGE]
        pushes = [pool.submit(push, server.addr, "lib/a", abc, 2) for server in servers]
        for (name, _, line, why), server, ended in zip(STRANGE, servers, pushes):
            wanted = given_up(server.addr, why, line) if why else (f"refused: {line}\n", 1, "")
            equal(name, ended.result(), wanted)


@case()
def what_only_seems_to_be_there(folder):
    """A 200 to a HEAD that tells no length, another one or another digest finds nothing: the push goes on."""
    abc = written(folder, b"abc")
    told = b"Docker-Content-Digest: %b\r\n"
    replies = {
        "no length": b"HTTP/1.1 200 OK\r\nConnection: close\r\n\r\n",
        "another length": head_of(4),
        "another digest": head_of(3, told % sha256(b"abd").encode()),
    }
    for name, reply in replies.items():
        with Scripted([{"HEAD": reply, "POST": reply_of("403 Forbidden")}]) as server:
            equal(f"a push after {name}", push(server.addr, "lib/a", abc, 2), ("refused: 403 -\n", 1, ""))
            equal(f"what was asked after {name}", server.methods(), [["HEAD"], ["HEAD"], ["POST"]])
    with Scripted([head_of(3, told % sha256(b"abc").encode())]) as server:
        equal("a server that tells the digest", push(server.addr, "lib/a", abc, 2), already(b"abc"))


def finds_no_room(name, server, *words):
    """Checks that a push to a full server is given up, and says that there is no room."""
    line, status, told = push(server.addr, "lib/b", *words)
    equal(f"a push {name}", (line, status), ("refused: out of tries\n", 1))
    why = re.sub(r"\(tried [67] times\)", "(tried 7 times)", told)
    equal(f"why a push {name} was given up", why, given_up(server.addr, UNAVAILABLE)[2])


@case()
def a_full_server(folder):
    """A server that has no more room gives a push up, which says so: after some of its chunks, at the first, and at
    its opening. What was stored is there. One with a data directory takes more than it has room for in chunks that fit,
    since the bytes of an upload leave memory."""
    stored, chance, data = [], random.Random(9), os.path.join(folder, "data")
    content = chance.randbytes(20 * MIB)
    path, options = written(folder, content), {"stderr": subprocess.DEVNULL}
    with Server(env={"BLOBD_MEMORY": "8M"}, **options) as server:
        finds_no_room("that is larger than what is left", server, path, "1M")
        finds_no_room("in one chunk", server, path)
        with server.client() as client:
            equal("blobs until there is no room for a short one", fill(client, stored, chance, SIZES[1:]), [503] * 4)
        check("there were some", stored)
        finds_no_room("to a server without any room", server, path)
        equal("what it left", pull(server, "lib/b", sha256(content)), 404)
        has_all("what was stored", server, stored)
    content = content[: 1152 * KIB]
    path = written(folder, content)
    with Server(env={"BLOBD_DATA": data, "BLOBD_MEMORY": "1M"}, **options) as server:
        finds_no_room("in one chunk, to one with a data directory", server, path)
        # Bytes leave once threads have hashed them. Here the third chunk alone waits for that, and for little: so a
        # push has all its tries for what takes a moment on a busy machine too.
        equal("in chunks that fit", push(server.addr, "lib/b", path, "384K"), pushed(content))


@case()
def a_server_that_cannot_serve_is_told(folder):
    """One that answers 503 is told once it was waited for for five seconds, and in one line. One that answers so for a
    moment isn't."""
    abc = written(folder, b"abc")
    busy, later = reply_of("503 Service Unavailable"), reply_of("403 Forbidden")
    waits = "blobd: waits for {}, which answers 503\n"
    for name, scripts, delay, line, wanted in (
        ("never", [[busy]], 0.5, "out of tries", [waits, given_up("{}", UNAVAILABLE)[2]]),
        ("in a moment", [[busy], [busy], [later]], 0, "403 -", []),
    ):
        with Scripted(*scripts, delay=delay) as server:
            ended = run("push", server.addr, "lib/a", abc, "2")
            told = "".join(wanted).format(server.addr, server.addr)
            equal(f"a server that serves {name}", ended, (f"refused: {line}\n", 1, told))


@case("cc")
def silent_servers(folder):
    """A server that takes a connection and says nothing costs a try, which is told."""
    abc, hasty = written(folder, b"abc"), shims.loaded(folder, "minutes")
    with socket.create_server(("127.0.0.1", 0), backlog=50) as listener:
        addr = address_of(listener)
        begun = time.monotonic()
        ended = run("push", addr, "lib/a", abc, "2", env=hasty)
        waited = time.monotonic() - begun
        wanted = given_up(addr, "the server was silent for 30 s (tried 7 times)", waits=[NOTHING] * 7)
        equal("a silent server", ended, wanted)
        # seven times half a minute, thirty times as fast
        check("as long as it is waited for", 6.9 < waited < 150, waited)


@case()
def a_terminal_that_is_told_to_wait(folder):
    """A terminal is told of a server that says nothing for some seconds; each try is told apart."""
    abc = written(folder, b"abc")
    # it is told behind five seconds, and once more behind ten: a busy machine has the middle between them
    with Scripted([head_of(3)], delay=7.5) as server:
        told, drawn = on_a_terminal("push", server.addr, "lib/a", abc, "2")
        equal("a server that takes its time", told, already(b"abc")[:2])
        line = f"\rblobd: waits for {server.addr}, {NOTHING} s left\x1b[K"
        equal("a line for each of two requests", drawn.count(line), 2)


@case()
def signals_between(folder):
    """A signal that comes while a push waits for a reply costs no try: it is one request, over one connection, and the
    next is that of the other HEAD."""
    with Scripted([head_of(3)], delay=2) as server:
        words = [OPTIONS.program, "push", server.addr, "lib/a", written(folder, b"abc"), "2"]
        with subprocess.Popen(words, stdout=subprocess.PIPE, stderr=subprocess.PIPE, text=True) as ran:
            for _ in range(3):
                time.sleep(0.3)
                halt(ran, 0.1)
            out, error = ran.communicate(timeout=PATIENCE)
        equal("a push that is stopped and goes on", (out, ran.returncode, unhurried(error)), already(b"abc"))
        equal("two requests of it", [len(lines) for lines in server.asked], [1, 1])


if __name__ == "__main__":
    main(__doc__, side_by_side=True)
