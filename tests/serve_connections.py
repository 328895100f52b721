#!/usr/bin/env python3
"""Connections of `blobd serve`: how many are served at once, how they end, and what silent, slow or stubborn clients
cost the others.

    serve_connections.py PROGRAM
"""
import collections
import concurrent.futures
import contextlib
import errno
import fcntl
import http.client
import os
import random
import re
import signal
import socket
import termios
import threading
import time

from harness import shims
from harness.running import (
    BASE,
    LAST_BASE,
    MIB,
    SERVED,
    UNREADABLE,
    Server,
    ask_alone,
    base_replies,
    becomes,
    halt,
    has_ipv6,
)
from harness.suite import case, check, equal, main, skip
from harness.wire import PATIENCE, Connection, is_silent, request_text, rest_of, sha256, vanish

LISTENING = r"listening {}:[1-9][0-9]*\n"


@case()
def serves_until_it_is_ended():
    """Without a count it serves all that come, at the address that it was given and at no other."""
    with Server() as server:
        line = server.first_line
        check("the first line", re.fullmatch(LISTENING.format(r"127\.0\.0\.1"), line), line)
        with socket.socket() as other:
            other.settimeout(5)
            equal(
                "no connection at another address",
                other.connect_ex(("127.0.0.2", server.place()[1])),
                errno.ECONNREFUSED,
            )
        replies = [ask_alone(server, "GET", "/v2/").status for _ in range(2_500)]
        check("replies without a count", replies == [200] * 2_500, collections.Counter(replies))
        check("it goes on without a count", server.process.poll() is None, server.process.returncode)
        server.process.send_signal(signal.SIGINT)
        equal("an interrupt ends it", server.ended(), ("", -signal.SIGINT))


@case()
def serves_another_version():
    """An IPv6 address is listened at as an IPv4 one is."""
    if not has_ipv6():
        skip("an IPv6 address", "the system has none")
        return
    with Server(1, host="[::1]") as server:
        line = server.first_line
        check("the first line at an IPv6 address", re.fullmatch(LISTENING.format(r"\[::1\]"), line), line)
        equal("a reply at an IPv6 address", ask_alone(server, "GET", "/v2/").status, 200)
        equal("the last line at an IPv6 address", server.end(), SERVED)


@case()
def kept_connections():
    """A worker serves one connection until that ends, so a third one waits."""
    with Server(2) as server, server.client() as first, server.client() as second, server.client() as third:
        for client in (first, second):
            equal("a kept connection", base_replies(client, 3), [200] * 3)
        third.send(BASE)
        check("a third connection waits", is_silent(third.socket, 0.3), "it was answered")
        status, fields, _ = first.ask("GET", "/v2/", Connection="close")
        equal("a request that asks to close", (status, fields["Connection"]), (200, "close"))
        equal("a third connection once one has ended", third.reply("GET").status, 200)
        for client in (first, second, third):
            client.close()
        equal("the last line after kept connections", server.end(), SERVED)


@case()
def serves_as_many_at_once_as_it_is_told():
    """Each worker serves a connection that is kept, and one more waits until one of them ends."""
    for value, number in ((None, 2), (1, 1), (3, 3), (16, 16)):
        with Server(2, env={"BLOBD_WORKERS": value}) as server:
            clients = [server.client() for _ in range(number)]
            statuses = [client.ask("GET", "/v2/").status for client in clients]
            equal(f"{number} connections at once", statuses, [200] * number)
            late = server.client()
            late.send(BASE)
            check(f"a connection beside {number} waits", is_silent(late.socket, 0.3), "it was answered")
            clients.pop().close()
            equal(f"a connection beside {number} once one has ended", late.reply("GET").status, 200)
            for client in (*clients, late):
                client.close()
            # each worker takes two connections
            left = [ask_alone(server, "GET", "/v2/").status for _ in range(number - 1)]
            equal(f"the other connections of {number} workers", left, [200] * (number - 1))
            equal(f"the last line of {number} workers", server.end(), SERVED)


class Dripping:
    """A client that has its worker, by a request before, and sends the next one byte by byte."""

    def __init__(self, server, method, target, body=b""):
        self.method, self.connection = method, Connection(server.place())
        self.connection.send(BASE)
        self.first = self.connection.hear("GET")
        text = request_text(method, target, body, [("X-Long", "x" * 100)])
        self.connection.send(text[:-50])
        self.left = text[-50:]

    def drip(self):
        self.connection.send(self.left[:1])
        self.left = self.left[1:]

    def end(self):
        """The reply to what is left."""
        self.connection.send(self.left)
        reply = self.connection.hear(self.method)
        self.connection.close()
        return reply


@case()
def idle_connections_hold_nobody():
    """Of sixteen workers one serves on while the others have connections that are idle, or send a byte now and then.
    None of these is cut."""
    content = random.Random(16).randbytes(20 * 10_000)
    with Server(env={"BLOBD_WORKERS": 16}) as server, contextlib.ExitStack() as open_ones:
        idle = [open_ones.enter_context(server.client()) for _ in range(5)]
        begun = [client.ask("GET", "/v2/").status for client in idle]
        places = [idle[0].opened("lib/slow") for _ in range(5)]
        # five inside a head, and five inside a body
        dripping = [Dripping(server, "GET", "/v2/") for _ in range(5)]
        dripping += [Dripping(server, "PATCH", place, bytes(100)) for place in places]
        begun += [client.first and client.first.status for client in dripping]
        equal("fifteen connections that have workers", begun, [200] * 15)
        with server.client() as quick:
            place, statuses = quick.opened("lib/quick"), []
            for first in range(0, len(content), 10_000):
                for client in dripping:
                    client.drip()
                statuses.append(quick.ask("PATCH", place, content[first : first + 10_000]).status)
            statuses.append(quick.ask("PUT", f"{place}?digest={sha256(content)}").status)
            equal("an upload beside fifteen that are idle", statuses, [202] * 20 + [201])
            pulled = quick.ask("GET", f"/v2/lib/quick/blobs/{sha256(content)}").body
            equal("a pull beside them", pulled, content)
        ends = [client.end() for client in dripping]
        equal("what dripped is answered", [end and end.status for end in ends], [200] * 5 + [202] * 5)
        equal("what was idle goes on", [client.ask("GET", "/v2/").status for client in idle], [200] * 5)


@case()
def refused_heads():
    """Refused requests with much unread input behind them: the client still reads the reply, and then an end. A machine
    that is stopped for a moment may have it reset in one try, and not in each of three."""
    cases = {
        "a head that isn't one": (b"GET /v2/ HTTP/9.9\r\n", b"400 Bad Request"),
        "a head that is too long": (b"GET /v2/ HTTP/1.1\r\nX: " + b"a" * 16384, b"431 Request Header Fields Too Large"),
        "a body that is too large": (
            b"POST /v2/ HTTP/1.1\r\nContent-Length: 2147483649\r\n\r\n",
            b"413 Content Too Large",
        ),
        "a coding that isn't read": (b"POST /v2/ HTTP/1.1\r\nTransfer-Encoding: gzip\r\n\r\n", b"411 Length Required"),
    }
    with Server(8) as server:
        for name, (head, status) in cases.items():
            wanted = b"HTTP/1.1 %s\r\nContent-Length: 0\r\nConnection: close\r\n\r\n" % status
            for _ in range(3):
                try:
                    reply = server.exchange(head + b"x" * (8 * MIB))
                except OSError as error:
                    reply = error
                if reply == wanted:
                    break
            equal(f"the reply to {name}", reply, wanted)
        equal("the last line after refused heads", server.end(), SERVED)


def refused(server, head):
    """What a client hears of a head once it has sent 64 MiB behind it, and whether it could send all of that: little of
    it fits between the two."""
    heard, part = b"", bytes(MIB)
    with socket.socket() as client:
        client.settimeout(PATIENCE)
        for option in (socket.SO_SNDBUF, socket.SO_RCVBUF):
            client.setsockopt(socket.SOL_SOCKET, option, 131_072)
        client.connect(server.place())
        with contextlib.suppress(ConnectionError):
            client.sendall(head)
            for _ in range(64):
                client.sendall(part)
            client.shutdown(socket.SHUT_WR)
            heard = rest_of(client)
            return heard, True
        with contextlib.suppress(ConnectionError):
            heard = client.recv(65536)
        return heard, False


@case()
def refused_heads_of_large_bodies():
    """Clients that send all of a large body before they read hear the refusal, and aren't reset meanwhile. A machine
    that is stopped for seconds may have one reset in one try, and not in each of three."""
    heads = {
        400: b"GET /v2/ HTTP/9.9\r\n\r\n",
        431: b"GET /v2/ HTTP/1.1\r\nX: " + b"a" * 16384,
        413: b"POST /v2/ HTTP/1.1\r\nContent-Length: 2147483649\r\n\r\n",
    }
    with Server() as server, concurrent.futures.ThreadPoolExecutor(4) as pool:
        for status, head in heads.items():
            for _ in range(3):
                replies, ends = zip(*pool.map(refused, [server] * 4, [head] * 4))
                if all(ends):
                    break
            wrong = [reply for reply in replies if not reply.startswith(b"HTTP/1.1 %d " % status)]
            equal(f"what is heard of a {status} behind 64 MiB", wrong, [])
            equal(f"clients that could send all behind a {status}", ends, (True,) * 4)


def gets_400(name, peer):
    """Sends what is no head, stays connected, and checks the reply."""
    peer.sendall(UNREADABLE)
    reply = rest_of(peer)
    check(name, reply.startswith(b"HTTP/1.1 400 "), reply)


@case()
def peers_that_stay():
    """Neither a peer that stays and is silent nor one that sends on for ever holds a worker once its reply is sent."""
    with Server(1) as server, server.connect() as silent, server.connect() as endless:
        endless.sendall(UNREADABLE)
        gets_400("a silent peer's reply", silent)
        begun = time.monotonic()
        while server.process.poll() is None and time.monotonic() - begun < 15:
            with contextlib.suppress(OSError):
                endless.sendall(b"x")
            time.sleep(0.05)
        equal("the last line after peers that stay", server.end(), SERVED)


@case()
def peers_that_stay_hold_no_worker():
    """The one worker waits half a second for none of them, which would be fifty seconds in all."""
    with Server(env={"BLOBD_WORKERS": 1}) as server, contextlib.ExitStack() as staying:
        begun = time.monotonic()
        for _ in range(100):
            gets_400("the reply to a peer that stays", staying.enter_context(server.connect()))
        waited = time.monotonic() - begun
        check("peers that stay hold no worker", waited < 40, waited)


def end_connections(server):
    """Connections that end in each way: by a request that asks to close, by the client, by a refused head, inside a
    body, and by a reset."""
    ask_alone(server, "GET", "/v2/")
    with server.client() as client:
        client.ask("GET", "/v2/")
    server.exchange(UNREADABLE)
    for ends in (socket.socket.close, vanish):
        cut = server.connect()
        cut.sendall(b"PUT /v2/ HTTP/1.1\r\nContent-Length: 3\r\n\r\nab")
        ends(cut)


def sends_on(peer, until):
    """Sends a byte now and then, until it is told to stop or can't."""
    with contextlib.suppress(OSError):
        while not until.wait(0.05):
            peer.sendall(b"x")


def send_all_on(peers, until):
    """Sends a byte to each that there is now and then, until it is told to stop."""
    while not until.wait(0.2):
        for peer in list(peers):
            with contextlib.suppress(OSError):
                peer.sendall(b"x")


@case()
def peers_that_send_on_hold_nobody():
    """Peers that go on sending after their last reply are waited for all at once: one after another they would hold
    the next clients for half a minute."""
    with Server(env={"BLOBD_WORKERS": 16}) as server, contextlib.ExitStack() as staying:
        peers, waits, over = [], [], threading.Event()
        feeding = threading.Thread(target=send_all_on, args=(peers, over))
        feeding.start()
        for _ in range(200):
            peer = staying.enter_context(server.connect())
            gets_400("the reply to a peer that sends on", peer)
            peers.append(peer)
        for _ in range(40):
            begun = time.monotonic()
            ask_alone(server, "GET", "/v2/")
            waits.append(time.monotonic() - begun)
            time.sleep(0.1)
        over.set()
        feeding.join()
        check("peers that send on hold nobody", max(waits) < 10, waits)


@case()
def sockets_are_closed():
    """A server keeps no descriptor of a connection that has ended, also if its peer stays and is silent, or sends on
    for ever."""
    with Server() as server, contextlib.ExitStack() as staying:
        begun, over = server.descriptors(), threading.Event()
        peers = [staying.enter_context(server.connect()) for _ in range(4)]
        for peer in peers:
            gets_400("the reply to a peer whose connection is closed", peer)
        endless = [threading.Thread(target=sends_on, args=(peer, over)) for peer in peers[:2]]
        for thread in endless:
            thread.start()
        for _ in range(20):
            end_connections(server)
        are_closed = becomes(begun, server.descriptors)
        check("the descriptors once each connection has ended", are_closed, (begun, server.descriptors()))
        over.set()
        for thread in endless:
            thread.join()


@case()
def signals():
    """A program that is stopped for a while and goes on cuts no connection: not within a body, nor within a reply, nor
    an idle one."""
    content = random.Random(8).randbytes(32 * MIB)
    digest = sha256(content)
    with Server() as server:
        stored = ask_alone(server, "POST", f"/v2/lib/a/blobs/uploads/?digest={digest}", content)
        equal("a blob before signals", stored.status, 201)
        with server.client() as idle, server.connect() as busy:
            equal("a reply before signals", idle.ask("GET", "/v2/").status, 200)
            head = f"POST /v2/lib/b/blobs/uploads/?digest={digest} HTTP/1.1\r\nContent-Length: {len(content)}\r\n\r\n"
            busy.sendall(head.encode() + content[:MIB])
            halt_often(server)
            busy.sendall(content[MIB:])
            reply = busy.recv(65536)
            check("a body over signals", reply.startswith(b"HTTP/1.1 201 Created\r\n"), reply)
            equal("an idle connection over signals", idle.ask("GET", "/v2/").status, 200)
            busy.sendall(f"GET /v2/lib/b/blobs/{digest} HTTP/1.1\r\nConnection: close\r\n\r\n".encode())
            # the reply waits for its reader by now
            time.sleep(0.5)
            halt_often(server)
            check("a reply over signals", rest_of(busy).endswith(content))
            equal("an idle connection over more signals", idle.ask("GET", "/v2/").status, 200)


def halt_often(server):
    for _ in range(5):
        time.sleep(0.1)
        halt(server.process, 0.1)


@case("cc")
def silent_clients(folder):
    """A client that stops inside a head and one that reads nothing of its reply are ended after a minute, or two, which
    take seconds here."""
    content = random.Random(7).randbytes(64 * MIB)
    digest = sha256(content)
    with Server(env=shims.loaded(folder, "minutes")) as server:
        quiet = server.descriptors()
        stored = ask_alone(server, "POST", f"/v2/lib/a/blobs/uploads/?digest={digest}", content)
        equal("a blob for a client that doesn't read it", stored.status, 201)
        with server.connect() as halting, server.connect() as deaf:
            begun = time.monotonic()
            halting.sendall(b"GET /v2/ HT")
            deaf.sendall(f"GET /v2/lib/a/blobs/{digest} HTTP/1.1\r\n\r\n".encode())
            reply = server.exchange(LAST_BASE)
            waited = time.monotonic() - begun
            check("a third client once the silent ones are ended", reply.startswith(b"HTTP/1.1 200 OK\r\n"), reply)
            check("a minute of silence", 1.9 < waited < 55, waited)
            equal("no reply to a client that stops inside a head", rest_of(halting), b"")
            check("the silent ones are ended", becomes(quiet, server.descriptors), server.descriptors())
            sent = len(rest_of(deaf))
            check("a client that reads nothing isn't sent all", sent < len(content), sent)


def dripped(server, parts, pause):
    """The reply to these parts of a request, sent with a pause of so many seconds behind each, and how long that took.
    `None`: the connection was cut."""
    begun = time.monotonic()
    with server.connect() as connection:
        try:
            for part in parts:
                connection.sendall(part)
                # a connection that was cut is readable
                if not is_silent(connection, pause):
                    break
            connection.shutdown(socket.SHUT_WR)
            reply = rest_of(connection)
        except OSError:
            reply = b""
    return reply or None, time.monotonic() - begun


@case("cc")
def slow_clients(folder):
    """A client that drips a head or a body is cut once its minute is over, which takes two seconds here, and one that
    is as fast as is asked isn't."""
    env = shims.loaded(folder, "minutes", BLOBD_WORKERS=6)
    with Server(env=env) as server, concurrent.futures.ThreadPoolExecutor(6) as pool:
        bytes_of_head = [bytes([byte]) for byte in b"GET /v2/ HTTP/1.1\r\nX: " + b"a" * 400]
        # all of it would take twenty seconds
        reply, took = dripped(server, bytes_of_head, 0.05)
        check("a head that drips is cut", reply is None and took > 1.5, (reply, took))
        # one KiB a second would be 30 KiB a second here
        reply, took = dripped(server, [head_of_chunk(server), *[b"x" * 250] * 400], 0.05)
        check("a body that drips is cut", reply is None and took > 1.5, (reply, took))
        # Five seconds are two and a half minutes here. A machine that halts for two seconds makes any client slow: one
        # of some is fast enough.
        replies = [pool.submit(dripped, server, [head_of_chunk(server), *[b"x" * 8_000] * 50], 0.1) for _ in range(3)]
        statuses = list(pool.map(used_now_and_then, [server] * 3))
        replies = [reply.result() for reply in replies]
        taken = [reply for reply, took in replies if reply is not None and b" 202 Accepted" in reply and took > 4.5]
        check("a slow body that is fast enough", taken, replies)
        check("a connection that is used now and then", [200] * 6 in statuses, statuses)


def head_of_chunk(server):
    fields = "Content-Length: 400000\r\nConnection: close\r\n"
    return f"PATCH {server.opened('lib/a')} HTTP/1.1\r\n{fields}\r\n".encode()


def used_now_and_then(server):
    """The statuses of requests over one connection, which is kept for longer than a minute in all."""
    statuses = []
    with server.client() as client:
        for _ in range(6):
            with contextlib.suppress(OSError, http.client.HTTPException):
                statuses.append(client.ask("GET", "/v2/").status)
            time.sleep(0.7)
    return statuses


@case("cc")
def sends_at_once(folder):
    """Small writes aren't held back: each connection has TCP_NODELAY."""
    told = os.path.join(folder, "told")
    with Server(1, env=shims.loaded(folder, "options", OPTIONS_TOLD=told)) as server:
        replies = [ask_alone(server, "GET", "/v2/").status for _ in range(2)]
        ended = server.ended()
    sent_at_once = shims.told(told).count((socket.IPPROTO_TCP, socket.TCP_NODELAY, 1))
    equal("connections that send at once", (replies, ended, sent_at_once), ([200, 200], SERVED, 2))


def arrive(connection):
    """Waits until what was sent has come to the other side's system."""
    becomes(bytes(4), lambda: fcntl.ioctl(connection, termios.TIOCOUTQ, bytes(4)))


@case("cc")
def moves_much_at_once(folder):
    """A request that has come takes one read, and a reply takes one write, and one more if it has a large body."""
    told, content = os.path.join(folder, "told"), random.Random(9).randbytes(50_000)
    closing = [("Connection", "close")]
    store = request_text("POST", f"/v2/lib/a/blobs/uploads/?digest={sha256(content)}", content, closing)
    pull_it = request_text("GET", f"/v2/lib/a/blobs/{sha256(content)}", fields=closing)
    with Server(3, env=shims.loaded(folder, "moves", MOVES_TOLD=told) | {"BLOBD_WORKERS": 1}) as server:
        with server.connect() as holding:
            holding.sendall(BASE)
            replies = [holding.recv(65536)]
            # while the one worker has that connection, the requests over the next two come whole
            others = [server.connect(), server.connect()]
            for other, text in zip(others, (store, pull_it)):
                other.sendall(text)
                arrive(other)
        for other in others:
            with other:
                replies.append(rest_of(other))
        ended = server.ended()
    head, _, body = replies[2].partition(b"\r\n\r\n")
    equal("replies before their moves are counted", (body, ended), (content, SERVED))
    wanted = [("recv", len(BASE)), ("send", len(replies[0])), ("recv", len(store)), ("send", len(replies[1]))]
    wanted += [("recv", len(pull_it)), ("send", len(head) + 4), ("send", len(content))]
    equal("how much is moved at once", shims.told(told), wanted)


if __name__ == "__main__":
    main(__doc__, side_by_side=True)
