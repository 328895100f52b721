#!/usr/bin/env python3
"""The log of `blobd serve`: its lines, and what happens if nobody reads it.

    serve_log.py PROGRAM
"""
import collections
import contextlib
import datetime
import fcntl
import itertools
import os
import random
import re
import subprocess
import time

from harness import shims
from harness.running import SERVED, UNREADABLE, Server, ask_alone, base_replies
from harness.suite import case, check, equal, main
from harness.wire import PATIENCE, is_silent, sha256

# Methods and targets with bytes that a terminal would take for orders, and what a log shows of them: U+009B, U+0085,
# U+2028, U+202E, a backslash and a quote, and a character across the last byte that is shown.
STRANGE = [
    ((b"GET", "/\u009b31m".encode()), r"GET /\xc2\x9b31m"),
    ((b"GET", "/\u0085/\u2028/\u202e".encode()), r"GET /\xc2\x85/\xe2\x80\xa8/\xe2\x80\xae"),
    ((b"GET", rb"/\n%0a" + b'"'), r"GET /\x5cn%0a\x22"),
    ((b"X'`|~", b"/~!$&'()*+,;=[]{}<>^`|"), "X'`|~ /~!$&'()*+,;=[]{}<>^`|"),
    ((b"GET", b"/" + b"a" * 998 + "\u00e9b".encode()), "GET /" + "a" * 998 + r"\xc3"),
]


CUT = b"PUT /v2/ HTTP/1.1\r\nContent-Length: 3\r\n\r\nab"
TOO_LARGE = b"PUT /v2/ HTTP/1.1\r\nContent-Length: 2147483649\r\n\r\n"
TOO_LONG = b"GET /v2/ HTTP/1.1\r\nX: ".ljust(16384, b"a")


def lines_of_requests(server):
    """Makes requests of each kind, and gives the line that a log has of each, without its time."""
    place, blob = server.opened("lib/a"), f"/v2/lib/a/blobs/{sha256(b'abc')}"
    missing = f"/v2/lib/a/blobs/{sha256(b'nothing')}"
    lines = ["POST /v2/lib/a/blobs/uploads/ 202 0"]
    for method, target, body, fields, status in (
        ("PATCH", place, b"abc", {}, 202),
        ("PATCH", place, b"abc", {"Content_Range": "0-2"}, 416),
        ("HEAD", place, b"", {}, 204),
        ("PUT", f"{place}?digest={sha256(b'abc')}", b"", {}, 201),
        ("GET", blob, b"", {}, 200),
        ("HEAD", blob, b"", {}, 200),
        ("GET", missing, b"", {}, 404),
        ("HEAD", missing, b"", {}, 404),
        ("DELETE", place, b"", {}, 405),
        ("GET", "/v2/Lib/blobs/uploads/?a=%20b", b"", {}, 404),
        ("GET", "/" + "a" * 5_000, b"", {}, 404),
        ("GET", "/v2/lib/a/tags/list", b"", {}, 404),
    ):
        told = ask_alone(server, method, target, body, **fields).body
        lines.append(f"{method} {target[:1_000]} {status} {len(told)}")
    # two that go inside a body, and get no reply, and so no line
    with server.connect() as one, server.connect() as other:
        one.sendall(CUT)
        other.sendall(CUT)
    gzip = b"PATCH %b HTTP/1.1\r\nTransfer-Encoding: gzip\r\n\r\n" % place.encode()
    # of the last three no head can be read
    for text in (gzip, TOO_LARGE, TOO_LONG, UNREADABLE, UNREADABLE):
        server.exchange(text)
    lines += [f"PATCH {place} 411 0", "PUT /v2/ 413 0", "- 431 0", "- 400 0", "- 400 0"]
    for words, line in STRANGE:
        server.exchange(b"%b %b HTTP/1.1\r\nConnection: close\r\n\r\n" % words)
        # it is answered as the unknown target before it
        lines.append(f"{line} 404 {len(told)}")
    return lines


@case()
def logs_requests():
    """A line for each request on standard error, as it came, if the environment asks for it, and none if it
    doesn't."""
    for value in (None, "", "0", "1"):
        with Server(20, env={"BLOBD_LOG": value}, stderr=subprocess.PIPE) as server:
            wanted = lines_of_requests(server)
            equal(f"what a server prints with BLOBD_LOG={value}", server.end(), SERVED)
            lines = server.process.stderr.read().splitlines()
        if value != "1":
            check(f"no log with BLOBD_LOG={value}", not lines, lines)
    has_times = all(re.fullmatch(r"[0-9T:-]+Z .* [0-9]+ms", line) for line in lines)
    check("each line of a log has the time of day, and how long the reply took", has_times, lines)
    # a line comes behind its reply: the other worker's next one may be before it
    equal("a line for each request", sorted(line.split(" ", 1)[1].rsplit(" ", 1)[0] for line in lines), sorted(wanted))


@case("cc")
def log_has_the_time_of_day(folder):
    """In UTC, on each kind of day: the first of all, leap days, the days around them, ends of years and centuries."""
    last_second = datetime.timedelta(hours=23, minutes=59, seconds=59)
    first = datetime.datetime(1970, 1, 1, tzinfo=datetime.UTC)
    ends = itertools.product((1972, 2000, 2026, 2100, 9999), ((1, 1), (2, 28), (3, 1), (12, 31)))
    edges = [datetime.datetime(year, *rest, tzinfo=datetime.UTC) for year, rest in ends]
    drawn = random.Random(1)
    moments = [first, *edges, *(edge + last_second for edge in edges)]
    moments += [first + datetime.timedelta(seconds=drawn.randrange(250_000_000_000)) for _ in range(20)]
    for moment in moments:
        seconds = round((moment - first).total_seconds())
        env = {"BLOBD_LOG": 1, **shims.loaded(folder, "dates", DATES_SECONDS=seconds)}
        with Server(1, env=env, stderr=subprocess.PIPE) as server:
            ask_alone(server, "GET", "/v2/")
            server.end()
            told = server.process.stderr.readline().split(" ")[0]
        equal(f"the time of day {seconds} s behind the first of 1970", told, f"{moment:%Y-%m-%dT%H:%M:%SZ}")


@contextlib.contextmanager
def logging_server():
    """A server of two connections with a log, and the other end of the pipe that it writes to, which holds one page."""
    pipe, inner = os.pipe()
    fcntl.fcntl(inner, fcntl.F_SETPIPE_SZ, 4096)
    with Server(1, env={"BLOBD_LOG": 1}, stderr=inner) as server:
        os.close(inner)
        yield server, pipe
    os.close(pipe)


def accounted(text):
    """The lines of requests, and how many lines more were lost."""
    lines = text.decode().splitlines()
    lost = [int(found[1]) for line in lines if (found := re.fullmatch("blobd: ([0-9]+) lines lost", line))]
    return len(lines) - len(lost), sum(lost)


@case()
def unread_log():
    """A log that nobody reads holds up no request. Once it is read again, each line came, or is among those that it
    says were lost."""
    with logging_server() as (server, pipe), server.client() as client, server.client() as other:
        replies = base_replies(client, 2_000) + base_replies(other, 2_000)
        check("replies though nobody reads the log", replies == [200] * 4_000, collections.Counter(replies))
        text, until, asked = b"", time.monotonic() + PATIENCE, len(replies)
        while sum(accounted(text)) < asked and time.monotonic() < until:
            if is_silent(pipe, 1):
                # a worker tells of its lost lines with the next line that it doesn't lose
                asked += len(base_replies(client, 1) + base_replies(other, 1))
            else:
                text += os.read(pipe, 65536)
        written, lost = accounted(text)
        check("lines that were lost are counted", lost > 0 and written + lost == asked, (written, lost, asked))


@case()
def unread_log_at_the_end():
    """Nor does it hold up the end, for more than two seconds."""
    with logging_server() as (server, _):
        with server.client() as client:
            replies = base_replies(client, 2_000)
        name = "replies before the end though nobody reads the log"
        check(name, replies == [200] * 2_000, collections.Counter(replies))
        begun = time.monotonic()
        equal("the end though nobody reads the log", server.end(), SERVED)
        check("it waits for who reads the log", time.monotonic() - begun > 1.9, time.monotonic() - begun)


def read_late():
    """What a log has that is read a moment after its server began to end: the lines, and how many more were lost. So
    many fill the pipe, and less than a log holds wait."""
    with logging_server() as (server, pipe):
        with server.client() as client:
            replies = base_replies(client, 600)
        server.connect().close()
        time.sleep(0.2)
        waits, text = server.process.poll() is None, b""
        while not is_silent(pipe, PATIENCE) and (part := os.read(pipe, 65536)):
            text += part
        equal("the last line once the log is read", (replies, server.ended()), ([200] * 600, SERVED))
        return waits, accounted(text)


@case()
def log_read_late():
    """The lines that wait when a server ends are still written, if they are read within two seconds. A machine that is
    stopped for so long may disturb one try, and not each of three."""
    wanted = True, (600, 0)
    for _ in range(3):
        if (told := read_late()) == wanted:
            break
    equal("it waits for who reads the log late, and what is read", told, wanted)


if __name__ == "__main__":
    main(__doc__)
