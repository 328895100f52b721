#!/usr/bin/env python3
"""Runs the built program on whole connections, and compares what it writes and its exit status.

    connections.py PROGRAM

Each tests/connections/NAME.in is what a client sends over one connection, NAME.out what has to come back, byte for
byte, and NAME.status the exit status of `blobd once`. It also tries very long connections, and connections that are cut
after each byte.
"""
import concurrent.futures

import model
import stored
from harness import running
from harness.suite import case, check, equal, main

OPENING = b"POST /v2/lib/a/blobs/uploads/ HTTP/1.1\r\nHost: h\r\nContent-Length: 0\r\n\r\n"
BASE = b"GET /v2/ HTTP/1.1\r\nHost: h\r\n\r\n"
BASE_REPLY = b"HTTP/1.1 200 OK\r\nContent-Length: 0\r\n\r\n"
CLOSING_REPLY = BASE_REPLY.replace(b"\r\n\r\n", b"\r\nConnection: close\r\n\r\n")


def opening_reply(number):
    location = b"/v2/lib/a/blobs/uploads/%08x-0000-8000-8000-000000000000" % number
    return b"HTTP/1.1 202 Accepted\r\nLocation: " + location + b"\r\nContent-Length: 0\r\n\r\n"


def cut_connections():
    """A whole upload, cut after each byte: the replies to the whole requests before the cut, and status 3 inside a
    request."""
    _, sent, replies, _ = next(connection for connection in stored.connections() if connection[0] == "whole-upload")
    turns, _ = model.conversation(sent)
    for cut in range(len(sent) + 1):
        whole = [turn for turn in turns if turn.end <= cut]
        at_an_end = cut == (whole[-1].end if whole else 0)
        yield f"after {cut} bytes", sent[:cut], replies[: sum(len(turn.text) for turn in whole)], 0 if at_an_end else 3


def compare(cases):
    cases = list(cases)
    check("there are connections", cases)
    with concurrent.futures.ThreadPoolExecutor() as pool:
        ends = pool.map(running.once, [sent for _, sent, *_ in cases])
        for (name, _, replies, status), ended in zip(cases, ends):
            equal(name, ended, (replies, status))


@case()
def test_stored():
    compare(stored.connections())


@case()
def test_cut():
    compare(cut_connections())


@case()
def test_more_openings_than_sessions():
    body = b'{"errors":[{"code":"TOOMANYREQUESTS","message":"too many requests"}]}'
    head = b"HTTP/1.1 429 Too Many Requests\r\nContent-Type: application/json\r\nContent-Length: %d\r\n\r\n"
    opened = b"".join(map(opening_reply, range(1, 1025)))
    compare([("1025 openings", OPENING * 1025, opened + head % len(body) + body, 0)])


@case()
def test_more_requests_than_a_connection_takes():
    asks_to_close, replies = BASE.replace(b"Host: h", b"Connection: close"), BASE_REPLY * 9999 + CLOSING_REPLY
    name = "10000 requests, the last of which asks to close"
    compare([("10001 requests", BASE * 10001, replies, 1), (name, BASE * 9999 + asks_to_close, replies, 0)])


if __name__ == "__main__":
    main(__doc__)
