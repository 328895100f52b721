#!/usr/bin/env python3
"""Compares `blobd once` and `blobd serve` with a model (tests/model.py) over streams that a seeded generator makes: all
that is written, and how it ends.

    differential.py PROGRAM [--streams N] [--seed FIRST]

A stream is requests, whole, cut or changed somewhere (tests/streams.py).

- `blobd once`: the bytes and the exit status. If a stream is answered otherwise than by the model, a short part of it
  is printed that is so too. The streams together have to get each reply that the model knows and each end of a
  connection, except those that take a thousand requests or more (tests/connections.py has these).
- `blobd serve` with one worker, two and eight, over sockets: for each of them a sixteenth as many streams, of other
  seeds, and a new server for each. Every second stream goes over one connection, and the others go in turn over one to
  each worker, so that the workers have to share what they know. The references that it tells are compared without their
  secrets.
"""
import contextlib
import functools
import itertools
import os
import re
import socket

import model
import streams
from harness import running
from harness.suite import OPTIONS, case, check, equal, main
from harness.wire import rest_of

# So many streams bring about all of these.
ENOUGH = 1_000
REPLIES = {(200, ""), (201, ""), (202, ""), (204, ""), (400, ""), (411, ""), (413, ""), (431, "")}
REPLIES |= {
    (400, "BLOB_UPLOAD_INVALID"),
    (400, "DIGEST_INVALID"),
    (400, "SIZE_INVALID"),
    (405, "UNSUPPORTED"),
    (416, "BLOB_UPLOAD_INVALID"),
}
REPLIES |= {(404, code) for code in ("BLOB_UNKNOWN", "BLOB_UPLOAD_UNKNOWN", "NAME_INVALID", "UNSUPPORTED")}
ENDS = set(model.End) - {model.End.TOO_MANY}
# of the first streams that are answered otherwise, a part is sought in so many tries
MOST_SHRUNK, MOST_TRIES = 3, 300
# For each number of workers, one stream is served for so many that `blobd once` has.
WORKERS, FOR_EACH_SERVED = (1, 2, 8), 16
# A head that tells a reference, and how the one of a number is written, with any secret.
TELLS = re.compile(rb"/uploads/([^/\r]*)\r\n(?:.+\r\n)*\r\n")
WRITTEN = rb"%s-[0-9a-f]{4}-8[0-9a-f]{3}-[89ab][0-9a-f]{3}-[0-9a-f]{12}"


def is_other(sent):
    return running.once(sent) != model.once(sent)


def shrunk(sent):
    """A part of a stream that is answered otherwise too, once no piece can be taken out of it, or after so many
    tries."""
    tries, size = MOST_TRIES, len(sent) // 2
    while size and tries:
        at = 0
        while at < len(sent) and tries:
            tries -= 1
            without = sent[:at] + sent[at + size :]
            if is_other(without):
                sent = without
            else:
                at += size
        size //= 2
    return sent


def told(sent, ran, should):
    """What came and what should have, from where they differ."""
    (written, status), (wanted, wanted_status) = ran, should
    same = len(os.path.commonprefix([written, wanted]))
    end = max(0, same - 40)
    came, should_come = written[end:][:400], wanted[end:][:400]
    return f"status {status}, wanted {wanted_status}; wrote ..{came!r}, wanted ..{should_come!r}; sent {sent[:2000]!r}"


def compared(seed):
    """Whether a stream is answered as the model does; and the replies and the end that were wanted."""
    sent = streams.stream(seed)
    turns, end = model.conversation(sent)
    is_same = running.once(sent) == (b"".join(turn.text for turn in turns), end.status)
    return is_same, {(turn.reply.status, turn.reply.code) for turn in turns}, end


def parts(sent):
    """A stream, cut behind each request that opens a session, with the reference that the last reply to a part tells.
    What is never answered isn't cut off."""
    turns, _ = model.conversation(sent)
    begin, number = 0, 1
    for place, turn in enumerate(turns, 1):
        reference = model.reference_of(number)
        if turn.reply.location.endswith(reference):
            end = turn.end if place < len(turns) else len(sent)
            yield sent[begin:end], reference.encode()
            begin, number = end, number + 1
    yield sent[begin:], None


def forms(reference):
    """The ways in which a stream writes the digits of a reference."""
    return [form for digits in (reference, reference.replace(b"-", b"")) for form in (digits, digits.upper())]


class Secrets:
    """The secrets of a server's references. The model's are zero: so what is sent gets those that the server told, and
    they are taken out of what comes."""

    def __init__(self):
        self.references = {}  # the model's, and the server's

    def put_in(self, part):
        for plain, secret in self.references.items():
            for old, new in zip(forms(plain), forms(secret)):
                part = part.replace(old, new)
        return part

    def hear(self, connection, plain):
        """What comes until a head is whole that tells a reference for the first time, or until the end. It has to have
        this one's number."""
        replies, new = b"", set()
        while not new:
            part = connection.recv(65536)
            if not part:
                break
            replies += part
            new = set(TELLS.findall(replies)) - set(self.references.values())
        for reference in new:
            if re.fullmatch(WRITTEN % plain[:8], reference):
                self.references[plain] = reference
        return replies

    def take_out(self, replies):
        for plain, secret in self.references.items():
            replies = replies.replace(secret, plain)
        return replies


def converse(connections, sent):
    """What comes over connections to which the parts of a stream go in turn, each once those before it are answered. An
    error stands behind what came."""
    secrets, replies = Secrets(), b""
    try:
        for (part, plain), connection in zip(parts(sent), itertools.cycle(connections)):
            connection.sendall(secrets.put_in(part))
            if plain:
                replies += secrets.hear(connection, plain)
        # the last part is over this one
        for ended in (connection, *(other for other in connections if other is not connection)):
            ended.shutdown(socket.SHUT_WR)
            replies += rest_of(ended)
    except OSError as error:
        replies += repr(error).encode()
    return secrets.take_out(replies)


def served(workers, seed):
    """What comes from a new server of so many workers, of which each takes one connection, and how the server ends; and
    what is wanted."""
    sent = streams.stream(seed)
    wanted, _ = model.once(sent)
    with running.Server(1, env={"BLOBD_WORKERS": workers}) as server:
        with contextlib.ExitStack() as open_ones:
            connections = [open_ones.enter_context(server.connect()) for _ in range(workers)]
            written = converse(connections[: workers if seed % 2 else 1], sent)
        return (written, server.ended()), (wanted, running.SERVED)


@case()
def test_streams():
    count, first = OPTIONS.streams, OPTIONS.seed
    seeds = range(first, first + count)
    replies, ends, shrinks = set(), set(), MOST_SHRUNK
    with running.processes() as pool:
        for seed, (is_same, seen, end) in zip(seeds, pool.map(compared, seeds, chunksize=25)):
            replies |= seen
            ends.add(end)
            sent = b"" if is_same else streams.stream(seed)
            if sent and shrinks:
                shrinks -= 1
                sent = shrunk(sent)
            check(f"stream {seed}", is_same, is_same or told(sent, running.once(sent), model.once(sent)))
    if count >= ENOUGH:
        equal("what the streams bring about", (replies, ends), (REPLIES, ENDS))


@case()
def test_served_streams():
    count, first = OPTIONS.streams // FOR_EACH_SERVED, OPTIONS.seed + OPTIONS.streams
    for which, workers in enumerate(WORKERS):
        seeds = range(first + which * count, first + (which + 1) * count)
        with running.processes() as pool:
            for seed, (ran, should) in zip(seeds, pool.map(functools.partial(served, workers), seeds)):
                is_same = ran == should
                name = f"stream {seed}, served by {workers}"
                check(name, is_same, is_same or told(streams.stream(seed), ran, should))


if __name__ == "__main__":
    main(__doc__, streams=(2_000, "how many streams"), seed=(1, "the seed of the first"))
