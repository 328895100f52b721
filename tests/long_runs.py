#!/usr/bin/env python3
"""Sends `blobd serve` very many requests, and has it store very many small blobs.

    long_runs.py PROGRAM [--requests N] [--blobs N]

- Requests of each kind that leave the service as it is, as many over each connection as it may take. Each reply is
  compared with the model's, and the server's memory must not grow.
- Small blobs. It prints how much memory each takes, and pulls some.
"""
import random
import time

import model
from harness import running
from harness.suite import OPTIONS, case, check, equal, main
from harness.wire import connected, request_text, sha256

ZERO_REFERENCE = model.reference_of(1)
PLACE = f"/v2/a/blobs/uploads/{ZERO_REFERENCE}"
BLOB = b"0123456789" * 30
STORES = request_text("POST", f"/v2/a/blobs/uploads/?digest={sha256(BLOB)}", BLOB)
# An upload with three bytes in it, and a blob; and requests that leave these as they are, each answer of the service
# among them.
FIRST = [request_text("POST", "/v2/a/blobs/uploads/"), request_text("PATCH", PLACE, b"abc"), STORES]
ROUND = [
    request_text("GET", "/v2/"),
    request_text("HEAD", "/v2/"),
    request_text("GET", PLACE),
    request_text("PATCH", PLACE),
    request_text("PATCH", PLACE, is_chunked=True),
    request_text("PATCH", PLACE, b"bc", [("Content-Range", "1-2")]),
    request_text("PUT", f"{PLACE}?digest={sha256(b'abcdef')}", b"de"),
    request_text("GET", f"/v2/a/blobs/{sha256(BLOB)}"),
    request_text("HEAD", f"/v2/a/blobs/{sha256(BLOB)}"),
    request_text("GET", f"/v2/b/blobs/{sha256(BLOB)}"),
    request_text("POST", "/v2/a/blobs/uploads/", b"x"),
    request_text("POST", f"/v2/a/blobs/uploads/?mount={sha256(BLOB)}&from=a"),
    STORES,
    request_text("DELETE", "/v2/A/blobs/uploads/"),
]
# So much is sent and not yet answered at a time: little enough that neither side waits for the other's.
ROUNDS_AT_ONCE = 16
ROUNDS_OF_A_CONNECTION = (model.MAX_REQUESTS - 1) // len(ROUND)
# What the system's allocator may keep more than before.
LEVEL = 2 << 20
MOST_OF_A_SMALL_BLOB = 2_000


def exchanged(connection, sent, wanted):
    """Sends requests, and sees that the replies are the wanted ones."""
    connection.sendall(sent)
    heard = b""
    while len(heard) < len(wanted) and (part := connection.recv(1 << 16)):
        heard += part
    return heard == wanted


def rounds(place, reference, count):
    """Sends so many rounds of requests. Gives whether all were answered as the model does."""
    replies = [turn.text for turn in model.conversation(b"".join(FIRST + ROUND))[0]][len(FIRST) :]
    sent, wanted = (b"".join(texts).replace(ZERO_REFERENCE.encode(), reference.encode()) for texts in (ROUND, replies))
    while count:
        with connected(place) as connection:
            left = min(count, ROUNDS_OF_A_CONNECTION)
            count -= left
            while left:
                now = min(left, ROUNDS_AT_ONCE)
                left -= now
                if not exchanged(connection, sent * now, wanted * now):
                    return False
    return True


def small_blobs(place, numbers):
    """Stores a small blob for each number. Gives whether all were answered as the model does."""
    for first in range(numbers.start, numbers.stop, model.MAX_REQUESTS // 2):
        with connected(place) as connection:
            last = min(first + model.MAX_REQUESTS // 2, numbers.stop)
            for begin in range(first, last, 100):
                bodies = [b"%d" % number for number in range(begin, min(begin + 100, last))]
                digests = [sha256(body) for body in bodies]
                sent = b"".join(
                    request_text("POST", f"/v2/a/blobs/uploads/?digest={digest}", body)
                    for digest, body in zip(digests, bodies)
                )
                if not exchanged(
                    connection,
                    sent,
                    b"".join(model.Service.stored("a", digest).text(False, False) for digest in digests),
                ):
                    return False
    return True


@case()
def test_memory_stays_level():
    with running.Server(1_000_000) as server:
        with server.client() as client:
            reference = client.opened("a").rsplit("/", 1)[1]
            for text, method, status in ((FIRST[1], "PATCH", 202), (FIRST[2], "POST", 201)):
                client.send(text.replace(ZERO_REFERENCE.encode(), reference.encode()))
                equal(f"a {method} before the others", client.reply(method).status, status)
        count, memory, begun = OPTIONS.requests // len(ROUND) // 2, [], time.monotonic()
        with running.processes(2) as pool:
            for part in (count // 10, count - count // 10):
                ends = [pool.submit(rounds, server.place(), reference, part) for _ in range(2)]
                equal("rounds are answered as the model does", [end.result() for end in ends], [True, True])
                memory.append(server.memory())
    print(
        f"{count * 2 * len(ROUND)} requests in {time.monotonic() - begun:.0f} s: "
        f"{memory[0] >> 10} KiB after a tenth of them, {memory[1] >> 10} KiB at the end"
    )
    check("memory stays level", memory[1] < memory[0] + LEVEL, memory)


@case()
def test_small_blobs():
    count = OPTIONS.blobs
    with running.Server(1_000_000) as server:
        before, begun = server.memory(), time.monotonic()
        with running.processes(2) as pool:
            halves = range(count // 2), range(count // 2, count)
            ends = [pool.submit(small_blobs, server.place(), numbers) for numbers in halves]
            equal("small blobs are stored", [end.result() for end in ends], [True, True])
        each = (server.memory() - before) // count
        print(f"{count} small blobs in {time.monotonic() - begun:.0f} s: {each} bytes of memory each")
        check("the memory of a small blob", each < MOST_OF_A_SMALL_BLOB, each)
        bodies = [b"%d" % number for number in random.Random(1).sample(range(count), min(count, 1_000))]
        pulled = [running.pull(server, "a", sha256(body)) for body in bodies]
        equal("small blobs come back", pulled, bodies)


if __name__ == "__main__":
    main(__doc__, requests=(10_000_000, "how many requests"), blobs=(1_000_000, "how many blobs"))
