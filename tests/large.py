#!/usr/bin/env python3
"""Stores blobs of more than 1 GiB in `blobd serve`, each in one request, and pulls them back.

    large.py PROGRAM

A body of a known length, a chunked one, and a push of a file in one chunk. The contents are made and compared as they
pass, so that this script holds none; the server holds each.
"""
import hashlib
import itertools
import os
import random

from harness.running import MIB, Server, push
from harness.suite import case, equal, main
from harness.wire import begun_reply, chunk_text

# No multiple of any buffer's size.
SIZE = (1 << 30) + 12_345
WHOLE_FILE = 1 << 31


def pieces(seed):
    """The content of this seed in pieces, no two of them the same."""
    tail = random.Random(seed).randbytes(MIB)
    for start in range(0, SIZE, MIB):
        yield (start.to_bytes(8, "big") + tail[8:])[: SIZE - start]


def digest_of(parts):
    hashed = hashlib.sha256()
    for part in parts:
        hashed.update(part)
    return "sha256:" + hashed.hexdigest()


def ask(server, method, target, body, **fields):
    """The status and the Location of the reply to a request whose body comes in pieces."""
    with server.client() as client:
        client.send_head(method, target, Connection="close", **fields)
        for piece in body:
            client.send(piece)
        reply = client.reply(method)
        return reply.status, reply.fields["Location"]


def comes_back(name, server, digest):
    """Checks how long the blob is, by its field and by its bytes, and their digest."""
    length = 0

    def parts():
        nonlocal length
        while part := reply.read(MIB):
            length += len(part)
            yield part

    with server.client() as client:
        client.send_head("GET", f"/v2/lib/a/blobs/{digest}", Connection="close")
        reply = begun_reply(client.socket, "GET")
        found = digest_of(parts())
        told = reply.status, int(reply.headers["Content-Length"]), length, found
    equal(f"{name} comes back", told, (200, SIZE, SIZE, digest))


@case()
def test_body_of_a_length():
    digest = digest_of(pieces(1))
    with Server() as server:
        place = server.opened("lib/a")
        stored = ask(server, "PUT", f"{place}?digest={digest}", pieces(1), Content_Length=SIZE)
        equal("a body of a length", stored, (201, f"/v2/lib/a/blobs/{digest}"))
        comes_back("a body of a length", server, digest)


@case()
def test_chunked_body():
    digest, chunks = digest_of(pieces(2)), map(chunk_text, itertools.chain(pieces(2), [b""]))
    with Server() as server:
        target = f"/v2/lib/a/blobs/uploads/?digest={digest}"
        stored = ask(server, "POST", target, chunks, Transfer_Encoding="chunked")
        equal("a chunked body", stored, (201, f"/v2/lib/a/blobs/{digest}"))
        comes_back("a chunked body", server, digest)


@case()
def test_push(folder):
    digest, path = digest_of(pieces(3)), os.path.join(folder, "file")
    with open(path, "wb") as file:
        file.writelines(pieces(3))
    with Server() as server:
        equal("a push", push(server.addr, "lib/a", path, WHOLE_FILE), (f"pushed {digest}\n", 0, ""))
        comes_back("a push", server, digest)


if __name__ == "__main__":
    main(__doc__)
