#!/usr/bin/env python3
"""How much memory `blobd serve` takes with a data directory and BLOBD_MEMORY=512M.

    held.py PROGRAM [--folder FOLDER] [--upload-gib GIB] [--blobs COUNT]

One upload of so many GiB comes in chunks of 16 MiB, is closed, and is pulled; then COUNT blobs of a GiB come, by four
clients at a time, and are pulled. It prints the most anonymous memory that the server had meanwhile, asked for twenty
times a second, and what it has once nothing is under way. FOLDER should be on a disk, with room for all of it.

Needs Linux.
"""
import argparse
import concurrent.futures
import contextlib
import hashlib
import os
import tempfile
import threading
import time

import raw  # noqa: F401 (it finds what the tests share)
from harness.running import MIB, Server
from harness.suite import OPTIONS
from harness.wire import begun_reply

NAME = "lib/a"
CHUNK = 16 * MIB
GIB = 1_024 * MIB
WORKERS, CLIENTS = 16, 4
# those of the unit
TUNABLES = "glibc.malloc.hugetlb=1:glibc.malloc.mmap_threshold=1048576:glibc.malloc.arena_max=1"
SETTINGS = {"BLOBD_MEMORY": "512M", "BLOBD_WORKERS": WORKERS, "GLIBC_TUNABLES": TUNABLES}


def anonymous(server):
    """The bytes of the server's memory that are no file's."""
    with open(f"/proc/{server.process.pid}/status", encoding="ascii") as file:
        return next(int(line.split()[1]) * 1_024 for line in file if line.startswith("RssAnon:"))


@contextlib.contextmanager
def watched(server, what):
    """Prints how much memory the server had at most meanwhile, and has a moment later."""
    most, ending = [anonymous(server)], threading.Event()

    def watch():
        while not ending.wait(0.05):
            most.append(anonymous(server))

    thread, begun = threading.Thread(target=watch), time.monotonic()
    thread.start()
    yield
    seconds = time.monotonic() - begun
    ending.set()
    thread.join()
    time.sleep(2)
    print(f"{what}: at most {max(most) / MIB:.0f} MiB, {anonymous(server) / MIB:.0f} MiB after it; {seconds:.0f} s", flush=True)


def chunks_of(seed, size):
    """The chunks of a blob, each of other bytes."""
    random = hashlib.sha256(str(seed).encode()).digest() * (CHUNK // 32)
    for at in range(0, size, CHUNK):
        yield at.to_bytes(16, "big") + random[16 : min(CHUNK, size - at)]


def pushed(server, seed, size):
    """Pushes a blob in chunks, and gives its digest."""
    hasher = hashlib.sha256()
    with server.client() as client:
        place = client.opened(NAME)
        for chunk in chunks_of(seed, size):
            hasher.update(chunk)
            while (reply := client.ask("PATCH", place, chunk)).status == 503:
                time.sleep(0.1)
            assert reply.status == 202, reply.status
        digest = f"sha256:{hasher.hexdigest()}"
        status = client.ask("PUT", f"{place}?digest={digest}").status
        assert status == 201, status
    return digest


def pulled(server, digest):
    """Pulls a blob, and checks it."""
    hasher = hashlib.sha256()
    with server.client() as client:
        client.connect()
        client.send_head("GET", f"/v2/{NAME}/blobs/{digest}")
        reply = begun_reply(client.socket, "GET")
        while piece := reply.read(MIB):
            hasher.update(piece)
    assert digest == f"sha256:{hasher.hexdigest()}"


def main():
    words = argparse.ArgumentParser(description="how much memory `blobd serve` takes with a data directory")
    words.add_argument("program", metavar="PROGRAM")
    words.add_argument("--folder", metavar="FOLDER", default=tempfile.gettempdir())
    words.add_argument("--upload-gib", metavar="GIB", type=int, default=16)
    words.add_argument("--blobs", metavar="COUNT", type=int, default=20)
    told = words.parse_args()
    OPTIONS.program = os.path.abspath(told.program)
    with tempfile.TemporaryDirectory(dir=told.folder) as folder:
        with Server(env=SETTINGS | {"BLOBD_DATA": os.path.join(folder, "data")}) as server:
            with watched(server, f"an upload of {told.upload_gib} GiB"):
                digest = pushed(server, 0, told.upload_gib * GIB)
            with watched(server, "its pull"):
                pulled(server, digest)
            with concurrent.futures.ThreadPoolExecutor(CLIENTS) as pool:
                with watched(server, f"{told.blobs} blobs of a GiB"):
                    digests = list(pool.map(lambda seed: pushed(server, seed, GIB), range(1, told.blobs + 1)))
                with watched(server, "their pulls"):
                    list(pool.map(lambda digest: pulled(server, digest), digests))


if __name__ == "__main__":
    main()
