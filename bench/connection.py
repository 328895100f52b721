#!/usr/bin/env python3
"""Figures of `blobd once`, as ratios in one run.

    connection.py PROGRAM

Each figure is the best of three. A blob in one PATCH is compared with `sha256sum` on the same bytes. Needs about 2 GiB
in the temporary folder.
"""
import hashlib
import os
import resource
import subprocess
import sys
import tempfile
import time

GIB = 1 << 30
OPENING = b"POST /v2/lib/a/blobs/uploads/ HTTP/1.1\r\nContent-Length: 0\r\n\r\n"
UPLOAD = b"/v2/lib/a/blobs/uploads/00000001-0000-8000-8000-000000000000"


def timed(command, path):
    """The least wall-clock and processor seconds of three runs with the file as standard input, and the most memory in
    bytes."""
    wall, processor, memory = [], [], 0
    for _ in range(3):
        with open(path, "rb") as sent:
            before = resource.getrusage(resource.RUSAGE_CHILDREN)
            start = time.monotonic()
            with subprocess.Popen(command, stdin=sent, stdout=subprocess.DEVNULL) as ran:
                _, _, used = os.wait4(ran.pid, 0)
                ran.returncode = 0
            wall.append(time.monotonic() - start)
            after = resource.getrusage(resource.RUSAGE_CHILDREN)
            processor.append(after.ru_utime + after.ru_stime - before.ru_utime - before.ru_stime)
            memory = max(memory, used.ru_maxrss * 1024)
    return min(wall), min(processor), memory


def blob_file(path, size, chunk):
    """A connection that uploads `size` bytes in chunks and closes; and the bytes alone, in a second file."""
    piece = os.urandom(1 << 20)
    digest = hashlib.sha256()
    with open(path, "wb") as connection, open(path + ".blob", "wb") as blob:
        connection.write(OPENING)
        for first in range(0, size, chunk):
            length = min(chunk, size - first)
            connection.write(b"PATCH %s HTTP/1.1\r\nContent-Length: %d\r\n\r\n" % (UPLOAD, length))
            for at in range(0, length, len(piece)):
                part = piece[: min(len(piece), length - at)]
                connection.write(part)
                blob.write(part)
                digest.update(part)
        connection.write(b"PUT %s?digest=sha256:%s HTTP/1.1\r\n\r\n" % (UPLOAD, digest.hexdigest().encode()))


def main():
    program = os.path.abspath(sys.argv[1])
    with tempfile.TemporaryDirectory() as folder:
        path = os.path.join(folder, "connection")
        for name, chunk in (("one PATCH", GIB), ("chunks of 1 MiB", 1 << 20)):
            blob_file(path, GIB, chunk)
            wall, processor, memory = timed([program, "once"], path)
            plain_wall, plain, _ = timed(["sha256sum"], path + ".blob")
            print(
                f"1 GiB in {name}: {plain_wall / wall:.2f} of sha256sum's speed by the clock, "
                f"{plain / processor:.2f} by processor time ({processor:.2f} s, {plain:.2f} s), "
                f"{memory / GIB:.3f} bytes of memory a byte"
            )
        small = {
            "16 KiB of line feeds": b"GET /v2/ HTTP/1.1\r\n" + b"\n" * 16384,
            "nothing": b"",
            "10,000 GET /v2/": b"GET /v2/ HTTP/1.1\r\n\r\n" * 10000,
            "a body of 2 GiB that stops after 1 MiB": (
                OPENING + b"PATCH %s HTTP/1.1\r\nContent-Length: 2147483648\r\n\r\n" % UPLOAD + b"x" * (1 << 20)
            ),
        }
        for name, sent in small.items():
            with open(path, "wb") as connection:
                connection.write(sent)
            _, processor, memory = timed([program, "once"], path)
            print(f"{name}: {processor * 1000:.1f} ms of processor time, {memory / (1 << 20):.1f} MiB of memory")


if __name__ == "__main__":
    main()
