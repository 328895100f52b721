#!/usr/bin/env python3
"""What a line of the log costs `blobd serve`, as ratios in one run.

    log.py PROGRAM [--runs N]

Requests are sent one at a time over two connections, one after the other, to a server with the log (to /dev/null) and
to one without, in turn. It prints the server's processor time for a request, its own and the system's for it: the least
of the runs, of which there are fourteen if N isn't given. By the clock a line costs less, since the client counts too.
Needs Linux.
"""
import argparse
import os
import resource
import subprocess
import sys

import raw
from harness import running
from harness.suite import OPTIONS

# what is asked, its status, and how often: of openings there are no more than fit the service's 1,024 sessions
KINDS = {
    "GET /v2/": (("GET", "/v2/"), 200, 5000),
    "opening": (("POST", "/v2/lib/a/blobs/uploads/"), 202, 500),
    "opening that is refused for its name": (("POST", "/v2/LIB/a/blobs/uploads/"), 404, 5000),
}


def spent(words, status, count, log):
    """The server's processor seconds for one request of each connection's so many."""
    before = resource.getrusage(resource.RUSAGE_CHILDREN)
    with running.Server(1, env={"BLOBD_LOG": log or None}, stderr=subprocess.DEVNULL) as server:
        for _ in range(2):
            with raw.Connection(server.place()) as connection:
                for _ in range(count):
                    reply = connection.ask(*words, Content_Length=0)
                    if reply.status != status:
                        sys.exit(f"a reply of {reply.status} where {status} was due")
        server.ended()
    after = resource.getrusage(resource.RUSAGE_CHILDREN)
    return (after.ru_utime + after.ru_stime - before.ru_utime - before.ru_stime) / (2 * count)


def main():
    words = argparse.ArgumentParser(description="what a line of the log costs `blobd serve`")
    words.add_argument("program", metavar="PROGRAM")
    words.add_argument("--runs", metavar="N", type=int, default=14)
    told = words.parse_args()
    OPTIONS.program = os.path.abspath(told.program)
    least = {}
    for _ in range(told.runs):
        for name, kind in KINDS.items():
            for log in (0, 1):
                took = spent(*kind, log)
                least[name, log] = min(took, least.get((name, log), took))
    print("| what | without, µs | with its log, µs | of its speed |\n| --- | ---: | ---: | ---: |")
    for name in KINDS:
        bare, logged = least[name, 0], least[name, 1]
        print(f"| {name} | {bare * 1e6:.1f} | {logged * 1e6:.1f} | {bare / logged:.2f} |")


if __name__ == "__main__":
    main()
