#!/usr/bin/env python3
"""Runs clients against `blobd serve` for a while. They cut connections, race one another, are refused memory, and check
what they are told.

    soak.py PROGRAM [--seconds N] [--clients N] [--seed FIRST]

- The server has one worker, two, or eight. There are more clients than workers, by one to three if --clients doesn't
  say how many. So some wait for others.
- Clients (tests/clients.py) upload in chunks over connections of a few requests each. They send chunks that don't fit,
  close with digests that aren't the content's, go away inside a request or before its reply, and ask twice at once: two
  closes, two chunks at one place, a chunk and a close. If they hear no reply, they ask again to find out what the
  request did. Each blob that was committed is pulled at once, and all again at the end. It has to be the chunks that
  were taken, joined.
- The same is done while some allocations of the server are refused at random (tests/shims/growths.c; skipped without a
  C compiler). Then a request may be answered 503, or its connection may end, and nothing else.
- And with a data directory and little room, so that the bytes of uploads leave memory while clients go on with them. A
  start has to find the directory whole.
- At the end all workers have to serve at once, and the server may have printed nothing but its first line.

It ends by itself.
"""
import collections
import functools
import os
import random
import subprocess
import tempfile
import time

from clients import TRIES, Client
from harness import data, running, shims
from harness.suite import OPTIONS, case, check, equal, main
from harness.wire import Connection

WORKERS = (1, 2, 8)
# About one growth in so many is refused, behind those that the server takes before it serves.
REFUSED_GROWTHS, GROWTHS_BEFORE = 150, 1_000
# Of a server with a data directory.
ROOM = 3 * running.MIB
# Steps of each client at least, so that a slow machine meets as much.
LEAST_STEPS = 100
# What the clients have to meet, and some of these if growths are refused.
MET = {"committed", "cut", "unheard", "PATCH 202", "PATCH 416", "PUT 201", "PUT 400", "PUT 404"}
REFUSED = {f"{method} {told}" for method in ("GET", "PATCH", "POST", "PUT") for told in ("503", "nothing")}


def soaked(place, is_refused, until, seed):
    client = Client(place, seed, is_refused)
    return client.run(until, LEAST_STEPS), client.seen


def all_serve(server, workers, is_refused):
    """Whether so many connections are served at once: each twice, so that none was ended for another. Where memory is
    refused, some are asked for in vain."""
    for _ in range(TRIES if is_refused else 1):
        connections = [Connection(server.place()) for _ in range(workers)]
        replies = []
        for connection in connections * 2:
            connection.send(running.BASE)
            replies.append(connection.hear("GET"))
        for connection in connections:
            connection.close()
        if all(reply and reply.status == 200 for reply in replies):
            return True
    return False


def soak(workers, is_refused, log=subprocess.STDOUT, **settings):
    """Clients of a server that has so many workers, and whose standard error goes there."""
    seed, until = OPTIONS.seed, time.monotonic() + OPTIONS.seconds
    count = OPTIONS.clients or workers + random.Random(seed + is_refused).randint(1, 3)
    env, seen = settings | {"BLOBD_WORKERS": workers}, collections.Counter()
    what = f"{workers} workers{' that are refused memory' if is_refused else ''}"
    with running.Server(1_000_000, stderr=log, env=env) as server, running.processes(count) as pool:
        clients = [1_000 * seed + which for which in range(count)]
        ends = pool.map(functools.partial(soaked, server.place(), is_refused, until), clients)
        for which, (wrong, counts) in zip(clients, ends):
            seen += counts
            check(f"client {which} of {what}", not wrong, wrong)
        check(f"all serve at once of {what}", all_serve(server, workers, is_refused))
        goes_on = server.process.poll() is None
        # One that refuses requests for want of room says so, at most once a minute.
        want = {running.FULL.rstrip()} if is_refused else set()
        said = set(server.stop().splitlines()) - want - {running.TABLE_FULL.rstrip()}
        equal(f"the server goes on, and says nothing else: {what}", (goes_on, said), (True, set()))
    counts = ", ".join(f"{name} {number}" for name, number in sorted(seen.items()))
    print(f"workers {workers}, clients {count}: {counts}", flush=True)
    # in a directory much has room that has none in memory
    wants_refused = is_refused and "BLOBD_DATA" not in settings
    check(f"what the clients met of {what}", MET <= set(seen) and (not wants_refused or REFUSED & set(seen)), seen)


@case()
def test_clients():
    for workers in WORKERS:
        soak(workers, False)


@case()
def test_clients_with_a_directory(folder):
    for workers in WORKERS:
        path = os.path.join(folder, str(workers))
        with tempfile.TemporaryFile() as log:
            soak(workers, True, log, **data.variables(path, BLOBD_MEMORY=ROOM))
        with data.serving(path) as server:
            equal(f"a start after {workers} workers", (data.named_losses(server), server.first_line[:10]), ([], "listening "))


@case("cc")
def test_clients_with_growths_refused(folder):
    numbers = {"REFUSED_GROWTHS": REFUSED_GROWTHS, "GROWTHS_BEFORE": GROWTHS_BEFORE}
    for workers in WORKERS:
        soak(workers, True, **shims.loaded(folder, "growths", **numbers))


if __name__ == "__main__":
    main(
        __doc__,
        seconds=(10, "how long the clients of each number of workers go on, with growths refused and without"),
        clients=(0, "how many; 0: one to three more than workers"),
        seed=(1, "the seed of the first client"),
    )
