#!/usr/bin/env python3
"""Figures of one, two and three `blobd` behind HAProxy, and of Debian's `docker-registry`, under the same load.

    front.py PROGRAM [--json FILE] [--shards N ..] [--runs N]

Each figure is that of the best of three runs, in which the servers take turns. Each client keeps its connection, has a
repository of its own, and repeats a round: it opens an upload, sends a blob in one chunk, closes, asks for it by HEAD,
pulls it and compares. HAProxy asks for a login; both speak plain HTTP, so that this client's TLS isn't what is
measured. `docker-registry` has its files in memory (/dev/shm), no login and no log. The clients are Python, in as many
processes as there are cores, and share the machine with the servers: read the figures as ratios in one run.

Needs Linux, HAProxy, and docker-registry for its rows.
"""
import argparse
import collections
import functools
import json
import multiprocessing
import os
import random
import sys
import tempfile
import threading
import time

import raw
import servers
from harness.registry import KIB, LOGIN, MIB, PROXY, Site, credentials
from harness.suite import OPTIONS
from harness.wire import PATIENCE, sha256

FORK = multiprocessing.get_context("fork")

Load = collections.namedtuple("Load", "name clients blobs size")
LOADS = [
    Load("1 KiB blobs, 1 client", 1, 100, KIB),
    Load("1 KiB blobs, 64 clients", 64, 15, KIB),
    Load("1 MiB blobs, 64 clients", 64, 2, MIB),
    Load("8 MiB blobs, 1 client", 1, 8, 8 * MIB),
    Load("8 MiB blobs, 16 clients", 16, 2, 8 * MIB),
]


class Client:
    """A client over a kept connection, which reads bodies into one room."""

    def __init__(self, address, size):
        self.place = servers.place(address)
        self.room = bytearray(size)
        self.asked = 0
        self.connect()

    def connect(self):
        self.connection = raw.Connection(self.place, Authorization=credentials(LOGIN))

    def ask(self, method, target, body=None):
        """The status, the fields in lower case and the length of the body, which then stands in the room."""
        fields = {} if body is None else {"Content_Length": len(body), "Content_Type": "application/octet-stream"}
        head, body = self.connection.head(method, target, **fields), body or b""
        # what is short leaves with the head
        for text in [head + body] if len(body) <= KIB else [head, body]:
            self.connection.socket.sendall(text)
        status, fields = self.connection.reply_head()
        length = 0 if method == "HEAD" or status == 204 else int(fields.get("content-length", 0))
        self.connection.body_into(self.room, length)
        self.asked += 1
        if fields.get("connection", "").lower() == "close":
            self.connection.close()
            self.connect()
        return status, fields, length

    def go_round(self, name, content, digest):
        """One blob there and back."""
        status, fields, _ = self.ask("POST", f"/v2/{name}/blobs/uploads/", b"")
        self.expect("POST", status, 202)
        status, fields, _ = self.ask("PATCH", raw.target_of(fields), content)
        self.expect("PATCH", status, 202)
        self.expect("PUT", self.ask("PUT", raw.closing_target(raw.target_of(fields), digest), b"")[0], 201)
        self.expect("HEAD", self.ask("HEAD", f"/v2/{name}/blobs/{digest}")[0], 200)
        status, _, length = self.ask("GET", f"/v2/{name}/blobs/{digest}")
        self.expect("GET", status, 200)
        if length != len(content) or self.room[:length] != content:
            raise ValueError(f"{digest} came back otherwise")

    @staticmethod
    def expect(method, status, expected):
        if status != expected:
            raise ValueError(f"{method}: {status} for {expected}")


def work(address, load, number, told):
    """One client's part of a load."""
    blobs = []
    for turn in range(load.blobs):
        content = random.Random(f"{address} {number} {turn}").randbytes(load.size)
        blobs.append((content, sha256(content)))
    yield
    client = Client(address, load.size + 65536)
    longest = 0.0
    for content, digest in blobs:
        begun = time.monotonic()
        client.go_round(f"team{number}/app", content, digest)
        longest = max(longest, time.monotonic() - begun)
    client.connection.close()
    told.append((client.asked, longest))


def work_together(address, load, numbers, ready, go, results):
    """A process with some of the clients, a thread for each."""
    told, faults = [], []

    def run(one):
        try:
            for _ in one:
                pass
        except (OSError, ValueError) as fault:
            faults.append(str(fault))

    parts = [work(address, load, number, told) for number in numbers]
    for part in parts:
        next(part)
    ready.put(True)
    go.wait()
    threads = [threading.Thread(target=run, args=(part,)) for part in parts]
    for thread in threads:
        thread.start()
    for thread in threads:
        thread.join()
    results.put((told, faults))


def measured(name, address, load):
    """The figures of a load at an address."""
    ready, results, go = FORK.Queue(), FORK.Queue(), FORK.Event()
    cores = min(os.cpu_count(), load.clients)
    words = [(address, load, range(core, load.clients, cores), ready, go, results) for core in range(cores)]
    processes = [FORK.Process(target=work_together, args=one, daemon=True) for one in words]
    for process in processes:
        process.start()
    for _ in processes:
        ready.get(timeout=PATIENCE)
    begun = time.monotonic()
    go.set()
    told = [results.get(timeout=PATIENCE) for _ in processes]
    seconds = time.monotonic() - begun
    for process in processes:
        process.join()
    faults = [fault for _, some in told for fault in some]
    if faults:
        sys.exit(f"{name}, {load.name}: {faults[:3]}")
    clients = [client for some, _ in told for client in some]
    return {
        "server": name,
        "load": load.name,
        "requests a second": sum(asked for asked, _ in clients) / seconds,
        "MiB a second there and back": load.clients * load.blobs * load.size / MIB / seconds,
        "longest there and back, s": max(longest for _, longest in clients),
    }


def behind_the_front(shards, load):
    with Site(shards, within="/dev/shm") as site:
        return measured(f"{shards} blobd", site.haproxy.plain, load)


def docker_registry(load):
    with (
        tempfile.TemporaryDirectory(prefix="blobd-front-", dir="/dev/shm") as folder,
        servers.DockerRegistry(folder) as registry,
    ):
        return measured("docker-registry", registry.address, load)


def print_rows(rows):
    shown = [
        [value if isinstance(value, str) else f"{value:.{0 if value >= 100 else 2}f}" for value in row.values()]
        for row in rows
    ]
    raw.print_table(list(rows[0]), shown)


def main():
    parser = argparse.ArgumentParser(description=__doc__, formatter_class=argparse.RawDescriptionHelpFormatter)
    parser.add_argument("program")
    parser.add_argument("--json", help="a file to write the figures to as well")
    parser.add_argument("--shards", type=int, nargs="+", default=[1, 2, 3], help="how many blobd there are in turn")
    parser.add_argument("--runs", type=int, default=3)
    given = parser.parse_args()
    OPTIONS.program = os.path.abspath(given.program)
    absent = servers.missing(*PROXY)
    if absent:
        sys.exit("apt-get install --no-install-recommends " + " ".join(absent))
    rows = []
    for load in LOADS:
        # one client is served by one shard
        counts = given.shards if load.clients > 1 else given.shards[:1]
        measures = [functools.partial(behind_the_front, shards, load) for shards in counts]
        if not servers.missing("docker-registry"):
            measures.append(functools.partial(docker_registry, load))
        runs = [[measure() for measure in measures] for _ in range(given.runs)]
        rows += [max(tries, key=lambda row: row["requests a second"]) for tries in zip(*runs)]
    print_rows(rows)
    if given.json:
        with open(given.json, "w", encoding="ascii") as file:
            json.dump(rows, file, indent=1)


if __name__ == "__main__":
    main()
