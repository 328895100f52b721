#!/usr/bin/env python3
"""What the registry says of itself: its parts in /health, the log and the metrics, if a shard is full or Redis fails;
and the numbers of its data directories.

    registry_health.py PROGRAM
"""
import contextlib
import os
import re
import shlex
import shutil
import signal
import socket
import sys

from harness import TOP
from harness.data import FILLED, SECTOR, changed, content_of, filled, gates_of
from harness.listeners import Listener
from harness.registry import IMAGE_PUSHED, LOGIN, MIB, PROXY, Client, Site, is_refused, push_image, servers
from harness.running import becomes, finished, told_by
from harness.suite import OPTIONS, case, check, equal, main
from harness.wire import sha256

UPLOADS = "/v2/lib/a/blobs/uploads/"
REFUSED = b"HTTP/1.1 503 Service Unavailable\r\nContent-Length: 0\r\nConnection: close\r\n\r\n"
# Seconds in which a refusal is told: on a busy machine some pass before it is asked for.
TOLD = {"FRONT_TOLD": "10"}


def health(proxy):
    status, _, body = Client(proxy.status).ask("GET", "/health")
    return status, body.decode().splitlines()


def text_of(path):
    with open(path, encoding="utf-8", errors="replace") as file:
        return file.read()


def refuse_early(connection):
    """Refuses behind the head, and drops what comes then."""
    with connection:
        connection.recv(1024)
        connection.sendall(REFUSED)
        connection.shutdown(socket.SHUT_WR)
        while connection.recv(65536):
            pass


@case(*PROXY)
def a_full_shard_is_told(folder):
    """A shard that refuses in the middle of a body: the client hears of it, the log and the metrics have it, and
    /health names the shard for a while."""
    servers.certificate(folder)
    servers.logins(folder, {})
    with Listener(refuse_early) as shard, servers.HAProxy(folder, [shard.addr], more=TOLD) as proxy:
        equal("a shard that wasn't asked", health(proxy), (200, ["shard1: well", "manifests: well"]))
        client = Client(proxy.local)
        client.send_head("PATCH", f"{UPLOADS}1", Content_Length=8 * MIB)
        with contextlib.suppress(ConnectionError):
            client.send(bytes(8 * MIB))
        is_refused("a chunk", client.reply("PATCH"), 503, "UNAVAILABLE", "is full")
        equal("it is full, and not down", health(proxy), (200, ["shard1: full", "manifests: well"]))
        check("the log has it", becomes(True, lambda: " 503 " in text_of(proxy.log)), text_of(proxy.log))
        for what in (
            'backend_http_responses_total{proxy="shards"',
            'frontend_http_responses_total{proxy="registry"',
        ):
            line = f'haproxy_{what},code="5xx"}} 1\n'.encode()
            check(f"{what} moves", line in Client(proxy.status).ask("GET", "/metrics").body)
        well = 200, ["shard1: well", "manifests: well"]
        check("it is well again", becomes(well, lambda: health(proxy)), health(proxy))


@case(*PROXY)
def uploads_that_were_left_are_told(folder):
    """A table may be full of uploads whose clients went away."""
    servers.certificate(folder)
    servers.logins(folder, {})
    refused = REFUSED.replace(b"503 Service Unavailable", b"429 Too Many Requests")

    def refuse(connection):
        if connection.recv(65536):
            connection.sendall(refused)
        connection.close()

    with Listener(refuse) as shard, servers.HAProxy(folder, [shard.addr], more=TOLD) as proxy:
        told = Client(proxy.local).ask("POST", UPLOADS)
        is_refused("an opening", told, 429, "TOOMANYREQUESTS", "its client left")
        equal("its table is full", health(proxy), (200, ["shard1: full of open uploads", "manifests: well"]))
        check("for a while", becomes("shard1: well", lambda: health(proxy)[1][0]), health(proxy))


def vanish(connection):
    """Ends a request in the middle of its body, and takes what still comes."""
    with connection:
        connection.recv(65536)
        connection.shutdown(socket.SHUT_WR)
        while connection.recv(65536):
            pass


@case(*PROXY)
def a_body_that_found_no_room_is_told(folder):
    """A shard ends a large body that has a digest if there is no room for it; no other body."""
    servers.certificate(folder)
    servers.logins(folder, {})
    digest = f"?digest={sha256(b'')}"
    with Listener(vanish) as shard, servers.HAProxy(folder, [shard.addr], more=TOLD) as proxy:
        for method, target, size, state in (
            ("PATCH", f"{UPLOADS}1", 8 * MIB, "well"),
            ("PUT", f"{UPLOADS}1{digest}", 4 * MIB, "well"),
            ("PUT", f"{UPLOADS}1{digest}", 8 * MIB, "full, or it ended a request without a reply"),
            ("POST", f"{UPLOADS}{digest}", 8 * MIB, "full, or it ended a request without a reply"),
        ):
            client = Client(proxy.local)
            client.send_head(method, target, Content_Length=size)
            with contextlib.suppress(ConnectionError):
                client.send(bytes(size))
            is_refused(f"a {method} of {size} bytes", client.reply(method), 503, "UNAVAILABLE", "had no memory")
            told = 200, [f"shard1: {state}", "manifests: well"]
            equal(f"what is said behind a {method} of {size} bytes", health(proxy), told)
        check("for a while", becomes("shard1: well", lambda: health(proxy)[1][0]), health(proxy))


@case(*PROXY)
def a_shard_that_says_nothing_is_counted(folder):
    """One that ends in the middle of a body has no status that could be counted: the errors have it."""
    servers.certificate(folder)
    servers.logins(folder, {})

    def vanish(connection):
        connection.recv(65536)
        connection.close()

    with Listener(vanish) as shard, servers.HAProxy(folder, [shard.addr]) as proxy:
        client = Client(proxy.local)
        client.send_head("PATCH", f"{UPLOADS}1", Content_Length=8 * MIB)
        with contextlib.suppress(ConnectionError):
            client.send(bytes(8 * MIB))
        counted = b'haproxy_server_response_errors_total{proxy="shards",server="shard1"} 1\n'
        told = becomes(True, lambda: counted in Client(proxy.status).ask("GET", "/metrics").body)
        check("the error is counted", told)


@case(*PROXY)
def shards_are_named():
    with Site(2) as site:
        equal("two shards", health(site.haproxy), (200, ["shard1: well", "shard2: well", "manifests: well"]))
        site.shards[1].end()
        lost = 503, ["shard1: well", "shard2: takes no connections", "manifests: well"]
        check("one is away", becomes(lost, lambda: health(site.haproxy)), health(site.haproxy))


@case(*PROXY, "redis-server")
def redis_is_named(folder):
    """Redis is away, and then takes no change."""
    with servers.Redis(folder, "secret") as redis:
        settings = {"FRONT_REDIS": redis.address, "FRONT_REDIS_PASSWORD": "secret"}
        with Site(more=TOLD | settings) as site:
            well = 200, ["shard1: well", "redis: well"]
            equal("Redis is well", health(site.haproxy), well)
            redis.end()
            equal("nobody listens", health(site.haproxy), (503, ["shard1: well", "redis: nobody listens"]))
            redis.start()
            check("it is well again", becomes(well, lambda: health(site.haproxy)), health(site.haproxy))
            host, port = servers.place(redis.address)
            words = ["redis-cli", "--no-auth-warning", "-h", host, "-p", str(port), "-a", "secret"]
            told_by([*words, "config", "set", "maxmemory", "1"])
            equal("no manifest is taken", push_image(site.client(), "lib/a"), (IMAGE_PUSHED[0], 503))
            status, lines = health(site.haproxy)
            check("the failure is told", status == 200 and "redis: failed within" in lines[1], lines)
            check("by Redis's words", "OOM" in lines[1], lines)
            check("for a while", becomes(well, lambda: health(site.haproxy)), health(site.haproxy))


@case(*PROXY, "redis-server")
def a_frozen_redis_is_told(folder):
    servers.certificate(folder)
    servers.logins(folder, {})
    with servers.Redis(folder, "secret") as redis:
        settings = {"FRONT_REDIS": redis.address, "FRONT_REDIS_PASSWORD": "secret"}
        with servers.HAProxy(folder, [servers.free_address()], more=settings) as proxy:
            for number, line in (
                (signal.SIGSTOP, "redis: doesn't answer within 10 s"),
                (signal.SIGCONT, "redis: well"),
                (signal.SIGKILL, "redis: nobody listens"),
            ):
                redis.process.send_signal(number)
                check(f"behind signal {number}", becomes(line, lambda: health(proxy)[1][1]))


@case(*PROXY)
def full_manifests_are_told():
    with Site(more=TOLD | {"FRONT_HELD": "0"}) as site:
        equal("there is no room for a manifest", push_image(site.client(), "lib/a"), (IMAGE_PUSHED[0], 503))
        status, lines = health(site.haproxy)
        check("it is told", status == 200 and "FRONT_HELD" in lines[1], lines)


@case(*PROXY)
def the_log_has_the_login():
    """The one that was asked for, and no other: not a wrong one, nor one that nobody looked at."""
    wrong = LOGIN[0], "wrong"
    with Site(users={"bob": "builder"}) as site:
        askers = [site.client(), site.client(("bob", "builder")), site.client(wrong), site.local()]
        askers.append(Client(site.haproxy.local, wrong))
        statuses = [client.ask("GET", f"/v2/{at}").status for at, client in enumerate(askers)]
        equal("who may ask", [status == 401 for status in statuses], [False, False, True, False, False])

        def logins():
            found = re.findall(r" \{(.*?)\} \"GET \S*/v2/(\d) ", text_of(site.haproxy.log))
            return {int(at): login for login, at in found}

        wanted = {0: "alice", 1: "bob", 2: "", 3: "", 4: ""}
        check("who asked", becomes(wanted, logins), (logins(), text_of(site.haproxy.log)))


def numbers_of(text):
    """The numbers in a text of Prometheus', by their names and directories, if each has its kind and its meaning."""
    lines = text.splitlines()
    found = re.findall(r'^(\w+)\{dir="((?:[^"\\]|\\.)*)"\} (\d+)$', text, re.MULTILINE)
    equal("each line is read", len(found), sum(not line.startswith("#") for line in lines))
    for kind in ("HELP", "TYPE"):
        told = {line.split()[2] for line in lines if line.startswith(f"# {kind} ")}
        equal(f"each has its {kind}", {name for name, *_ in found} - told, set())
    return {(name, re.sub(r"\\(.)", r"\1", path)): int(value) for name, path, value in found}


def with_blobd(folder):
    """The variables with which the program is on the path as blobd."""
    os.symlink(OPTIONS.program, os.path.join(folder, "blobd"))
    return {"PATH": folder + os.pathsep + os.environ["PATH"]}


WHOLE = {
    "readable": 1, "blobs": len(FILLED), "stored_bytes": sum(map(len, FILLED)), "uploads_open": 1, "received_bytes": 7,
    "records_unread": 0, "records_missing": 0,
}


@case()
def directories_have_numbers(folder):
    """By `deploy/metrics.py`: of one that is whole, one that is damaged, one that was cut and has an odd name, and
    none."""
    paths = whole, damaged, cut, none = [os.path.join(folder, name) for name in ("whole", "damaged", 'a"\\b', "none")]
    filled(whole)
    shutil.copytree(whole, damaged)
    changed(f"{damaged}/journal", b"two", b"twp")
    shutil.copytree(whole, cut)
    os.truncate(f"{cut}/journal", gates_of(content_of(f"{cut}/journal"))[-1] + SECTOR + 1)
    words, settings = [sys.executable, os.path.join(TOP, "deploy", "metrics.py")], with_blobd(folder)
    ran = finished([*words, *paths], env=settings)
    equal("one can't be read", (ran.returncode, none in ran.stderr), (1, True))
    numbers, disk = numbers_of(ran.stdout), os.statvfs(folder)
    for path in paths[:3]:
        left = numbers.pop(("blobd_disk_left_bytes", path))
        check("the disk", abs(left - disk.f_bavail * disk.f_frsize) < 1 << 30, left)
    lacks_two = {"blobs": 2, "stored_bytes": WHOLE["stored_bytes"] - len(b"two"), "records_unread": 1}
    lacks_the_chunk = {"received_bytes": 0, "records_missing": 1}
    of_all = {whole: WHOLE, damaged: WHOLE | lacks_two, cut: WHOLE | lacks_the_chunk, none: {"readable": 0}}
    wanted = {(f"blobd_{name}", path): value for path, of_one in of_all.items() for name, value in of_one.items()}
    equal("the numbers", numbers, wanted)
    equal("all can be read", finished([*words, whole], env=settings).returncode, 0)


@case()
def the_collector_is_given_numbers(folder):
    """By the line of the unit: the file is replaced whole, and the unit fails if a directory can't be read."""
    unit = text_of(os.path.join(TOP, "deploy", "blobd-metrics.service"))
    (line,) = re.findall(r"^ExecStart=(.*)$", unit, re.MULTILINE)
    places = {"/usr/local/lib/blobd": os.path.join(TOP, "deploy"), "/var/lib/blobd": os.path.join(folder, "blobd-data")}
    for there, here in places.items():
        line = line.replace(there, here)
    words, settings, path = shlex.split(line.replace("$$", "$")), with_blobd(folder), os.path.join(folder, "blobd.prom")
    for number, status in ((1, 1), (1, 0), (2, 0)):
        if status == 0:
            os.makedirs(os.path.join(folder, "blobd-data", str(number)))
            filled(os.path.join(folder, "blobd-data", str(number), "data"))
        ran = finished(words, cwd=folder, env=settings)
        equal(f"how it ends, {number}", ran.returncode, status)
        numbers = numbers_of(text_of(path))
        told = [value for (name, _), value in numbers.items() if name == "blobd_readable"]
        equal(f"the directories, {number}", told, [1] * number if status == 0 else [0])
    equal("nothing is left", sorted(os.listdir(folder)), ["blobd", "blobd-data", "blobd.prom"])


@case(*PROXY)
def alerts_are_about_what_there_is(folder):
    """Each number that an alert of docs/OPERATIONS.md is about, with the labels that it has."""
    page = text_of(os.path.join(TOP, "docs", "OPERATIONS.md"))
    alerts = page.split("### Alerts\n")[1].split("\n## ")[0]
    named = re.findall(r"\b((?:blobd|haproxy)_\w+)(?:\{(.*?)\})?", alerts)
    check("there are alerts", len(named) >= 6, named)
    filled(os.path.join(folder, "data"))
    words = [sys.executable, os.path.join(TOP, "deploy", "metrics.py"), os.path.join(folder, "data")]
    lines = finished(words, env=with_blobd(folder)).stdout.splitlines()
    with Site(2) as site:
        lines += Client(site.haproxy.status).ask("GET", "/metrics").body.decode().splitlines()
    for name, labels in named:
        of_it = [line for line in lines if line.startswith(f"{name}{{")]
        labels = set(labels.split(",")) - {""}
        is_there = any(labels <= set(re.findall(r'\w+="[^"]*"', line)) for line in of_it)
        check(f"{name} with {labels}", is_there, of_it)


if __name__ == "__main__":
    main(__doc__, side_by_side=True)
