#!/usr/bin/env python3
"""Shards behind HAProxy: which repositories each has, how many connections it is given, and what becomes of pushes if
one is lost, full of uploads or out of memory.

    registry_shards.py PROGRAM
"""
import collections
import concurrent.futures
import functools
import http.client
import itertools
import json
import os
import random
import signal
import threading

from harness import TOP
from harness.registry import (
    IMAGE_PUSHED,
    KIB,
    LOGIN,
    PASSWORD,
    PROXY,
    UPLOADED,
    Client,
    Repository,
    Site,
    index_of,
    is_refused,
    manifest_of,
    push_image,
    refusal_of,
    restart,
    site_with_redis,
    skopeo,
    write_image,
)
from harness.running import MIB, Repeated, becomes, finished, page_lines
from harness.suite import OPTIONS, case, check, equal, main
from harness.wire import PATIENCE, is_silent, sha256
import referenced

EMPTY_BLOB = sha256(b"")
# uploads that a shard has room for
TABLE = 1024


@case(*PROXY)
def many_clients_keep_connections():
    """64 clients that keep their connections, each with requests enough. A request that HAProxy forgot in a queue would
    be answered 503 in the end."""
    clients, rounds = 64, 10
    meeting = threading.Barrier(clients)

    def work(number):
        client = site.client()
        content = f"the blob of client {number}".encode() * 500
        client.ask("GET", "/v2/")
        meeting.wait(timeout=PATIENCE)
        right = sum(client.push(f"team{number}/app", content + bytes([turn])) == UPLOADED for turn in range(rounds))
        return right, client.is_open

    with Site() as site, concurrent.futures.ThreadPoolExecutor(clients) as pool:
        done = list(pool.map(work, range(clients)))
    check("64 clients: all is stored", sum(right for right, _ in done) == clients * rounds, done)
    check("64 clients: their connections are kept", all(kept for _, kept in done), done)


def connections_of(site):
    """How many requests wait for the first shard, how many connections it has, and how many it may have, as HAProxy
    counts."""
    waiting, _, connections, _, most = site.counted("shards,shard1")[2:7]
    return int(waiting), int(connections), int(most)


@case(*PROXY)
def each_worker_has_a_connection():
    """A shard with sixteen workers is given sixteen connections at a time. One request more waits in HAProxy until one
    of them ends."""
    workers = 16

    def waiting_are(count):
        wanted = count, workers, workers
        becomes(wanted, lambda: connections_of(site))
        return connections_of(site) == wanted

    with Site(workers=workers) as site:
        places = [site.local().opened("lib/slow") for _ in range(workers)]
        writers = [site.local() for _ in places]
        for writer, place in zip(writers, places):
            writer.send_head("PATCH", place, Content_Length=KIB)
            writer.send(b"drip")
        check("a connection for each worker", waiting_are(0), connections_of(site))
        asker = site.local()
        asker.send_head("GET", "/v2/")
        check("one more waits in HAProxy", waiting_are(1), connections_of(site))
        check("it isn't answered", is_silent(asker.socket, 0.3))
        for writer in writers:
            writer.send(bytes(KIB - 4))
            equal("a slow body is taken", writer.reply("PATCH").status, 202)
            if writer is writers[0]:
                equal("what waited is answered then", asker.reply("GET").status, 200)
            writer.close()


class Uploads(Repeated):
    """Clients that push one blob after another, each to its own repository, until they are told to end. Some have a
    connection for each request."""

    def __init__(self, site, kept, fresh):
        self.told, works = {name: [] for name in kept + fresh}, []
        for name in self.told:
            client = site.client()
            client.is_fresh = name in fresh
            works.append(functools.partial(self.push, client, name, itertools.count(1)))
        super().__init__(works)

    def push(self, client, name, turns):
        """Notes the statuses of an upload, and `cut` if a connection ended without a reply."""
        try:
            self.told[name].append(client.push(name, f"{name} {next(turns)} ".encode() * 5000))
        except (ConnectionError, http.client.RemoteDisconnected):
            client.close()
            self.told[name].append(["cut"])

    def failed(self, name):
        """How each upload to a repository ended that didn't go well."""
        return [statuses[-1] for statuses in self.told[name] if statuses != UPLOADED]


def a_shard_is_lost(site):
    """One of two shards is killed in mid-upload, and started again."""
    staying, lost = site.names_on_both_shards(4)
    client = site.client()

    def mount(name):
        return client.ask("POST", f"/v2/{staying[0]}/blobs/uploads/?mount={sha256(name.encode())}&from={name}").status

    equal("a mount within a shard", mount(staying[1]), 201)
    equal("a mount across shards is an opening", mount(lost[0]), 202)
    for name in (staying[0], lost[0], lost[1]):
        equal(f"an image in {name}", push_image(client, name), IMAGE_PUSHED)
    open_place = client.opened(lost[0])
    uploads = Uploads(site, kept=staying[:2] + lost[:2], fresh=staying[2:] + lost[2:])
    go_well = becomes(True, lambda: all(uploads.told[name] for name in staying + lost))
    check("uploads go well", go_well, uploads.told)
    site.shards[1].end(signal.SIGKILL)
    check("uploads fail", becomes(True, lambda: all(uploads.failed(name) for name in lost)), uploads.told)
    for what, target, word in (
        ("a manifest", "manifests/one", "shard"),
        ("a blob", f"blobs/{EMPTY_BLOB}", "does not answer"),
    ):
        heard = client.ask("GET", f"/v2/{lost[0]}/{target}")
        is_refused(f"{what} whose shard is away", heard, 503, "UNAVAILABLE", word)
    site.shards[1].start()
    go_well = becomes(True, lambda: all(uploads.told[name][-1] == UPLOADED for name in lost))
    check("uploads go well again", go_well, uploads.told)
    uploads.end()
    for name in staying:
        check(f"uploads to {name} went on", uploads.told[name] and not uploads.failed(name), uploads.told[name])
    for name in lost:
        # HAProxy ends a connection whose request was under way without a reply, nearly always a kept one; such a client
        # asks again.
        failed = uploads.failed(name)
        are_right = set(failed) <= {404, 503, "cut"} and failed.count("cut") <= 1
        check(f"those to {name} with 404 or 503 and nothing else", are_right, failed)
    equal("an upload is gone with its shard", client.ask("PATCH", open_place, b"more").status, 404)
    # A part of what a manifest names is pushed again: it still names what has gone.
    equal("a blob is pushed again", client.push(lost[1], b"{}"), UPLOADED)
    for name in lost[:2]:
        equal(f"no manifest of {name} stands", client.ask("GET", f"/v2/{name}/manifests/one").status, 404)
        equal(f"nor a tag of {name}", client.ask("GET", f"/v2/{name}/tags/list").status, 404)
    equal("the other shard's stands", client.ask("GET", f"/v2/{staying[0]}/manifests/one").status, 200)
    equal("an image is pushed again", push_image(client, lost[0]), IMAGE_PUSHED)
    equal("and is there", client.ask("GET", f"/v2/{lost[0]}/manifests/one").status, 200)


def health_tells_of_a_lost_shard(site):
    client = Client(site.haproxy.status)
    site.shards[1].end(signal.SIGKILL)
    is_told = becomes(503, lambda: client.ask("GET", "/health").status)
    check("a lost shard isn't healthy", is_told, client.ask("GET", "/health"))


@case(*PROXY)
def two_shards():
    with Site(2) as site:
        a_shard_is_lost(site)
        health_tells_of_a_lost_shard(site)


@case(*PROXY)
def mounts_fill_no_table():
    """More mounts from the other shard than a shard has room for uploads, each cancelled as skopeo does."""
    with Site(2) as site:
        (one,), (other,) = site.names_on_both_shards(1)
        client, told = site.client(), set()
        target = f"/v2/{one}/blobs/uploads/?mount={sha256(other.encode())}&from={other}"
        for _ in range(TABLE + 76):
            status, fields, _ = client.ask("POST", target)
            told.add((status, client.ask("DELETE", fields["Location"]).status if status == 202 else None))
        equal("mounts across shards are opened and cancelled", told, {(202, 204)})


@case(*PROXY)
def a_full_table_is_told():
    with Site(2) as site:
        (one,), (other,) = site.names_on_both_shards(1)
        client = site.client()
        opened = [client.ask("POST", f"/v2/{one}/blobs/uploads/") for _ in range(TABLE + 1)]
        # one or the other may have been open before
        counts = collections.Counter(reply.status for reply in opened)
        check("a table's size of uploads is opened", counts[202] > TABLE - 10 and set(counts) == {202, 429}, counts)
        is_refused("one more", opened[-1], 429, "TOOMANYREQUESTS", "open uploads")
        equal("it is said when to ask again", opened[-1].fields["Retry-After"], "60")
        equal("the other shard has room", client.ask("POST", f"/v2/{other}/blobs/uploads/").status, 202)


@case(*PROXY, "skopeo")
def an_image_on_both_shards():
    """skopeo asks for mounts from what it pushed before, and cancels the uploads that it gets instead."""
    with Site(2) as site:
        (one,), (other,) = site.names_on_both_shards(1)
        write_image(os.path.join(site.folder, "image"))
        words = ["--dest-cert-dir", os.path.dirname(site.certificates), "--dest-creds", ":".join(LOGIN)]
        for name in (one, other):
            ran = skopeo(site, "copy", *words, "oci:image:one", f"docker://{site.haproxy.tls}/{name}:one")
            check(f"skopeo pushes to {name}", ran[0] == 0, ran)
        with open(site.haproxy.log, encoding="utf-8") as log:
            told = [line for line in log if f'"DELETE /v2/{other}/' in line]
        check("what it cancelled is cancelled", all(" 204 " in line for line in told), told)


def shards_of_all(names, shards):
    """The shard of each name, as the log of a reverse proxy over so many tells it."""
    with Site(shards) as site:
        client = site.local()
        for name in names:
            client.ask("HEAD", f"/v2/{name}/blobs/{EMPTY_BLOB}")

        def lines():
            with open(site.haproxy.log, encoding="utf-8") as log:
                return [line for line in log if line.endswith('HTTP/1.1"\n')]

        becomes(True, lambda: len(lines()) >= len(names))
        return {line.split("/v2/")[1].split("/blobs/")[0]: line.split(" shards/")[1].split(" ")[0] for line in lines()}


@case(*PROXY)
def a_new_shard_moves_few():
    names = [f"team{number % 7}/app{number}" for number in range(300)]
    two, three = shards_of_all(names, 2), shards_of_all(names, 3)
    check("each name has its shard", set(two) == set(three) == set(names), (len(two), len(three)))
    moved = [name for name in names if two[name] != three[name]]
    check("who moves goes to the new shard", all(three[name] == "shard3" for name in moved), moved)
    counts = [list(three.values()).count(f"shard{number}") for number in (1, 2, 3)]
    check("shards have about as much as each other", min(counts) > 60 and max(counts) < 140, counts)


def images_that_move(site, redis, name):
    """An image, an index of it and of another one, and one that an earlier version took: their manifests by tags."""
    kept = Repository(site, name)
    equal(f"an image in {name}", push_image(site.client(), name), IMAGE_PUSHED)
    one = kept.get("one")
    parts = b"{}", random.Random(1).randbytes(MIB)
    kept.push(*parts)
    child = manifest_of(*parts)
    index, older = index_of(one, child), manifest_of(*parts, b"{}")
    others = (sha256(child), child), ("all", index), ("old", older)
    equal("the others", [kept.put(reference, body)[0] for reference, body in others], [201] * 3)
    referenced.Redis(redis.address, PASSWORD).ask("HDEL", f"manifest:{name}@{sha256(older)}", "shard")
    return {"all": index, "old": older, "one": one}


def moved_by_the_page(site, redis, folder):
    """Runs the lines that move blobs to their shard."""
    places = {
        "/var/tmp": folder,
        "deploy/": os.path.join(TOP, "deploy", ""),
        "127.0.0.1:6380": redis.address,
        "127.0.0.1:5081": site.haproxy.local,
        "127.0.0.1:5001": site.addresses[0],
    }
    os.symlink(OPTIONS.program, os.path.join(folder, "blobd"))
    (lines,) = page_lines("registry_shards", places)
    settings = {"PATH": folder + os.pathsep + os.environ["PATH"], "FRONT_REDIS_PASSWORD": PASSWORD}
    ran = finished(["sh", "-u", "-c", lines], env=settings)
    equal("the lines of the page", (ran.returncode, ran.stderr), (0, ""))


def names_listed(site):
    return json.loads(site.client().ask("GET", "/v2/_catalog").body)["repositories"]


@case(*PROXY, "redis-server", "curl")
def a_new_shard_loses_no_tag(folder):
    """Manifests of a repository that moves to a new shard are answered 404, and stay, however often they are asked for.
    They are back once their blobs are. What is lost then with the new shard is dropped."""
    with site_with_redis(folder, 2) as (redis, site):
        (staying,), (moving,) = site.names_on_both_shards(1)
        second = site.haproxy.settings.pop("BLOBD_2")
        restart(site.haproxy)
        tags = images_that_move(site, redis, moving)
        equal("an image that stays", push_image(site.client(), staying), IMAGE_PUSHED)
        restart(site.haproxy, BLOBD_2=second)
        client, home = site.client(), f"/v2/{moving}"
        for turn in range(2):
            for reference in (*tags, sha256(tags["all"])):
                heard = client.ask("GET", f"{home}/manifests/{reference}")
                is_refused(f"{reference}, turn {turn}", heard, 404, "MANIFEST_UNKNOWN", "has moved to another shard")
            heard = client.ask("GET", f"{home}/tags/list")
            is_refused(f"its tags, turn {turn}", heard, 404, "NAME_UNKNOWN", "has moved to another shard")
            equal(f"the repositories, turn {turn}", names_listed(site), [staying])
        equal("what stays", Repository(site, staying).tags()[0], ["one"])
        moved = Repository(site, moving)
        moved.push(b"new")
        equal("one is pushed to the new shard", moved.put("new", manifest_of(b"new"))[0], 201)
        equal("its tag alone is there", moved.tags()[0], ["new"])
        listed = [names_listed(site) for _ in range(10)]
        equal("and the repository, whichever manifest is looked at", listed, [sorted([staying, moving])] * 10)
        moved_by_the_page(site, redis, folder)
        equal("its tags are back", moved.tags()[0], sorted([*tags, "new"]))
        equal("with their manifests", {tag: moved.get(tag) for tag in tags}, tags)
        _, _, message = refusal_of(client.ask("GET", f"{home}/manifests/none"))
        equal("one that was never there", message, "the repository has no such manifest")
        equal("and the repository", names_listed(site), sorted([staying, moving]))
        restart(site.shards[1])
        heard = client.ask("GET", f"{home}/manifests/all")
        is_refused("lost with the new shard", heard, 404, "MANIFEST_UNKNOWN", "was lost with its shard")
        equal("what was lost has no tags", moved.tags()[0], 404)
        left = referenced.Redis(redis.address, PASSWORD).ask("EXISTS", f"tags:{moving}")
        equal("and is dropped", left, 0)


@case(*PROXY)
def memory_ends():
    """A shard with little memory refuses what it has no room for, and keeps what it has."""
    with Site(memory=320 * MIB) as site:
        stored, refused = [], []
        client = site.client()
        client.is_fresh = True
        for number in range(10):
            content = random.Random(number).randbytes(40 * MIB)
            pushed = client.push("lib/much", content)
            if pushed == UPLOADED:
                stored.append(sha256(content))
            else:
                refused.append(pushed[-1])
        check("some of it is stored, some isn't", len(stored) >= 2 and len(refused) >= 2, (stored, refused))
        equal("what has no room is answered 503", set(refused), {503})
        heard = [site.client().ask("GET", f"/v2/lib/much/blobs/{digest}") for digest in stored]
        stay = all(reply.status == 200 and sha256(reply.body) == digest for reply, digest in zip(heard, stored))
        check("what is stored stays", stay)
        equal("and small blobs are taken", site.client().push("lib/much", b"small"), UPLOADED)


if __name__ == "__main__":
    main(__doc__)
