#!/usr/bin/env python3
"""The room that a registry takes: what no tag reaches is found and deleted, and a tag that is pushed each day takes the
room of one image.

    registry_room.py PROGRAM
"""
import json
import os
import random

from harness import TOP, shims
from harness.data import bodies
from harness.registry import (
    PASSWORD,
    PROXY,
    Repository,
    descriptor,
    index_of,
    manifest_of,
    referenced_by,
    restart,
    site_with_redis,
)
from harness.running import MIB, finished, page_lines, run
from harness.suite import OPTIONS, case, check, equal, main
from harness.wire import sha256
import referenced

HOUR, DAY = 3_600, 86_400


def signature_of(manifest):
    """What refers to a manifest as its subject."""
    return manifest_of(b"{}")[:-1] + b',"subject":%b}' % json.dumps(descriptor(manifest)).encode()


def lines_of(name, manifests):
    """The lines that name manifests, or blobs."""
    return sorted(f"{name} {sha256(one)}" for one in manifests)


class Kept(Repository):
    """A repository whose manifests are in Redis, where a test makes them older than they are."""

    def __init__(self, redis, site, name):
        super().__init__(site, name)
        self.redis, self.store = redis, referenced.Redis(redis.address, PASSWORD)

    def put_all(self, *manifests):
        """Puts manifests without a tag."""
        equal("manifests", {self.put(sha256(one), one)[0] for one in manifests}, {201})

    def key(self, kind, manifest):
        return f"{kind}:{self.name}@{sha256(manifest)}"

    def age(self, manifest, seconds):
        self.store.ask("HINCRBY", self.key("manifest", manifest), "used", str(-seconds))

    def untagged(self, *words):
        status, lines, told = referenced_by(self.redis, "--untagged", *words)
        equal("a run", (status, told), (0, []))
        return sorted(lines)

    def held(self):
        """The bytes that all manifests and tags are said to take, and those that they take."""
        sizes = [
            int(self.store.ask("HGET", f"manifest:{self.name}@{digest.decode()}", "size"))
            for digest in self.store.ask("SMEMBERS", f"manifests:{self.name}")
        ]
        tags = self.store.ask("ZRANGE", f"tags:{self.name}", "0", "-1")
        return int(self.store.ask("GET", "held")), sum(sizes) + sum(len(tag) + 512 for tag in tags)


LAYERS = [b"layer %d" % number for number in range(12)]
MANIFESTS = [manifest_of(b"{}", layer) for layer in LAYERS]


@case(*PROXY, "redis-server")
def what_no_tag_reaches(folder):
    """It is listed and deleted: not what a tagged index names, directly or not, nor what is young."""
    tagged, overwritten, untagged, left, young, below, deep, shared, named, moved = MANIFESTS[:10]
    inner, other = index_of(deep), index_of(shared, named)
    outer, upper = index_of(below, inner, shared), index_of(other)
    signature = signature_of(left)
    with site_with_redis(folder) as (redis, site):
        kept = Kept(redis, site, "lib/reach")
        kept.push(b"{}", *LAYERS)
        kept.put_all(left, young, below, deep, shared, named, inner, other, upper)
        tags = ("one", overwritten), ("one", moved), ("two", untagged), ("all", outer), ("sig", signature)
        for tag, manifest in tags:
            equal(f"the tag {tag}", kept.put(tag, manifest)[0], 201)
        everything = [moved, overwritten, untagged, left, young, below, deep, shared, named]
        everything += [inner, other, outer, upper, signature]
        for one in everything:
            kept.age(one, DAY + HOUR)
        kept.age(young, -2 * HOUR)
        equal("a tag is deleted, and another one moved", (kept.delete("two"), kept.put("one", tagged)[0]), (202, 201))
        everything.append(tagged)
        gone = [overwritten, left, named, other, upper]
        equal("what no tag reaches", kept.untagged(), lines_of(kept.name, gone))
        none_is_young = lines_of(kept.name, [*gone, untagged, young, moved])
        equal("none is young", kept.untagged("--grace", "0"), none_is_young)
        equal("all are young", kept.untagged("--grace", str(2 * DAY)), [])
        blobs = lines_of(kept.name, [b"{}", *LAYERS[:10]])
        indexed = lines_of(kept.name, [inner, below, deep, shared, named, other, left])
        equal("what all refer to", referenced_by(redis), (0, sorted(blobs + indexed), []))
        reached = [b"{}", *(LAYERS[at] for at in (0, 2, 4, 5, 6, 7, 9)), inner, below, deep, shared, left]
        equal("what those that stay do", referenced_by(redis, "--tagged"), (0, lines_of(kept.name, reached), []))
        equal("they are deleted", kept.untagged("--delete"), lines_of(kept.name, gone))
        found = {one: kept.get(sha256(one)) for one in everything}
        equal("what is there", found, {one: 404 if one in gone else one for one in everything})
        equal("all room is counted", *kept.held())
        equal("no more is found", (kept.untagged(), kept.tags()[0]), ([], ["all", "one", "sig"]))


@case(*PROXY, "redis-server")
def what_is_used_meanwhile_stays(folder):
    """What is put again, or named by an index, after it was found isn't deleted. An index that can't be read keeps what
    it names."""
    again, named, damaged, child, gone = MANIFESTS[:5]
    index, spoiled = index_of(named), index_of(child)
    with site_with_redis(folder) as (redis, site):
        kept = Kept(redis, site, "lib/meanwhile")
        kept.push(b"{}", *LAYERS)
        kept.put_all(again, named, damaged, child, gone)
        equal("a tagged index", kept.put("spoiled", spoiled)[0], 201)
        kept.store.ask("SET", kept.key("body", spoiled), spoiled + b"}")
        for one in (again, named, damaged, child, gone):
            kept.age(one, 2 * DAY)
        # one that an earlier version put has no time
        kept.store.ask("HDEL", kept.key("manifest", gone), "used")
        found = list(referenced.untagged(kept.store, DAY))
        wanted = lines_of(kept.name, [again, named, damaged, gone])
        equal("what is found", sorted(f"{name} {digest}" for name, digest, _ in found), wanted)
        equal("one has a tag", kept.put("again", again)[0], 201)
        equal("an index names one", kept.put("index", index)[0], 201)
        kept.store.ask("SET", kept.key("body", damaged), b"spoiled")
        deleted = [digest for _, digest, _ in referenced.delete(kept.store, found)]
        equal("what is deleted", sorted(deleted), sorted(map(sha256, (damaged, gone))))
        equal("what stays", [kept.get("again"), kept.get("index"), kept.get(sha256(child))], [again, index, child])
        equal("all room is counted", *kept.held())


@case(*PROXY, "redis-server")
def words_that_are_refused(folder):
    with site_with_redis(folder) as (redis, _):
        for words in (["--delete"], ["--tagged", "--untagged"], ["--tagged", "--delete"], ["--grace", "1d"]):
            status, lines, told = referenced_by(redis, *words)
            check(f"the words {words}", (status, lines) == (2, []) and "referenced.py: error: " in told[-1], told)
        for words in ([], ["--tagged"], ["--untagged"], ["--untagged", "--delete"]):
            equal(f"no Redis: {words}", referenced_by(redis, *words, password="wrong")[:2], (1, []))


def image_of(day):
    """What a CI pushes on a day: a layer that stays, one of the day, and a configuration."""
    return [b'{"day":%d}' % day, random.Random(0).randbytes(MIB), random.Random(day).randbytes(MIB)]


class Registry:
    """A registry with a data directory and a Redis, whose clocks are set, and the lines of the page that make room."""

    def __init__(self, folder):
        self.folder, self.data = folder, os.path.join(folder, "data")
        self.clock = os.path.join(folder, "clock")
        self.settings = shims.loaded(folder, "ahead", CLOCK_AHEAD=self.clock)
        shims.pass_time(self.clock, 0)
        os.symlink(OPTIONS.program, os.path.join(folder, "blobd"))

    def pass_time(self, day, hour):
        shims.pass_time(self.clock, day * DAY + hour * HOUR)

    def night(self, redis, site):
        """Runs the lines, in which systemd's are done here."""
        shard = site.shards[0]
        units = {
            "systemctl stop blobd@5001": shard.end,
            "systemctl start blobd@5001": shard.start,
            "systemctl reload haproxy": site.haproxy.reload,
        }
        places = {
            "/var/lib/blobd/5001/data": self.data,
            "/run/": f"{self.folder}/",
            "deploy/": os.path.join(TOP, "deploy", ""),
            "127.0.0.1:6380": redis.address,
        }
        (lines,) = page_lines("registry_room", places)
        path = self.folder + os.pathsep + os.environ["PATH"]
        settings = self.settings | {"PATH": path, "FRONT_REDIS_PASSWORD": PASSWORD}
        for line in lines.splitlines():
            if line in units:
                units.pop(line)()
            else:
                ran = finished(["sh", "-eu", "-c", line], env=settings)
                check(f"as the page has it: {line}", ran.returncode == 0, ran)
        equal("all units are told", units, {})


def counts_of(data):
    return json.loads(run("status", "--json", data)[0])


@case(*PROXY, "redis-server", "cc")
def a_week_of_one_tag(folder):
    """A CI that pushes another image under the same tag each day, and the nightly lines: at no time are there more than
    three images, and in the end there is the room that one takes."""
    registry = Registry(folder)
    with site_with_redis(folder, clock=registry.settings) as (redis, site):
        restart(site.shards[0], BLOBD_DATA=registry.data, **registry.settings)
        kept = Kept(redis, site, "lib/nightly")
        # a reload ends kept connections
        kept.client.is_fresh = True
        for day in range(7):
            registry.pass_time(day, 12)
            parts = image_of(day)
            kept.push(*parts)
            manifest = manifest_of(*parts)
            equal("its manifest", kept.put("latest", manifest)[0], 201)
            registry.pass_time(day, 27)
            registry.night(redis, site)
            stored = counts_of(registry.data)["stored"]
            check(f"the room of day {day}", stored < 4 * MIB + 10_000, stored)
        for day in (8, 9):
            registry.pass_time(day, 3)
            registry.night(redis, site)
        wanted = {"blobs": 3, "stored": sum(map(len, parts)), "uploads": 0, "received": 0}
        equal("what is stored", counts_of(registry.data), wanted)
        equal("what is on the disk", sorted(map(len, bodies(registry.data).values())), [MIB, MIB])
        equal("its manifests", kept.store.ask("SMEMBERS", f"manifests:{kept.name}"), [sha256(manifest).encode()])
        equal("all room is counted", *kept.held())
        equal("the tag is there", kept.get("latest"), manifest)
        found = [sha256(kept.client.ask("GET", f"/v2/{kept.name}/blobs/{sha256(part)}").body) for part in parts]
        equal("and what it names", found, list(map(sha256, parts)))


if __name__ == "__main__":
    main(__doc__, side_by_side=True)
