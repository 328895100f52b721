#!/usr/bin/env python3
"""Texts that a client chooses so that they collide in Lua's hash: however many come, in whatever place, no other
request waits for long.

    registry_collisions.py PROGRAM

Lua 5.3 hashes all bytes of a text of up to 31 bytes, by a secret, and of a longer one every second, every third and so
on. Redis's Lua 5.1 hashes all bytes, without a secret.
"""
import itertools
import json
import os
import random
import time

from harness.registry import PASSWORD, PROXY, Client, Repository, Site, descriptor, manifest_of, site_with_redis
from harness.running import MIB, Repeated, finished
from harness.suite import case, check, equal, main
from harness.wire import sha256
import referenced
import servers

# seconds that a request may wait for another one
LONGEST_WAIT = 0.2
# So often it is tried: the machine may halt for a moment.
TRIES = 3
CHARACTERS = "0123456789abcdef"
CONFIG = b"{}"
EMPTY = '{"schemaVersion":2,"config":%s,"layers":[%s]%s}'


def colliding(length, begins="", ends="", seed=0):
    """Texts of so many bytes that Lua can't tell apart by those that its hash sees."""
    step = (length >> 5) + 1
    seen = set(range(length - 1, -1, -step))
    free = [at for at in range(len(begins), length - len(ends)) if at not in seen]
    text = list(begins.ljust(length - len(ends), "a") + ends)
    random.Random(seed).shuffle(free)
    for letters in itertools.product(CHARACTERS, repeat=min(len(free), 6)):
        for at, letter in zip(free, letters):
            text[at] = letter
        yield "".join(text)


def some(count, *words, **more):
    return list(itertools.islice(colliding(*words, **more), count))


def hashed(state, text):
    """The state of Redis's hash after these bytes, from another one on."""
    for byte in text:
        state = (state ^ ((state << 5) + (state >> 2) + byte)) & 0xFFFFFFFF
    return state


def colliding_in_redis(count, length):
    """Texts of so many bytes that have one hash there. It is computed from the end of a text. So they are made of pairs
    of pieces that lead from one state to the same, the last first."""
    chance, state, pairs = random.Random(length), length, []
    while 2 ** len(pairs) < count:
        found, piece = {}, b""
        while found.setdefault(hashed(state, piece), piece) == piece:
            piece = bytes(chance.choices(CHARACTERS.encode(), k=7))
        state = hashed(state, piece)
        pairs.append((piece, found[state]))
    texts = (b"".join(pieces).ljust(length, b"a")[::-1].decode() for pieces in itertools.product(*pairs))
    return list(itertools.islice(texts, count))


def others(count, length):
    """As many texts that don't collide."""
    chance = random.Random(length)
    return [chance.randbytes(length).hex()[:length] for _ in range(count)]


class Waits(Repeated):
    """A client that asks all the time for what takes nothing, and notes how long it waits at most."""

    def __init__(self, site):
        self.client, self.longest, self.told = Client(site.haproxy.local), 0, set()
        super().__init__([self.ask])

    def ask(self):
        begun = time.monotonic()
        self.told.add(self.client.ask("GET", "/v2/").status)
        self.longest = max(self.longest, time.monotonic() - begun)
        self.ending.wait(0.01)

    def __enter__(self):
        return self

    def __exit__(self, *_):
        self.end()
        self.client.close()


def are_short(site, waits):
    """Whether nobody waited for long. A busy machine has a client wait beside nothing, too: that is added."""
    if waits.longest <= LONGEST_WAIT:
        return True
    with Waits(site) as alone:
        time.sleep(2)
    return waits.longest <= LONGEST_WAIT + 2 * alone.longest


def nobody_waits(site, name, work):
    """Checks that no other request waits for long beside some work, which is done up to three times."""
    for _ in range(TRIES):
        with Waits(site) as waits:
            work()
            time.sleep(0.05)
        if is_well := are_short(site, waits):
            break
    equal(f"{name}: what others are told", waits.told, {200})
    check(f"{name}: nobody waits", is_well, waits.longest)
    check(f"{name}: HAProxy goes on", not site.haproxy.ended(), site.haproxy.how_it_is())


def members(texts):
    return ",".join(f'"{text}":1' for text in texts)


def manifests_of(chance):
    """Manifests whose texts collide, each with what it is called and the statuses that may come."""
    config = json.dumps(descriptor(CONFIG))
    # nearly as many as there may be, in as many bytes as there may be
    for length in 40, chance.randrange(32, 75), chance.randrange(41, 75):
        texts = some(49_000, length, seed=length)
        listed = ",".join(f'"{text}"' for text in texts)
        yield f"names of {length} bytes", EMPTY % (config, "", "," + members(texts)), {201}
        yield f"values of {length} bytes", EMPTY % (config, "", f',"x":[{listed}]'), {201}
    texts = some(12_000, chance.randrange(32, 200))
    yield "names of members deep in it", EMPTY % (config, "", ',"x":[{"y":{%s}}]' % members(texts)), {201}
    yield "names in a descriptor", EMPTY % (config[:-1] + "," + members(texts) + "}", "", ""), {201}
    for begins, length in ("sha256:", 71), ("sha512:", 135):
        texts = some(20_000, length, begins)
        layers = ",".join('{"digest":"%s"}' % text for text in texts)
        yield f"digests of {begins}", EMPTY % (config, layers, ""), {400}
        yield f"1,000 digests of {begins}", EMPTY % (config, ",".join(layers.split(",")[:999]), ""), {404}
        named = '{"schemaVersion":2,"manifests":[%s]}' % ",".join(layers.split(",")[:1000])
        yield f"1,000 manifests of {begins}", named, {404}
        urls = layers.replace("}", ',"urls":["x"]}')
        yield f"digests of {begins} elsewhere", EMPTY % (config, urls, ""), {201, 413}
    layers = ",".join('{"digest":"%s"}' % text for text in some(20_000, 40))
    yield "digests that are none", EMPTY % (config, layers, ""), {400}


def put_all(site, repository):
    for name, text, statuses in manifests_of(random.Random(1)):
        body = text.encode()
        check(f"a manifest may have so many bytes: {name}", len(body) <= 4 * MIB, len(body))
        told = []
        nobody_waits(site, name, lambda: told.append(repository.put("texts", body)))
        check(f"what a manifest is told: {name}", {status for status, _ in told} <= statuses, told)


def fields_that_collide(site, repository):
    """Fields, and a media type, of requests for manifests."""
    names, values = some(90, 40, "x-"), itertools.islice(colliding(39), 4_500)

    def ask():
        client = site.client()
        for group in itertools.zip_longest(*[values] * 90):
            client.fields = [*site.client().fields, *zip(names, group)]
            equal("fields", client.ask("GET", f"{repository.home}/tags/list").status, 200)

    nobody_waits(site, "fields", ask)
    kinds = some(50, 40, "application/vnd.", "+json")
    manifest = manifest_of(CONFIG)
    nobody_waits(site, "media types", lambda: equal(
        "media types", {repository.put("kind", manifest, kind)[0] for kind in kinds}, {201}
    ))


def parts_that_collide(site, repository):
    """A body that comes in pieces of 36 bytes, which HAProxy hands on as they come."""
    pieces = some(1_500, 36)
    text = (EMPTY % (json.dumps(descriptor(CONFIG)), "", ',"x":"')).removesuffix("}") + "a" * 16_384

    def put():
        with site.client() as client:
            client.send_head("PUT", f"{repository.home}/manifests/parts", Transfer_Encoding="chunked")
            for piece in (text, *pieces, '"}'):
                client.send(b"%x\r\n%s\r\n" % (len(piece), piece.encode()))
            client.send(b"0\r\n\r\n")
            equal("a body in pieces", client.reply("PUT").status, 201)

    nobody_waits(site, "parts of a body", put)


def names_and_tags_that_collide(site, count):
    """Repositories that aren't there are asked for, and a manifest is put under many tags, listed and deleted."""
    client, repository = site.local(), Repository(site, "lib/tags")
    repository.client = client
    repository.push(CONFIG)
    for length in 36, 60:
        names = some(count, length, "lib/", seed=length)
        asked = {}

        def ask(target):
            for name in names:
                asked[client.ask("GET", f"/v2/{name}/{target}").status] = target

        nobody_waits(site, f"repositories of {length} bytes", lambda: ask("tags/list"))
        nobody_waits(site, f"references of {length} bytes", lambda: ask("manifests/one"))
        equal("what is told of them", set(asked), {404})
        tags, manifest = some(count // 2, length), manifest_of(CONFIG)

        def tag():
            equal("tags", {repository.put(tag, manifest)[0] for tag in tags}, {201})
            equal("their list", repository.tags()[0], sorted(tags))
            equal("a manifest goes", repository.delete(sha256(manifest)), 202)

        nobody_waits(site, f"tags of {length} bytes", tag)


@case(*PROXY)
def texts_collide_in_memory():
    with Site() as site:
        repository = Repository(site, "lib/texts")
        repository.push(CONFIG)
        put_all(site, repository)
        fields_that_collide(site, repository)
        parts_that_collide(site, repository)
        names_and_tags_that_collide(site, 200)


def seconds_for_tags_to_go(redis, site, tags):
    """How long it takes to delete a manifest that has these tags. They are written as manifests_in_redis.lua does,
    since they are more than a test can put."""
    repository, manifest = Repository(site, "lib/texts"), manifest_of(CONFIG)
    kept = referenced.Redis(redis.address, PASSWORD)
    equal("a manifest", repository.put("one", manifest)[0], 201)
    for first in range(0, len(tags), 1000):
        part = tags[first : first + 1000]
        kept.ask("SADD", f"tagged:lib/texts@{sha256(manifest)}", *part)
        kept.ask("ZADD", "tags:lib/texts", *(word for tag in part for word in ("0", tag)))
        kept.ask("HSET", "digest:lib/texts", *(word for tag in part for word in (tag, sha256(manifest))))
    equal("a page of them", len(repository.tags("?n=20")[0]), 20)
    begun = time.monotonic()
    equal("it goes", repository.delete(sha256(manifest)), 202)
    took = time.monotonic() - begun
    equal("with all of them", (repository.tags()[0], kept.ask("HLEN", "digest:lib/texts")), (404, 0))
    return took


@case(*PROXY, "redis-server")
def texts_collide_in_redis(folder):
    with site_with_redis(folder) as (redis, site):
        names_and_tags_that_collide(site, 60)
        Repository(site, "lib/texts").push(CONFIG)
        tags = colliding_in_redis(12_000, 128)
        equal("they collide", len({hashed(128, tag.encode()[::-1]) for tag in tags[::100]}), 1)
        for _ in range(TRIES):
            with Waits(site) as waits:
                took = seconds_for_tags_to_go(redis, site, tags)
            usual = seconds_for_tags_to_go(redis, site, others(12_000, 128))
            if is_well := took <= 2 * usual + LONGEST_WAIT and are_short(site, waits):
                break
        check("many tags go as soon as others", is_well, (took, usual, waits.longest))


# Calls what keeps manifests in memory, without a server: puts and drops by the thousand. It prints the seconds that the
# processor took.
BULK = """
local key_of = dofile(FOLDER .. "keys.lua")
local lines = {}
for line in io.lines(LINES) do lines[#lines + 1] = line end
local function record(manifests)
  return {
    type = "application/vnd.x+json", stamp = "s", size = 600, below = 0, body = "", length = 0, blobs = {},
    manifests = manifests,
  }
end
local function new_store() return dofile(FOLDER .. "manifests_in_memory.lua")(1 << 40, key_of) end
local function timed(name, work)
  local begun = os.clock()
  work()
  print("took", name, os.clock() - begun)
end
local store = new_store()
local function each(work)
  for at, line in ipairs(lines) do work(line, at) end
end
timed("repositories", function() each(function(line) store.put(line, "d", record({})) end) end)
timed("repositories that go", function() each(function(line) store.drop(line, "d") end) end)
timed("digests", function() each(function(line) store.put("a", line, record({})) end) end)
timed("digests asked for", function() each(function(line) store.below("a", {line}) end) end)
local bottom = lines[1]
timed("indexes", function() each(function(line, at) store.put("a", line .. at, record({bottom})) end) end)
timed("a manifest of all", function() store.drop("a", bottom) end)
timed("tags", function() each(function(line) store.put("b", "d", record({}), line) end) end)
timed("tags asked for", function() each(function(line) store.find("b", line, false) end) end)
timed("tags that go at once", function() store.drop("b", "d") end)
timed("keys", function()
  local keys = {}
  each(function(line) keys[key_of(line)] = true end)
end)
"""


def times_in_bulk(folder, texts):
    """The seconds that each kind of work takes with these texts."""
    path, lines = os.path.join(folder, "bulk.lua"), os.path.join(folder, "lines")
    with open(lines, "w", encoding="ascii") as file:
        file.write("".join(text + "\n" for text in texts))
    with open(path, "w", encoding="ascii") as file:
        file.write(f"local FOLDER, LINES = '{servers.HERE}/', '{lines}'\n{BULK}")
    with open(os.path.join(folder, "bulk.cfg"), "w", encoding="ascii") as file:
        file.write(f"global\n    lua-load {path}\n")
    ran = finished([servers.program("haproxy"), "-c", "-f", os.path.join(folder, "bulk.cfg")])
    told = [line.split("\t") for line in ran.stdout.splitlines() if line.startswith("took\t")]
    check("all kinds of work are timed", len(told) == 10, ran)
    return {name: float(seconds) for _, name, seconds in told}


@case(*PROXY)
def texts_collide_in_bulk(folder):
    """What is kept in memory takes no longer with texts that collide than with others."""
    count = 4_000
    for length in 40, 71:
        for _ in range(TRIES):
            usual, times = times_in_bulk(folder, others(count, length)), times_in_bulk(folder, some(count, length))
            slow = {name: (took, usual[name]) for name, took in times.items() if took > 3 * usual[name] + 0.05}
            if not slow:
                break
        check(f"texts of {length} bytes", not slow, slow)
        one = {name: times[name] for name in ("a manifest of all", "tags that go at once")}
        check(f"one request of {length} bytes", max(one.values()) <= LONGEST_WAIT, one)


if __name__ == "__main__":
    main(__doc__)
