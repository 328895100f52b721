#!/usr/bin/env python3
"""Manifests and tags of the registry: which are taken, what they may cost, and how they are kept, in HAProxy's memory
and in Redis, also over reloads and kills.

    registry_manifests.py PROGRAM
"""
import concurrent.futures
import contextlib
import functools
import http.client
import itertools
import json
import random
import re
import signal

from harness.registry import (
    KIB,
    PASSWORD,
    PROXY,
    Repository,
    Site,
    descriptor,
    index_of,
    is_refused,
    manifest_of,
    referenced_by,
    refusal_of,
    restart,
    site_with_redis,
)
from harness.running import MIB, Repeated, becomes
from harness.suite import case, check, equal, main
from harness.wire import is_silent, sha256, sha512
import images
import referenced

INDEX_TYPE = "application/vnd.oci.image.index.v1+json"
INVALID, UNKNOWN = (400, "MANIFEST_INVALID"), (404, "MANIFEST_BLOB_UNKNOWN")


def annotated(manifest, text):
    """A manifest with some more text."""
    return manifest[:-1] + b',"annotations":{"a":"%b"}}' % text


def manifests_are_kept(site):
    kept = Repository(site, "lib/kept")
    config, first, second = b"{}", b"first layer", b"second layer"
    manifest, other = manifest_of(config, first, second), manifest_of(config, first)
    digest = sha256(manifest)
    kept.push(config, first)
    equal("a manifest before its last blob", kept.put("one", manifest), UNKNOWN)
    equal("it isn't there", kept.get("one"), 404)
    kept.push(second)
    equal("a manifest by a tag", kept.put("one", manifest), (201, digest))
    for reference in ("one", digest):
        status, fields, body = kept.client.ask("GET", f"{kept.home}/manifests/{reference}")
        told = fields["Content-Type"], fields["Docker-Content-Digest"]
        equal(f"a manifest by {reference}", (status, body, told), (200, manifest, (images.MANIFEST, digest)))
        status, fields, body = kept.client.ask("HEAD", f"{kept.home}/manifests/{reference}")
        equal(f"its length by {reference}", (status, fields["Content-Length"], body), (200, str(len(manifest)), b""))
    equal("another repository has it not", Repository(site, "lib/others").get(digest), 404)
    equal("by sha512", kept.put(sha512(manifest), manifest), (201, sha512(manifest)))
    equal("and read so", kept.get(sha512(manifest)), manifest)
    for wrong in (sha256(other), sha512(other)):
        equal("under another digest", kept.put(wrong, manifest), (400, "DIGEST_INVALID"))
    large = annotated(manifest, b"x" * (4 * MIB - len(annotated(manifest, b""))))
    equal("a manifest of 4 MiB", (len(large), kept.put("large", large)), (4 * MIB, (201, sha256(large))))
    equal("it comes back", kept.get("large"), large)
    equal("another method", kept.client.ask("POST", f"{kept.home}/manifests/one").status, 405)


def only_manifests_are_taken(site):
    kept = Repository(site, "lib/odd")
    kept.push(b"{}", b"layer")
    manifest = manifest_of(b"{}", b"layer")
    for body in (
        b"",
        b"[]",
        b"null",
        b"no JSON",
        b'{"schemaVersion":1}',
        b'{"schemaVersion":2}',
        b'{"schemaVersion":2,"config":7,"layers":[]}',
        b'{"schemaVersion":2,"config":{"digest":"sha256:12"},"layers":[]}',
        b'{"schemaVersion":2,"manifests":[{"digest":7}]}',
        manifest.replace(b'"layers"', b'"laiers"'),
        index_of(*(b"%d" % number for number in range(1001))),
    ):
        equal(f"what is no manifest: {body[:60]}", kept.put("odd", body), INVALID)
    hidden = manifest_of(b"{}", b"nowhere").replace(b'"digest"', b'"\\u0064igest"')
    equal("a blob that is named with an escape", kept.put("odd", hidden), INVALID)
    foreign = json.loads(manifest)
    foreign["layers"].append(descriptor(b"elsewhere") | {"urls": ["https://example.org/layer"]})
    equal("a layer that is elsewhere", kept.put("foreign", json.dumps(foreign).encode())[0], 201)
    for name in ("a" * 256, "Upper", "lib//x"):
        heard = kept.client.ask("PUT", f"/v2/{name}/manifests/one", manifest)
        equal(f"the name {name[:8]}", heard.status, 404)
    for reference in ("t" * 129, "sha256:12", sha256(manifest).upper()):
        heard = kept.client.ask("PUT", f"{kept.home}/manifests/{reference}", manifest)
        equal(f"the reference {reference[:12]}", heard.status, 400)


def tags_and_indexes_are_kept(site):
    kept = Repository(site, "lib/tags")
    manifest, other = manifest_of(b"{}", b"first", b"second"), manifest_of(b"{}", b"first")
    equal("no tags yet", kept.tags()[0], 404)
    kept.push(b"{}", b"first", b"second")
    equal("two manifests", [kept.put(tag, manifest)[0] for tag in ("one", "three")], [201, 201])
    index = index_of(manifest, other, mediaType=INDEX_TYPE)
    equal("an index before its manifests", kept.put("all", index, INDEX_TYPE), UNKNOWN)
    equal("the other manifest", kept.put("two.0_-", other), (201, sha256(other)))
    equal("an index", (kept.put("all", index, INDEX_TYPE), kept.get("all")), ((201, sha256(index)), index))
    equal("tags in order", kept.tags(), (["all", "one", "three", "two.0_-"], ""))
    equal("two tags", kept.tags("?n=2"), (["all", "one"], f'<{kept.home}/tags/list?n=2&last=one>; rel="next"'))
    equal("the rest", kept.tags("?n=2&last=one"), (["three", "two.0_-"], ""))
    equal("no tags asked for", kept.tags("?n=0")[0], [])
    equal("a tag is moved", (kept.put("one", other), kept.get("one")), ((201, sha256(other)), other))
    equal("a tag is taken away", [kept.delete("one") for _ in range(2)], [202, 404])
    equal("its manifest stays", kept.get(sha256(other)), other)
    equal("a manifest is taken away", [kept.delete(sha256(other)) for _ in range(2)], [202, 404])
    equal("its tag goes with it, and what names it", (kept.tags()[0], kept.get("all")), (["three"], 404))
    equal("what names others stays", kept.get("three"), manifest)
    equal("the last manifest is taken away", kept.delete(sha256(manifest)), 202)
    equal("and the repository is as before its first", kept.tags()[0], 404)
    equal("until one is put again", (kept.put("four", manifest)[0], kept.tags()[0]), (201, ["four"]))


def lists_have_pages(site):
    """Tags and repositories, more of them than one answer of Redis has."""
    kept = Repository(site, "lib/pages")
    kept.push(b"{}")
    tags = [f"t{number:03}" for number in range(60)]
    equal("tags", {kept.put(tag, manifest_of(b"{}"))[0] for tag in tags}, {201})
    equal("all of them", kept.tags()[0], tags)
    rest = f'<{kept.home}/tags/list?n=30&last=t035>; rel="next"'
    equal("a page of them", kept.tags("?n=30&last=t005"), (tags[6:36], rest))
    equal("the last page", kept.tags("?n=30&last=t029"), (tags[30:], ""))

    def listed(query=""):
        status, fields, body = kept.client.ask("GET", f"/v2/_catalog{query}")
        return status == 200 and json.loads(body)["repositories"], fields.get("Link", "")

    names, rest = listed()
    check("repositories in order", names == sorted(names) and "lib/pages" in names and rest == "", names)
    before = names[names.index("lib/pages") - 1]
    found = listed(f"?n=1&last={before.replace('/', '%2F')}")
    equal("a page of them", found, (["lib/pages"], '</v2/_catalog?n=1&last=lib/pages>; rel="next"'))
    equal("a list is only read", kept.client.ask("PUT", "/v2/_catalog").status, 405)


def questions(site):
    """How many requests the shards have had through HAProxy."""
    return int(site.counted("shards,BACKEND")[7])


def manifests_have_bounds(site):
    """What manifests cost HAProxy is bounded: their values, and what they name."""
    kept = Repository(site, "lib/bounds")
    layers = [b"layer %d" % number for number in range(200)]
    uploads = f"{kept.home}/blobs/uploads/?digest="
    equal("blobs", {kept.client.ask("POST", uploads + sha256(one), one).status for one in [b"{}", *layers]}, {201})
    manifest = manifest_of(b"{}", *layers)
    equal("a manifest of many blobs", kept.put("many", manifest)[0], 201)
    asked = questions(site)
    equal("it comes back", [kept.get("many") for _ in range(10)], [manifest] * 10)
    check("with a question each", questions(site) - asked <= 2 * 10, questions(site) - asked)
    dense = b'{"schemaVersion":2,"a":[' + b"[]," * (MIB - 10) + b"[]]}"
    equal("a manifest of many values", kept.put("dense", dense), (413, "SIZE_INVALID"))
    nowhere = json.dumps(descriptor(b"nowhere")).encode()
    elsewhere = json.dumps(descriptor(b"nowhere") | {"urls": ["https://example.org/nowhere"]}).encode()
    for what, odd, told in (
        ("a config that is elsewhere", b'"config":%s,"layers":[]}' % elsewhere, UNKNOWN),
        ("a manifest that is elsewhere", b'"manifests":[%s]}' % elsewhere, UNKNOWN),
        ("layers that are an object, under an escape", b'"config":%s,"\\u006cayers":{}}' % nowhere, INVALID),
        ("more behind a zero byte", b'"config":%s,"layers":[]}\0{"layers":[7]}' % nowhere, INVALID),
        ("layers that are an object", b'"config":%s,"layers":{}}' % nowhere, INVALID),
        ("layers that are an object with members", b'"config":%s,"layers":{"1":2}}' % nowhere, INVALID),
        ("layers in two spellings", b'"config":%s,"layers":[],"Layers":[]}' % nowhere, INVALID),
        ("a config beside manifests", b'"manifests":[],"config":%s,"layers":[]}' % nowhere, UNKNOWN),
        ("layers beside manifests", b'"manifests":[],"layers":[%s]}' % nowhere, UNKNOWN),
    ):
        equal(what, kept.put("odd", b'{"schemaVersion":2,' + odd), told)
    below = manifest
    for depth in range(1, 60):
        below = index_of(below, depth=depth)
        if (put := kept.put(sha256(below), below))[0] != 201:
            break
    check("indexes in one another", put[0] == 201 and kept.get(sha256(below)) == below, (depth, put))
    indexes = [index_of(manifest, number=number) for number in range(60)]
    for index in indexes:
        kept.put(sha256(index), index)
    equal("an index with too much below it", kept.put("wide", index_of(*indexes)), INVALID)


# Pieces of texts that are JSON, and of some that aren't.
PIECES = r"""
{ } [ ] , : " \ / u 0 1 9 -0 01 00 1. .5 -.5 1.5 1e5 1E+5 1e 1e-07 1.e1 +1 - 0x10 1_0 NaN Infinity -Infinity nan null
true false True nul "" "a" "\"" "\\" "\/" "\u0041" "\u00e9" "\ud800" "\u12" "\x41" "\'" 'a' "\u004g" "digest"
{"digest":1} {"a":1} {"a":1,} {a:1} {"a"} {1:2} [1,2] [1,] [,1] [1 2] [[[]]] [{}] // /**/ #
""".split() + ["9" * 5000, "-" + "9" * 500 + "." + "9" * 500]
ODD = "\t\n\r\v\f\0\x1f\x7f\u00a0\u2028\ufeff\u00e9\uac00\U0010ffff\u0661 "
PIECES += [*ODD, *(f'"{character}"' for character in ODD)]
BYTES = [b"\xff", b"\xc0\x80", b"\xed\xa0\x80", b"\xf4\x90\x80\x80", b"\xc3", b"\x80", b"\xe9", b'"\xff"']


def texts_near_json(chance):
    """Texts without end of which some are JSON."""
    values = [piece.encode() for piece in PIECES]
    while True:
        text = chance.choice(values)
        for _ in range(chance.choice([0, 0, 1, 2, 4, 8])):
            other = chance.choice(values)
            wrapped = b"[%b,%b]" % (text, other), b'{"a":%b,"b":%b}' % (text, other), b"[%b]" % text, b" %b\n" % text
            text = chance.choice(wrapped)
        if chance.random() < 0.5:
            at = chance.randrange(len(text) + 1)
            text = text[:at] + chance.choice([*values, *BYTES, b""]) + text[at + chance.randrange(2) :]
        yield text


def read_strictly(text):
    """What a text of JSON says, by Python's reader where that is strict. Its objects are lists of pairs."""

    def refuse(word):
        raise ValueError(word)

    options = {"parse_int": str, "parse_float": str, "parse_constant": refuse}
    try:
        return json.loads(text.decode(), object_pairs_hook=list, **options)
    except ValueError:
        return None


def only_json_is_taken(site, count):
    """A manifest is taken exactly if it is JSON."""
    kept = Repository(site, "lib/json")
    kept.push(b"{}")
    config, counts = json.dumps(descriptor(b"{}")).encode(), {True: 0, False: 0}
    for text in itertools.islice(texts_near_json(random.Random(count)), count):
        body = b'{"schemaVersion":2,"config":%b,"layers":[],"x":%b}' % (config, text)
        read = read_strictly(body)
        if read is not None and [name for name, _ in read] != ["schemaVersion", "config", "layers", "x"]:
            continue
        counts[read is not None] += 1
        wanted = INVALID if read is None else (201, sha256(body))
        equal(f"a text near JSON: {text[:200]}", kept.put("text", body), wanted)
    check("there are some of both", min(counts.values()) > count // 10, counts)
    for depth, wanted in ((99, 201), (100, 400), (10**6, 400)):
        body = b'{"schemaVersion":2,"config":%b,"layers":[],"x":%b%b}' % (config, b"[" * depth, b"]" * depth)
        equal(f"lists {depth} deep", kept.put("deep", body)[0], wanted)


def spelled_members(chance):
    """Manifests with a member in other letters, with an escape, or twice, that some client would take for it."""
    config, layer = json.dumps(descriptor(b"{}")), json.dumps(descriptor(b"layer"))
    manifest = '{"schemaVersion":2,"config":%s,"layers":[%s]}' % (config, layer)
    for name in "schemaVersion", "config", "layers", "digest", "manifests", "urls":
        for _ in range(8):
            at = chance.randrange(len(name))
            odd = chance.choice([name[at].swapcase(), "\\u%04x" % ord(name[at]), "\\u%04X" % ord(name[at].swapcase())])
            others = [name[:at] + odd + name[at + 1 :], name.upper(), name.replace("s", "\u017f")]
            spelled = chance.choice([other for other in others if other != name])
            value = chance.choice(["2", "[]", "{}", '"x"', config, "null"])
            member = f'"{spelled}":{value}'
            into = layer if name in ("digest", "urls") else manifest
            yield manifest.replace(into, chance.choice([f"{{{member},{into[1:]}", f"{into[:-1]},{member}}}"]))
    for member in re.findall(r'"\w+":', manifest):
        if member not in ('"mediaType":', '"size":'):
            yield manifest.replace(member, f'{member}null,{member}', 1)


def members_have_one_reading(site):
    kept = Repository(site, "lib/spelled")
    kept.push(b"{}", b"layer")
    for text in spelled_members(random.Random(4)):
        equal(f"a manifest that is read in two ways: {text}", kept.put("odd", text.encode()), INVALID)


def all_of_manifests(site):
    only_json_is_taken(site, 150)
    members_have_one_reading(site)
    manifests_are_kept(site)
    only_manifests_are_taken(site)
    tags_and_indexes_are_kept(site)
    lists_have_pages(site)
    manifests_have_bounds(site)


@case(*PROXY)
def manifests_in_memory():
    with Site() as site:
        # blobs alone make none
        Repository(site, "lib/blobs").push(b"a blob")
        equal("no repository yet", site.client().ask("GET", "/v2/_catalog").body, b'{"repositories":[]}')
        all_of_manifests(site)


def put_of_a_part(site, name, size):
    """A client that has sent so much of a manifest of 4 MiB."""
    client, target = site.local(), f"/v2/{name}/manifests/part"
    client.send_head("PUT", target, Content_Type=images.MANIFEST, Content_Length=4 * MIB)
    with contextlib.suppress(ConnectionError):
        client.send(bytes(size))
    return client


@case(*PROXY)
def parts_of_manifests_have_bounds():
    with Site() as site:
        kept = Repository(site, "lib/parts")
        kept.push(b"{}")
        before = site.haproxy.memory()
        with concurrent.futures.ThreadPoolExecutor(60) as pool:
            clients = list(pool.map(lambda _: put_of_a_part(site, "lib/parts", 4 * MIB - 10), range(60)))
        refused = [refusal_of(client.reply("PUT")) for client in clients if not is_silent(client.socket, 1)]
        are_most = len(refused) > 40 and {told[:2] for told in refused} == {(429, "TOOMANYREQUESTS")}
        check("most of them are refused", are_most, refused[:3])
        grown = site.haproxy.memory() - before
        check("they take no more than a bound", grown < 160 * MIB, grown)
        equal("a small manifest is taken meanwhile", kept.put("small", manifest_of(b"{}"))[0], 201)
        for client in clients:
            client.close()
        large = annotated(manifest_of(b"{}"), b"x" * (3 * MIB))
        equal("and a large one when they are gone", kept.put("large", large)[0], 201)


@case(*PROXY)
def room_for_manifests_ends():
    with Site(more={"FRONT_HELD": "1"}) as site:
        kept = Repository(site, "lib/held")
        kept.push(b"{}", b"layer")
        first, second = (annotated(manifest_of(b"{}", b"layer"), text * (700 * KIB)) for text in (b"x", b"y"))
        equal("a manifest has room", kept.put("first", first)[0], 201)
        equal("another hasn't", kept.put("second", second), (503, "UNAVAILABLE"))
        equal("the first stays", kept.get("first"), first)
        equal("and goes", kept.delete(sha256(first)), 202)
        equal("then the other has room", kept.put("second", second)[0], 201)


class Puts(Repeated):
    """Clients that put manifests under new tags until they are told to end, and note what was answered 201."""

    def __init__(self, site, clients):
        self.site, self.kept = site, []
        super().__init__([functools.partial(self.put, number, itertools.count(1)) for number in range(clients)])

    def put(self, number, turns):
        tag = f"t{number}.{next(turns)}"
        body = annotated(manifest_of(b"{}", b"layer"), tag.encode())
        with self.site.local() as client, contextlib.suppress(OSError, http.client.HTTPException):
            reply = client.ask("PUT", f"/v2/lib/durable/manifests/{tag}", body, Content_Type=images.MANIFEST)
            if reply.status == 201:
                self.kept.append((tag, body))
        self.ending.wait(0.01)

    def go_on(self):
        """Waits until some more manifests are taken."""
        before = len(self.kept)
        check("more manifests are taken", becomes(True, lambda: len(self.kept) > before + 5), (before, len(self.kept)))


def wait_for_redis(repository):
    """Redis listens before it has read its files."""
    check("Redis answers again", becomes(True, lambda: repository.tags()[0] != 503))


def all_tags(repository):
    tags, last = set(), ""
    while True:
        page, _ = repository.tags(f"?n=1000&last={last}")
        if not page or isinstance(page, int):
            return tags
        tags |= set(page)
        last = page[-1]


@case(*PROXY, "redis-server")
def manifests_outlive_haproxy(folder):
    """With Redis: reloads, restarts and kills of HAProxy and of Redis in the middle of pushes lose nothing that was
    answered 201."""
    with site_with_redis(folder) as (redis, site):
        all_of_manifests(site)
        Repository(site, "lib/durable").push(b"{}", b"layer")
        puts = Puts(site, 4)
        for change in (
            site.haproxy.reload,
            site.haproxy.reload,
            lambda: restart(site.haproxy, signal.SIGTERM),
            lambda: restart(site.haproxy, signal.SIGKILL),
            lambda: restart(redis, signal.SIGKILL),
            lambda: restart(redis, signal.SIGTERM),
        ):
            puts.go_on()
            change()
        puts.go_on()
        puts.end()
        durable = Repository(site, "lib/durable")
        wait_for_redis(durable)
        lost = [tag for tag, body in puts.kept if durable.get(tag) != body]
        check("none is lost", not lost, lost)
        check("nor its tag", {tag for tag, _ in puts.kept} <= all_tags(durable))
        check("nor the repository", b'"lib/durable"' in durable.client.ask("GET", "/v2/_catalog").body)
        redis.end()
        heard = durable.client.ask("GET", f"{durable.home}/tags/list")
        is_refused("without Redis", heard, 503, "UNAVAILABLE", "manifests")
        redis.start()
        restart(site.shards[0], signal.SIGKILL)
        wait_for_redis(durable)
        tag, _ = puts.kept[0]
        gone = durable.get(tag)
        check("a manifest whose blobs are gone goes", gone == 404 and tag not in all_tags(durable), gone)


def damaged(body, chance):
    """A manifest that isn't JSON any more, in which each digest still stands, perhaps with escapes."""
    text = re.sub(rb"[sh]", lambda found: b"\\u%04x" % found[0][0] if chance.random() < 0.3 else found[0], body)
    version = chance.choice([b"007", b"NaN", b"1.", b"[" * 2000 + b"]" * 2000])
    spoiled = [text + b"}", b"\xff" + text, b"\xef\xbb\xbf" + text, text.replace(b"{", b"{,", 1), text[:-1]]
    return chance.choice([*spoiled, text.replace(b": 2", b": " + version, 1)])


@case(*PROXY, "redis-server")
def every_manifest_is_read(folder):
    """Whatever manifests are taken, what they refer to can be listed; and a manifest that can't be read, however it
    came to be there, is named, ends no list, and loses no blob."""
    chance = random.Random(7)
    with site_with_redis(folder) as (redis, site):
        only_json_is_taken(site, 400)
        equal("all are read", referenced_by(redis), (0, [f"lib/json {sha256(b'{}')}"], []))
        kept, store = Repository(site, "lib/damaged"), referenced.Redis(redis.address, PASSWORD)
        kept.push(b"{}", b"first", b"second")
        bodies = {sha256(body): body for body in (manifest_of(b"{}", one) for one in (b"first", b"second"))}
        equal("two manifests", [kept.put(digest, body)[0] for digest, body in bodies.items()], [201, 201])
        whole = referenced_by(redis)
        for turn in range(20):
            digest, body = chance.choice(list(bodies.items()))
            store.ask("SET", f"body:lib/damaged@{digest}", damaged(body, chance))
            status, lines, told = referenced_by(redis)
            equal(f"what is listed, turn {turn}", (status, lines), whole[:2])
            are_named = len(told) == 1 and f"lib/damaged@{digest}" in told[0]
            check(f"it is named, turn {turn}", are_named, told)
            store.ask("SET", f"body:lib/damaged@{digest}", body)


if __name__ == "__main__":
    main(__doc__)
