#!/usr/bin/env python3
"""Requests to the reverse proxy: who may log in and who may change what, which bodies are refused, with which words,
when 100 is sent, uploads that are cancelled, and certificates that are renewed.

    registry_requests.py PROGRAM
"""
import contextlib
import http.client
import os
import random
import re
import ssl
import tempfile
import time
import warnings

from harness.listeners import Listener
from harness.registry import IMAGE_PUSHED, LOGIN, PROXY, Client, Repository, Site, is_refused, manifest_of, push_image
from harness.running import MIB
from harness.suite import case, check, equal, main
from harness.wire import connected, sha256
import images
import servers

WRONG = ("alice", "wrong")


@case(*PROXY)
def logins_are_asked_for():
    with Site() as site:
        for who, status in ((LOGIN, 200), (None, 401), (WRONG, 401), (("bob", "wonder"), 401)):
            for way, client in (("TLS", site.client(who)), ("plain", Client(site.haproxy.plain, who))):
                heard, fields, _ = client.ask("GET", "/v2/")
                equal(f"a login over {way} as {who}", heard, status)
                is_asked = status == 200 or fields["WWW-Authenticate"].startswith("Basic ")
                check(f"a challenge over {way} to {who}", is_asked, fields.as_string())
        equal("this machine needs no login", site.local().ask("GET", "/v2/").status, 200)
        is_refused("a wrong login is told", site.client(WRONG).ask("GET", "/v2/"), 401, "UNAUTHORIZED", "log in")
        old = ssl.create_default_context(cafile=site.certificates)
        old.set_ciphers("ALL:@SECLEVEL=0")
        with warnings.catch_warnings():
            warnings.simplefilter("ignore")
            old.maximum_version = ssl.TLSVersion.TLSv1_1
        try:
            old.wrap_socket(connected(servers.place(site.haproxy.tls)), server_hostname="127.0.0.1").close()
            check("TLS 1.1 is refused", False)
        except (ssl.SSLError, ConnectionError):
            check("TLS 1.1 is refused", True)


@case(*PROXY)
def logins_have_rights(folder):
    rights = os.path.join(folder, "rights")
    with open(rights, "w", encoding="ascii") as file:
        file.write("alice/team-a\nroot/*\n")
    with Site(more={"FRONT_RIGHTS": rights}, users={"root": "power", "carol": "guest"}) as site:
        alice, root, carol = site.client(), site.client(("root", "power")), site.client(("carol", "guest"))
        equal("who may push there", push_image(alice, "team-a/app"), IMAGE_PUSHED)
        equal("who may push anywhere", push_image(root, "team-b/app"), IMAGE_PUSHED)
        for name in ("team-b/app", "team-a-b/app", "team", "b/team-a"):
            heard = alice.ask("POST", f"/v2/{name}/blobs/uploads/")
            is_refused(f"alice opens in {name}", heard, 403, "DENIED", "may not")
        for who, client in (("alice", alice), ("carol", carol)):
            heard = client.ask("DELETE", "/v2/team-b/app/manifests/one")
            is_refused(f"{who} deletes", heard, 403, "DENIED", "may not")
            equal(f"{who} pulls", client.ask("GET", "/v2/team-b/app/manifests/one").status, 200)
        place = root.opened("team-b/app")
        statuses = [carol.ask(method, place).status for method in ("PATCH", "PUT", "DELETE")]
        equal("nobody else goes on with an upload", statuses, [403] * 3)
        equal("tools of this machine may", site.local().ask("DELETE", place).status, 204)


def expecting(site, who, status):
    """What a client is told that may wait for the word to send a body, and the seconds until then. Its body goes behind
    a 100."""
    place = site.local().opened("lib/continued")
    with Client(site.haproxy.plain, who) as client:
        begun = time.monotonic()
        client.send_head("PATCH", place, Content_Length=2 * MIB, Expect="100-continue")
        first = client.socket.recv(4096)
        waited = time.monotonic() - begun
        check(f"{status} to a body that is expected", first.startswith(b"HTTP/1.1 %d" % status), first)
        if status == 100:
            client.send(bytes(2 * MIB))
            equal("the body behind a 100 is taken", client.reply("PATCH").status, 202)
    return waited


@case(*PROXY)
def continue_is_said():
    """100 comes at once to who may go on, and never to who may not."""
    with Site() as site:
        for who, status in ((LOGIN, 100), (WRONG, 401)):
            # the soonest of three: the machine may halt for a moment. HAProxy waits ten seconds for a body.
            waited = min(expecting(site, who, status) for _ in range(3))
            check(f"{status} comes before a body would be given up", waited < 5, waited)


@case(*PROXY)
def large_bodies_are_refused():
    with Site() as site:
        place, manifest = site.local().opened("lib/large"), "/v2/lib/large/manifests/one"
        for what, method, target, length in (
            ("a chunk", "PATCH", place, 2048 * MIB + 1),
            ("a manifest", "PUT", manifest, 4 * MIB + 1),
        ):
            with site.client() as client:
                client.send_head(method, target, Content_Length=length)
                is_refused(f"{what} over the limit", client.reply(method), 413, "SIZE_INVALID", "too large")
        # above what 63 and 64 bits have: HAProxy itself refuses some of them, before any setting counts
        for length in (1 << 63, (1 << 63) + 5, (1 << 64) - 1, 1 << 64, 10**30):
            with site.client() as client:
                client.send_head("PATCH", place, Content_Length=length)
                heard = client.reply("PATCH").status
                check(f"a Content-Length of {length}", heard in (400, 413), heard)
        equal("none of them reached the upload", site.local().ask("GET", place).status, 204)
        client = site.client()
        client.send_head("PUT", manifest, Transfer_Encoding="chunked")
        with contextlib.suppress(ConnectionError):
            for _ in range(5):
                client.send(b"100000\r\n" + bytes(MIB) + b"\r\n")
            client.send(b"0\r\n\r\n")
        equal("a chunked manifest over the limit", client.reply("PUT").status, 413)


@case(*PROXY)
def uploads_are_cancelled():
    with Site() as site:
        client, shard = site.client(), Client(site.addresses[0])
        place = client.opened("lib/cancelled")
        equal("an upload is cancelled", client.ask("DELETE", place).status, 204)
        for method in ("DELETE", "GET", "PATCH"):
            is_refused(f"{method} of a cancelled upload", client.ask(method, place), 404, "BLOB_UPLOAD_UNKNOWN", "")
        place = client.opened("lib/cancelled")
        equal("a chunk", client.ask("PATCH", place, b"chunk").status, 202)
        equal("an upload that has bytes is cancelled", client.ask("DELETE", place).status, 204)
        for method in ("DELETE", "GET", "PATCH"):
            name, heard = f"{method} of a cancelled upload that had bytes", client.ask(method, place)
            is_refused(name, heard, 404, "BLOB_UPLOAD_UNKNOWN", "cancelled")
        equal("its bytes stay in the shard", shard.ask("GET", place, Connection="close").status, 204)
        place = client.opened("lib/cancelled")
        elsewhere = place.replace("cancelled", "other")
        equal("one of another repository isn't", client.ask("DELETE", elsewhere).status, 404)
        equal("and goes on", client.ask("PATCH", place, b"chunk").status, 202)
        equal("the shard itself has no DELETE", shard.ask("DELETE", place, Connection="close").status, 405)


def forms_of(place):
    """The forms that a reference has in a path, beside the usual one."""
    home, reference = place.rsplit("/", 1)
    plain = reference.replace("-", "")
    forms = [reference.upper(), plain, plain.upper(), "{%s}" % reference, "{%s}" % reference.upper()]
    return [f"{home}/{form}" for form in [*forms, f"urn:uuid:{reference}", f"urn:uuid:{reference.upper()}"]]


def odd_fields(chance):
    """Fields by which a request may be refused before anybody looks at its upload."""
    count = chance.choice([0, 1, 55, 60, 65, 70, 90])
    fields = [(f"X-{number}", "x" * chance.choice([1, 100])) for number in range(count)]
    others = [
        ("Content-Range", "5-9"), ("Content-Range", "0-2"), ("Content-Range", "x"), ("Content-Length", "0"),
        ("Transfer-Encoding", "chunked"), ("Content-Length", "00003"), ("Expect", "100-continue"), ("X-Shard", "7"),
        ("Connection", "close"), ("Content-Type", "text/html"), ("Accept", "x" * 9000),
    ]
    return fields + chance.sample(others, chance.randrange(4))


def cancelled_oddly(site, client, place, chance):
    """The status of a DELETE with fields of all kinds, or nothing if there is no reply."""
    asker = Client(site.haproxy.plain)
    asker.fields = [*client.fields, *odd_fields(chance)]
    with asker, contextlib.suppress(OSError, http.client.HTTPException):
        query = chance.choice(["", "", f"?digest={sha256(b'abc')}", "?digest=x", "?x"])
        asker.send_head("DELETE", place + query)
        names = {name for name, _ in asker.fields}
        if "Transfer-Encoding" in names:
            asker.send(chance.choice([b"0\r\n\r\n", b"3\r\nabc\r\n0\r\n\r\n", b"x\r\n"]))
        elif ("Content-Length", "00003") in asker.fields:
            asker.send(b"abc")
        asker.socket.settimeout(20)
        return asker.reply("DELETE").status


@case(*PROXY)
def only_ones_own_uploads_are_cancelled(folder):
    """Whatever DELETE somebody sends under his own repository, an upload of another one is there. And if a cancel is
    answered 204, the upload is hidden, in each form of its reference; if it isn't, it goes on."""
    chance, rights = random.Random(5), os.path.join(folder, "rights")
    with open(rights, "w", encoding="ascii") as file:
        file.write("alice/alice\nbob/bob\n")
    with Site(more={"FRONT_RIGHTS": rights}, users={"bob": "builds"}, workers=8) as site:
        alice, bob, told = site.client(), site.client(("bob", "builds")), []
        theirs = alice.opened("alice/app")
        equal("a chunk", alice.ask("PATCH", theirs, b"abc").status, 202)
        for turn in range(60):
            place = bob.opened("bob/app")
            has_bytes = chance.random() < 0.7
            if has_bytes:
                equal("a chunk of one's own", bob.ask("PATCH", place, b"abc").status, 202)
            under = chance.choice(["bob/app", "bob/alice/app"])
            stolen = chance.choice([theirs, *forms_of(theirs)]).replace("alice/app", under)
            status = cancelled_oddly(site, bob, stolen, chance)
            check(f"another one's isn't cancelled, turn {turn}", status != 204, status)
            status = cancelled_oddly(site, bob, chance.choice([place, *forms_of(place)]), chance)
            told.append(status)
            left = {bob.ask("GET", form).status for form in [place, *forms_of(place)]}
            equal(f"one's own behind a {status}, turn {turn}", left, {404} if status == 204 else {204})
            if status != 204:
                equal(f"it is cancelled, turn {turn}", bob.ask("DELETE", place).status, 204)
            found = {alice.ask("GET", form).fields["Range"] for form in [theirs, *forms_of(theirs)]}
            equal(f"another one's is there, turn {turn}", found, {"0-2"})
        check("some are cancelled, and some not", 5 < told.count(204) < 55, told)


def random_type(chance):
    """What a Content-Type may say, of all kinds."""
    trees = ["application/vnd.", "application/", "text/", "image/", "application/vnd", "Application/VND.", "vnd.", ""]
    names = ["oci.image.manifest.v1", "docker.distribution.manifest.v2", "html", "x", "", "a b", "a<b", "oci/x", "a;b"]
    ends = ["+json", "", "+xml", "+json; charset=utf-8", "+json;a", "+json, text/html", "json", "+json text", "+JSON"]
    return chance.choice(trees) + chance.choice(names) + chance.choice(ends)


@case(*PROXY)
def only_types_of_manifests_are_taken():
    """Whatever type a manifest is put with, none comes back that a browser shows."""
    chance = random.Random(6)
    with Site() as site:
        kept, manifest, taken = Repository(site, "lib/types"), manifest_of(b"{}"), set()
        kept.push(b"{}")
        for kind in (images.MANIFEST, images.MANIFEST + "; charset=utf-8", "application/vnd.any+json"):
            equal(f"a manifest as {kind}", kept.put("one", manifest, kind)[0], 201)
        for kind in ("text/html", "application/json", "image/svg+xml", "application/octet-stream", "*/*"):
            equal(f"a manifest as {kind}", kept.put("one", manifest, kind), (400, "MANIFEST_INVALID"))
        for _ in range(200):
            kind = random_type(chance)
            status, _ = kept.put("one", manifest, kind)
            told = kept.client.ask("GET", f"{kept.home}/manifests/one").fields["Content-Type"]
            taken.add((status, told))
            check(f"what is put as {kind!r}", re.fullmatch(r"application/vnd\.[^\s;,<]+\+json", told), told)
        check("some are taken, and some not", {status for status, _ in taken} == {201, 400}, taken)
        index = b'{"schemaVersion":2,"manifests":[]}'
        for body, kind in ((manifest, images.MANIFEST), (index, images.MANIFEST.replace("manifest", "index"))):
            equal("one without a type", kept.client.ask("PUT", f"{kept.home}/manifests/plain", body).status, 201)
            told = kept.client.ask("GET", f"{kept.home}/manifests/plain").fields["Content-Type"]
            equal("is what it is", told, kind)


@case(*PROXY)
def no_reply_is_a_page():
    """Each reply of whatever kind says that a browser is to guess no type, and to run nothing of it."""
    chance = random.Random(8)
    with Site() as site:
        client = site.client()
        equal("an image", push_image(client, "lib/app"), IMAGE_PUSHED)
        place, blob = client.opened("lib/app"), f"/v2/lib/app/blobs/{sha256(b'{}')}"
        within = ["tags/list", "manifests/one", "manifests/none", "blobs/uploads/"]
        targets = [f"/v2/lib/app/{part}" for part in within] + [blob, blob[:-1], place]
        targets += ["/", "/v2/", "/v2/_catalog", "/v2/lib/none/tags/list", "/login", "/x"]
        methods = ["GET", "HEAD", "PUT", "POST", "PATCH", "DELETE", "OPTIONS", "TRACE", "ODD"]
        statuses = set()
        for _ in range(300):
            asker = site.client(chance.choice([LOGIN, LOGIN, LOGIN, WRONG, None]))
            body = chance.choice([b"", b"", b"x", manifest_of(b"{}")])
            with asker:
                heard = asker.ask(method := chance.choice(methods), target := chance.choice(targets), body)
            statuses.add(heard.status)
            told = heard.fields["X-Content-Type-Options"], heard.fields["Content-Security-Policy"]
            equal(f"{method} {target}: {heard.status}", told, ("nosniff", "sandbox"))
        check("replies of many kinds", {200, 201, 202, 204, 400, 401, 404, 405} <= statuses, statuses)
        for target in "/", "/health", "/metrics", "/x":
            told = Client(site.haproxy.status).ask("GET", target).fields["X-Content-Type-Options"]
            equal(f"{target} of its own", told, "nosniff")


@case(*PROXY)
def ranges_are_no_part_of_it():
    with Site() as site:
        client = site.client()
        client.push("lib/ranges", b"a blob")
        status, fields, body = client.ask("GET", f"/v2/lib/ranges/blobs/{sha256(b'a blob')}", Range="bytes=2-3")
        equal("a range of a blob", (status, fields["Accept-Ranges"], body), (200, "none", b"a blob"))


@case(*PROXY)
def a_certificate_is_renewed():
    """Without a reload, as docs/OPERATIONS.md says it."""
    with Site() as site:
        place, path = servers.place(site.haproxy.tls), os.path.join(site.folder, "front.pem")
        before = ssl.get_server_certificate(place)
        servers.certificate(site.folder)
        with open(path, encoding="ascii") as file:
            told = site.haproxy.command(f"set ssl cert {path} <<\n{file.read()}\n")
        told += site.haproxy.command(f"commit ssl cert {path}")
        check("a certificate is renewed", "Success" in told, told)
        after = ssl.get_server_certificate(place)
        with open(site.certificates, encoding="ascii") as file:
            is_new = ssl.PEM_cert_to_DER_cert(after) == ssl.PEM_cert_to_DER_cert(file.read())
        check("the new one is served", after != before and is_new)


@case(*PROXY)
def health_and_metrics_are_told():
    with Site() as site, Client(site.haproxy.status) as client:
        status, _, body = client.ask("GET", "/metrics")
        is_up = b'haproxy_server_status{proxy="watch",server="shard1",state="UP"} 1' in body
        check("metrics", status == 200 and is_up, status)
        equal("health", client.ask("GET", "/health").status, 200)


@contextlib.contextmanager
def a_shard_that_says(text):
    """HAProxy before a shard that takes a request and says this, or nothing."""
    kept = []

    def take(line):
        if text is None:
            kept.append(line)
        elif line.recv(65536):
            line.sendall(text)
            line.close()

    with Listener(take) as shard, tempfile.TemporaryDirectory() as folder:
        servers.certificate(folder)
        servers.logins(folder, dict([LOGIN]))
        with servers.HAProxy(folder, [shard.addr], more={"FRONT_ANSWER": "1s"}) as proxy:
            yield Client(proxy.local)


@case(*PROXY)
def a_shards_own_refusals_are_told():
    bare = "HTTP/1.1 {} Refused\r\nContent-Length: 0\r\nConnection: close\r\n\r\n"
    for said, status, code, word in (
        (bare.format(503).encode(), 503, "UNAVAILABLE", "is full"),
        (bare.format(413).encode(), 413, "SIZE_INVALID", "2 GiB"),
        (bare.format(429).encode(), 429, "TOOMANYREQUESTS", "open uploads"),
        (b"", 503, "UNAVAILABLE", "ended during the request, or it is full"),
        (None, 504, "UNAVAILABLE", "too long"),
    ):
        with a_shard_that_says(said) as client:
            is_refused(f"a shard that says {said}", client.ask("POST", "/v2/lib/a/blobs/uploads/"), status, code, word)


if __name__ == "__main__":
    main(__doc__)
