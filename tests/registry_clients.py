#!/usr/bin/env python3
"""Images that `skopeo` and `docker` push to the registry and pull, and that it deletes, whose room is given back;
clients of nginx before HAProxy, slow ones too, and `blobd push` through the adapter to `docker-registry`.

    registry_clients.py PROGRAM
"""
import os
import random
import signal
import time

from harness.registry import (
    KIB,
    LOGIN,
    PROXY,
    UPLOADED,
    Client,
    Site,
    is_refused,
    referenced_by,
    restart,
    site_with_redis,
    skopeo,
    write_image,
)
from harness.running import MIB, already, finished, push, pushed, run, told_by, written
from harness.suite import case, check, equal, main, skip
from harness.wire import sha256
import images
import servers

USER, PASSWORD = LOGIN


def blobs_in(folder):
    """The files of a layout by name."""
    at, found = os.path.join(folder, "blobs", "sha256"), {}
    for name in os.listdir(at):
        with open(os.path.join(at, name), "rb") as file:
            found[name] = file.read()
    return found


def push_and_pull(site, address):
    """skopeo logs in, pushes an image twice and pulls it."""
    image, back = os.path.join(site.folder, "image"), os.path.join(site.folder, "back")
    write_image(image)
    folder, there = os.path.dirname(site.certificates), f"docker://{address}/lib/six:one"
    to = ["copy", "--dest-cert-dir", folder, "oci:image:one", there]
    wrong = skopeo(site, *to, "--dest-creds", f"{USER}:wrong")
    check("skopeo with a wrong login", wrong[0] != 0, wrong)
    for what, words in (
        ("logs in", ["login", "--cert-dir", folder, "-u", USER, "-p", PASSWORD, address]),
        ("pushes", to),
        ("pushes again", to),
        ("pulls", ["copy", "--src-cert-dir", folder, there, "oci:back:one"]),
    ):
        ran = skopeo(site, *words)
        check(f"skopeo {what}", ran[0] == 0, ran)
    comes_back = os.path.isdir(back) and blobs_in(back) == blobs_in(image) and len(blobs_in(back)) == 8
    check("skopeo pulls what it pushed", comes_back)


@case(*PROXY, "skopeo")
def an_image_by_skopeo():
    with Site() as site:
        push_and_pull(site, site.haproxy.tls)


def compacted_by_the_list(shard, redis, data):
    """Compacts the data directory of a shard, which is stopped meanwhile, with the list of what manifests refer to."""
    shard.end(signal.SIGKILL)
    equal("no list without Redis", referenced_by(redis, password="wrong")[:2], (1, []))
    status, lines, _ = referenced_by(redis)
    equal("a list", status, 0)
    # what was stored in this second is young
    time.sleep(1.1)
    told, status, more = run("compact", "--grace", "0", data, "-", input="".join(f"{line}\n" for line in lines))
    equal("a compaction", (status, more), (0, ""))
    shard.start()
    return lines, told


@case(*PROXY, "redis-server", "skopeo")
def an_image_that_is_deleted(folder):
    """Two images with a layer of both: the manifest of one is deleted, and its other blobs go, by a list of what the
    manifests in Redis refer to. The other image is pulled, and the one that went is pushed again."""
    data = os.path.join(folder, "data")
    with site_with_redis(folder) as (redis, site):
        shard = site.shards[0]
        restart(shard, BLOBD_DATA=data)
        layers = [images.layer_of(f"file{at}", random.Random(at).randbytes(MIB)) for at in range(3)]
        at, login = os.path.dirname(site.certificates), ":".join(LOGIN)
        there = f"docker://{site.haproxy.tls}/lib/app:"
        blobs = {}
        for name, parts in ("one", layers[:2]), ("two", layers[1:]):
            place = os.path.join(site.folder, name)
            blobs[name] = set(images.write_layout(place, parts, name, is_packed=True))
            pushes = "copy", "--dest-cert-dir", at, "--dest-creds", login, f"oci:{name}:{name}", there + name
            ran = skopeo(site, *pushes)
            check(f"a push of {name}", ran[0] == 0, ran)
        ran = skopeo(site, "delete", "--cert-dir", at, "--creds", login, f"{there}two")
        check("one is deleted", ran[0] == 0, ran)
        lines, told = compacted_by_the_list(shard, redis, data)
        equal("what is referred to", set(lines), {f"lib/app {digest}" for digest in blobs["one"]})
        check("it says what went", "repositories gave up" in told, told)
        site.haproxy.reload()
        client = site.local()
        # the process that was there before the reload ends connections that are kept
        client.is_fresh = True
        found = {
            digest: client.ask("HEAD", f"/v2/lib/app/blobs/{digest}").status
            for digest in blobs["one"] | blobs["two"]
        }
        equal("what is there", found, {digest: 200 if digest in blobs["one"] else 404 for digest in found})
        pulls = "copy", "--src-cert-dir", at, "--src-creds", login, f"{there}one", "oci:back:one"
        for what, words in ("a pull of the other", pulls), ("a push of what went", pushes):
            ran = skopeo(site, *words)
            check(what, ran[0] == 0, ran)
        is_whole = blobs_in(os.path.join(site.folder, "back")) == blobs_in(os.path.join(site.folder, "one"))
        check("the other is whole", is_whole)


@case(*PROXY, "skopeo", "docker")
def an_image_by_docker():
    """As `docker` does it, if its engine runs; it takes any certificate from the loopback address."""
    if finished(["docker", "info"]).returncode != 0:
        skip("an image by docker", "no engine runs")
        return
    with Site() as site:
        write_image(os.path.join(site.folder, "image"))
        there, archive = f"{site.haproxy.tls}/lib/docker:one", os.path.join(site.folder, "image.tar")
        ran = skopeo(site, "copy", "oci:image:one", f"docker-archive:{archive}:{there}")
        check("an archive for docker", ran[0] == 0, ran)
        login = ["login", "-u", USER, "-p", PASSWORD, site.haproxy.tls]
        for words in (["load", "-i", archive], login, ["push", there], ["rmi", there], ["pull", there], ["rmi", there]):
            ran = told_by(["docker", *words], env={"DOCKER_CONFIG": site.folder})
            check(f"docker {words[0]}", ran[0] == 0, ran)


@case(*PROXY, "nginx-light", "skopeo")
def an_image_through_nginx():
    with Site(nginx=True) as site:
        push_and_pull(site, site.nginx.tls)


@case(*PROXY, "nginx-light")
def nginx_asks_for_logins():
    wrong = ("alice", "wrong")
    with Site(nginx=True) as site:
        for who, status in ((LOGIN, 200), (None, 401), (wrong, 401)):
            reply = site.slow_client(who).ask("GET", "/v2/")
            equal(f"a login through nginx as {who}", reply.status, status)
            if status == 401:
                is_refused(f"through nginx to {who}", reply, 401, "UNAUTHORIZED", "log in")
            told = reply.fields.get_all("X-Content-Type-Options"), reply.fields.get_all("Content-Security-Policy")
            equal(f"it is no page, as {who}", told, (["nosniff"], ["sandbox"]))
            is_asked = status == 200 or "Basic" in (reply.fields["WWW-Authenticate"] or "")
            check(f"a challenge through nginx to {who}", is_asked, reply)
        with site.slow_client(wrong) as client:
            client.send_head("PUT", "/v2/lib/slow/manifests/one", Content_Length=MIB)
            equal("a wrong login is told before the body", client.reply("PUT").status, 401)
        with site.slow_client() as client:
            client.send_head("PATCH", "/v2/lib/slow/blobs/uploads/x", Content_Length=2048 * MIB + 1)
            reply = client.reply("PATCH")
            is_refused("a body over the limit at nginx", reply, 413, "SIZE_INVALID", "too large")


@case(*PROXY, "nginx-light")
def slow_clients_hold_nobody():
    """Clients of nginx that don't read, and others that drip: more than there are workers."""
    # more than the systems on its way take in
    content = random.Random(5).randbytes(48 * MIB)
    target = f"/v2/lib/slow/blobs/{sha256(content)}"
    with Site(nginx=True) as site:
        equal("a large blob through nginx", site.slow_client().push("lib/slow", content), UPLOADED)
        readers, writers = [site.slow_client() for _ in range(6)], [site.slow_client() for _ in range(6)]
        for reader in readers:
            reader.room = 64 * KIB
            reader.send_head("GET", target)
            equal("a slow reader's reply begins", reader.socket.recv(12), b"HTTP/1.1 200")
        for writer in writers:
            writer.send_head("PATCH", site.slow_client().opened("lib/slow"), Content_Length=MIB)
        asker = site.slow_client()
        for _ in range(10):
            for writer in writers:
                writer.send(b"drip")
            # if they held the workers, it would wait until they are cut, and what they drip wouldn't be taken
            equal("a HEAD beside slow clients", asker.ask("HEAD", target).status, 200)
            time.sleep(0.1)
        for writer in writers:
            writer.send(bytes(MIB - 40))
            equal("what dripped is taken", writer.reply("PATCH").status, 202)
            writer.close()
        rest = read_all(readers.pop(), len(content))
        check("a slow reader's reply is whole", rest[:1] == b" " and content in rest)
        for reader in readers:
            reader.close()


def read_all(client, length):
    """What comes until so many bytes of a body are in it."""
    got = bytearray()
    while b"\r\n\r\n" not in got or len(got) < got.index(b"\r\n\r\n") + 4 + length:
        part = client.socket.recv(MIB)
        if not part:
            break
        got += part
    client.close()
    return bytes(got)


@case("haproxy", "docker-registry")
def a_push_through_the_adapter(folder):
    content = random.Random(9).randbytes(3 * MIB + 7)
    path = written(folder, content)
    with servers.DockerRegistry(folder) as registry, servers.Adapter(folder, registry.address) as adapter:
        line, status, told = push(registry.address, "lib/straight", path, MIB)
        advice = f"blobd: can't push to {registry.address}: it is docker-registry, as by the state in its Location: push "
        check("a push without it says first to take it", status == 1 and told.startswith(advice), (line, status, told))
        check("a push without it names it", "`make adapter" in told, told)
        for name, chunk in (("lib/adapted", MIB), ("lib/whole", 8 * MIB)):
            ran = push(adapter.address, name, path, chunk)
            equal(f"blobd push through the adapter in chunks of {chunk}", ran, pushed(content))
        ran = push(adapter.address, name, path, chunk)
        equal("blobd push of what is there, through the adapter", ran, already(content))
        with Client(registry.address) as client:
            reply = client.ask("GET", f"/v2/lib/adapted/blobs/{sha256(content)}")
        equal("docker-registry has what was pushed", (reply.status, reply.body), (200, content))


if __name__ == "__main__":
    main(__doc__)
