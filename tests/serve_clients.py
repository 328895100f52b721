#!/usr/bin/env python3
"""Uploads to `blobd serve` by `curl`, and images that `skopeo`, `podman` and `buildah` push to it.

    serve_clients.py PROGRAM

A line tells of each client that isn't installed.
"""
import gzip
import os
import random
import re
import subprocess
import time
import urllib.parse

from harness.running import MIB, Server, becomes, finished, pull, written
from harness.suite import case, check, equal, lacks, main, skip
from harness.wire import PATIENCE, sha256
from images import layer_of, write_layout


class Curl:
    """curl's uploads to a server: what it prints of each reply is the status and the Location."""

    def __init__(self, server):
        self.base = f"http://{server.addr}"

    def __call__(self, *more, **options):
        words = ["curl", "-sS", "-m", str(PATIENCE), "-H", "Connection: close", "-o", "/dev/null"]
        words += ["-w", "%{http_code} %header{location}", *more]
        status, _, place = finished(words, **options).stdout.partition(" ")
        return status, self.base + place

    def opens(self, name):
        return self("-X", "POST", f"{self.base}/v2/{name}/blobs/uploads/")

    def patches(self, place, *more, **options):
        return self("-X", "PATCH", "-H", "Content-Type: application/octet-stream", *more, place, **options)[0]

    def patches_in(self, how, place, path):
        """The replies to PATCHes of one of the ways of curl."""
        with open(path, "rb") as file:
            if how == "--data-binary":
                return [self.patches(place, "--data-binary", f"@{path}")]
            if how == "chunked":
                return [self.patches(place, "-T", "-", stdin=file)]
            replies, first = [], 0
            while part := file.read(MIB):
                bounds, of_one = f"Content-Range: {first}-{first + len(part) - 1}", written(os.path.dirname(path), part)
                replies.append(self.patches(place, "-H", bounds, "--data-binary", f"@{of_one}"))
                first += len(part)
            return replies

    def closes(self, place, digest):
        return self("-X", "PUT", f"{place}?digest={digest}")[0]


@case("curl")
def curl_uploads(folder):
    content = random.Random(5).randbytes(3 * MIB + 5)
    path = written(folder, content)
    with Server(100) as server:
        curl = Curl(server)
        for how, patches in (("--data-binary", 1), ("chunked", 1), ("ranges", 4)):
            name = f"curl/{how.strip('-')}"
            status, place = curl.opens(name)
            equal(f"curl opens ({how})", status, "202")
            equal(f"curl patches ({how})", curl.patches_in(how, place, path), ["202"] * patches)
            equal(f"curl closes ({how})", curl.closes(place, sha256(content)), "201")
            equal(f"what curl uploaded ({how})", pull(server, name, sha256(content)), content)


SKOPEO = ["skopeo", "--insecure-policy", "copy", "--dest-tls-verify=false", "--dest-no-creds"]


def output_of(words, folder):
    """A program's exit status, and what it printed, on standard error too. It runs in this folder."""
    ran = finished(words, cwd=folder, capture_output=False, stdout=subprocess.PIPE, stderr=subprocess.STDOUT)
    return ran.returncode, ran.stdout


def by_skopeo(folder, there):
    return output_of([*SKOPEO, "oci:layout", there], folder)


def by_a_store_of(name):
    """podman and buildah keep the image first, in a store of their own, under the name of its path: so that is a short
    one. Where they keep none, there is no output."""

    def push(folder, there):
        store = ["--root", f"{folder}/{name}/root", "--runroot", f"{folder}/{name}/run", "--storage-driver", "vfs"]
        status, printed = output_of([name, *store, "pull", "oci:layout"], folder)
        if status:
            skip(name, f"it keeps no image here: {printed}")
            return None
        # its last line is the image's number
        return output_of([name, *store, "push", "--tls-verify=false", printed.split()[-1], there], folder)

    return push


# How each client pushes the image that is `layout` in a folder.
IMAGE_CLIENTS = {"skopeo": by_skopeo, "podman": by_a_store_of("podman"), "buildah": by_a_store_of("buildah")}


def stored_blobs(log, name, count):
    """The digests of the blobs that a server's log says were stored in a repository, once there are so many: a line
    comes behind its reply."""
    wanted = re.compile(rf"^\S+ PUT /v2/{name}/blobs/uploads/\S+[?&]digest=(\S+) 201 ", re.MULTILINE)

    def told():
        with open(log, encoding="utf-8") as file:
            return [urllib.parse.unquote(digest) for digest in wanted.findall(file.read())]

    becomes(True, lambda: len(told()) >= count)
    return told()


def an_image_by(name, digests, folder):
    """A client pushes an image to sixteen workers, with nothing before them, while another connection is idle. All of
    its blobs arrive, layers that it compresses too. It stops at the manifest, which this registry doesn't have."""
    log, repository = os.path.join(folder, f"{name}.log"), f"lib/{name}"
    env = {"BLOBD_WORKERS": 16, "BLOBD_LOG": 1}
    with open(log, "wb") as stderr, Server(env=env, stderr=stderr) as server, server.client() as idle:
        equal(f"a connection before {name}", idle.ask("GET", "/v2/").status, 200)
        begun = time.monotonic()
        output = IMAGE_CLIENTS[name](folder, f"docker://{server.addr}/{repository}:one")
        if output is None:
            return
        status, printed = output
        # a connection is ended behind a minute of silence
        is_kept = time.monotonic() - begun > 55 or idle.ask("GET", "/v2/").status == 200
        check(f"{name} waits for no other connection", is_kept, printed)
        check(f"{name} stops at the manifest", status != 0 and "manifest" in printed, (status, printed))
        stored = stored_blobs(log, repository, len(digests))
        blobs = {digest: pull(server, repository, digest) for digest in stored}
        found = {digest: blob for digest, blob in blobs.items() if isinstance(blob, bytes)}
        comes_back = blobs == found and all(sha256(blob) == digest for digest, blob in found.items())
        check(f"what {name} stored comes back", comes_back, (stored, printed))
        plain = {sha256(gzip.decompress(blob) if blob.startswith(b"\x1f\x8b") else blob) for blob in found.values()}
        check(f"{name} stored every blob of the image", plain == set(digests), (plain, digests, printed))


@case()
def images(folder):
    """Those of the clients that are installed push the same image."""
    sizes = (0, 5_000, 70_000, 2 * MIB)
    layers = [layer_of(f"file{at}", random.Random(at).randbytes(size)) for at, size in enumerate(sizes)]
    digests = write_layout(os.path.join(folder, "layout"), layers)
    for name in IMAGE_CLIENTS:
        if not lacks(f"an image by {name}", name):
            an_image_by(name, digests, folder)


@case("skopeo")
def skopeo_copies(folder):
    """skopeo pushes an image to two workers, as it is: its blobs arrive, and it stops at the manifest."""
    digests = write_layout(os.path.join(folder, "layout"), [random.Random(6).randbytes(2 * MIB)])
    with Server(1000) as server:
        there = f"docker://{server.addr}/lib/image:one"
        words = [*SKOPEO, "--preserve-digests", "--dest-compress=false", "oci:layout", there]
        status, printed = output_of(words, folder)
        check("skopeo stops at the manifest", status != 0 and "manifest" in printed, printed)
        for digest in digests:
            got = pull(server, "lib/image", digest)
            check(f"skopeo's blob {digest}", isinstance(got, bytes) and sha256(got) == digest, (got, printed))


if __name__ == "__main__":
    main(__doc__)
