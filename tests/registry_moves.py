#!/usr/bin/env python3
"""Images that are moved into the registry from another one and back, by the lines of docs/OPERATIONS.md, and layers
that are pushed before their image.

    registry_moves.py PROGRAM
"""
import json
import os

from harness.registry import LOGIN, PROXY, Client, Site, images, servers, skopeo
from harness.running import finished, page_lines, run
from harness.suite import case, check, equal, main

# one name without a folder, and two tags of one name
IMAGES = [("plain", "one"), ("team/app", "one"), ("team/app", "two"), ("team/deep/app", "one")]


def layout(folder, text):
    """The folder of an image whose layer has this text, and the digest of that layer."""
    place = os.path.join(folder, text.replace("/", "-"))
    digests = images.write_layout(place, [images.layer_of("file", text.encode() * 5000)], "one", is_packed=True)
    return place, digests[1]


def found_in(client):
    """The manifests of all tags."""
    names = json.loads(client.ask("GET", "/v2/_catalog").body)["repositories"]
    found = {}
    for name in names:
        for tag in json.loads(client.ask("GET", f"/v2/{name}/tags/list").body)["tags"]:
            kinds = ", ".join([images.MANIFEST, "application/vnd.oci.image.index.v1+json"])
            found[name, tag] = client.ask("GET", f"/v2/{name}/manifests/{tag}", Accept=kinds).body
    return found


@case(*PROXY, "skopeo", "docker-registry")
def images_are_moved_in_and_back(folder):
    """In from one docker-registry, and back into another one, so that nothing was there before."""
    folders = [os.path.join(folder, name) for name in ("first", "second")]
    for path in folders:
        os.mkdir(path)
    with servers.DockerRegistry(folders[0]) as first, servers.DockerRegistry(folders[1]) as second, Site() as site:
        for name, tag in IMAGES:
            place, _ = layout(folder, f"{name}/{tag}")
            to = f"docker://{first.address}/{name}:{tag}"
            ran = skopeo(site, "copy", "--dest-tls-verify=false", f"oci:{place}:one", to)
            check(f"{name}:{tag} is made", ran[0] == 0, ran)
        there = {"NEW": site.haproxy.tls, "CA": os.path.dirname(site.certificates), "PASSWORD": LOGIN[1]}
        for at, old in enumerate((first, second)):
            text = page_lines("registry_moves", there | {"OLD": old.address})[at]
            settings = os.environ | {"REGISTRY_AUTH_FILE": f"{site.folder}/auth.json"}
            ran = finished(["sh", "-eu", "-c", text], env=settings)
            check("the lines run", ran.returncode == 0, ran.stderr)
        before = found_in(Client(first.address))
        equal("all are there", sorted(before), sorted(IMAGES))
        equal("in the registry", found_in(site.client()), before)
        equal("and in the other one", found_in(Client(second.address)), before)


@case(*PROXY, "skopeo")
def a_layer_goes_ahead(folder):
    """A layer that `blobd push` pushed isn't sent again with its image."""
    with Site() as site:
        place, digest = layout(folder, "large")
        blob = os.path.join(place, "blobs", "sha256", digest.removeprefix("sha256:"))
        equal("a layer", run("push", site.haproxy.local, "lib/large", blob)[1], 0)
        opened = len(uploads(site))
        words = ["--dest-cert-dir", os.path.dirname(site.certificates), "--dest-creds", ":".join(LOGIN)]
        ran = skopeo(site, "copy", *words, f"oci:{place}:one", f"docker://{site.haproxy.tls}/lib/large:one")
        check("its image", ran[0] == 0, ran)
        # that of the configuration
        equal("one more blob is sent", len(uploads(site)) - opened, 1)


def uploads(site):
    with open(site.haproxy.log, encoding="utf-8") as log:
        return [line for line in log if '"PATCH ' in line]


if __name__ == "__main__":
    main(__doc__)
