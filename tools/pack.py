#!/usr/bin/env python3
"""Packs the built program, under dist/.

    pack.py release     blobd-VERSION-x86_64.tar.gz: the program for every processor and for x86-64-v3, deploy/, the
                        pages, the license and the sums
    pack.py image       blobd-VERSION-image.tar: a container image of the program and the C library, which docker and
                        podman load

Both are the same bytes for the same files. Exit status 1 if the program isn't built.
"""
import gzip
import hashlib
import io
import json
import os
import re
import subprocess
import sys
import tarfile

TOP = os.path.dirname(os.path.dirname(os.path.abspath(__file__)))
DIST = os.path.join(TOP, "dist")
PROGRAM = "crates/blobd/out/blobd"
PAGES = ["README.md", "CHANGELOG.md", "CONTRIBUTING.md", "LICENSE", "VERSION"]
LIBRARY = re.compile(r"(/\S+) \(0x")
ADDRESS = "0.0.0.0:5001"
# Where the image keeps what it has: of the user that it runs as, and a volume gets both from it.
VOLUME = "var/lib/blobd"
USER = 65534
MALLOC = "glibc.malloc.hugetlb=1:glibc.malloc.mmap_threshold=1048576:glibc.malloc.arena_max=1"


def version():
    with open(os.path.join(TOP, "VERSION"), encoding="utf-8") as file:
        return file.read().strip()


def contents(path):
    with open(path if os.path.isabs(path) else os.path.join(TOP, path), "rb") as file:
        return file.read()


def folders_of(names):
    """The folders that these names are in, and those that these are in."""
    return {name[:at] for name in names for at, letter in enumerate(name) if letter == "/"}


def tar_of(files, owned=()):
    """A tar of these names, each with its bytes and its mode, and of their folders: who unpacks it may give others no
    way into a folder that isn't listed. It says nothing of who made it or when. The folders that are owned are those of
    the image's user, for that user alone."""
    made = io.BytesIO()
    with tarfile.open(fileobj=made, mode="w", format=tarfile.USTAR_FORMAT) as tar:
        for name in sorted(folders_of([*files, *owned]) | set(files) | set(owned)):
            entry = tarfile.TarInfo(name)
            data = b""
            if name in files:
                data, entry.mode = files[name]
            else:
                entry.type, entry.mode = tarfile.DIRTYPE, 0o755
            if name in owned:
                entry.mode, entry.uid, entry.gid = 0o700, USER, USER
            entry.size = len(data)
            tar.addfile(entry, io.BytesIO(data))
    return made.getvalue()


def written(name, data):
    """Writes a file under dist/, and its SHA-256 beside it as `sha256sum --check` reads it."""
    os.makedirs(DIST, exist_ok=True)
    for path, text in ((name, data), (f"{name}.sha256", f"{hashlib.sha256(data).hexdigest()}  {name}\n".encode())):
        with open(os.path.join(DIST, path), "wb") as file:
            file.write(text)
    print(f"dist/{name}  {len(data):,} bytes, its sum in dist/{name}.sha256")


def tracked(*folders):
    listed = subprocess.run(["git", "ls-files", "-z", "--", *folders], cwd=TOP, capture_output=True, check=True)
    return [path for path in listed.stdout.decode().split("\0") if path]


def release():
    files = {"bin/blobd": (contents(PROGRAM), 0o755), "bin/blobd-v3": (contents(f"{PROGRAM}-v3"), 0o755)}
    for path in [*PAGES, *tracked("docs", "deploy")]:
        files[path] = (contents(path), 0o644)
    sums = "".join(f"{hashlib.sha256(data).hexdigest()}  {name}\n" for name, (data, _) in sorted(files.items()))
    files["SHA256SUMS"] = (sums.encode(), 0o644)
    folder = f"blobd-{version()}"
    tar = tar_of({f"{folder}/{name}": file for name, file in files.items()})
    written(f"{folder}-x86_64.tar.gz", gzip.compress(tar, mtime=0))


def libraries():
    """What the program is loaded with: the C library and its loader."""
    told = subprocess.run(["ldd", os.path.join(TOP, PROGRAM)], capture_output=True, text=True, check=True).stdout
    return LIBRARY.findall(told)


def image():
    files = {"usr/local/bin/blobd": (contents(PROGRAM), 0o755)}
    files.update({path.lstrip("/"): (contents(path), 0o755) for path in libraries()})
    layer = tar_of(files, [VOLUME])
    labels = {"org.opencontainers.image.version": version(), "org.opencontainers.image.licenses": "Apache-2.0"}
    settings = {
        "Entrypoint": ["/usr/local/bin/blobd"],
        "Cmd": ["serve", ADDRESS],
        "Env": [f"GLIBC_TUNABLES={MALLOC}", "BLOBD_WORKERS=16", f"BLOBD_DATA=/{VOLUME}/data"],
        "Volumes": {f"/{VOLUME}": {}},
        "ExposedPorts": {f"{ADDRESS.rpartition(':')[2]}/tcp": {}},
        "User": f"{USER}:{USER}",
        "StopSignal": "SIGKILL",
        "Labels": labels,
    }
    layers = {"type": "layers", "diff_ids": [f"sha256:{hashlib.sha256(layer).hexdigest()}"]}
    config = json.dumps({"architecture": "amd64", "os": "linux", "config": settings, "rootfs": layers}).encode()
    named = f"{hashlib.sha256(config).hexdigest()}.json"
    manifest = json.dumps(
        [{"Config": named, "RepoTags": [f"localhost/blobd:{version()}"], "Layers": ["layer.tar"]}]
    ).encode()
    name = f"blobd-{version()}-image.tar"
    written(name, tar_of({"manifest.json": (manifest, 0o644), named: (config, 0o644), "layer.tar": (layer, 0o644)}))
    print("Load it and run it (docker takes the same words):")
    print(f"  podman load -i dist/{name}")
    limits = "--memory 8500m --ulimit data=8589934592"
    ports, volume = "-p 127.0.0.1:5001:5001", f"-v blobd:/{VOLUME}"
    print(f"  podman run --rm --init {limits} {ports} {volume} localhost/blobd:{version()}")


def main(words):
    packs = {"release": release, "image": image}
    if len(words) != 1 or words[0] not in packs:
        print(__doc__)
        return 2
    try:
        packs[words[0]]()
    except FileNotFoundError as fault:
        print(f"{fault.filename} isn't there: build it first (make build, make native)", file=sys.stderr)
        return 1
    return 0


if __name__ == "__main__":
    sys.exit(main(sys.argv[1:]))
