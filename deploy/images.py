"""Images in the layout that OCI defines, for `make registry` and for the tests."""
import gzip
import hashlib
import io
import json
import os
import tarfile

MEDIA = "application/vnd.oci.image."
MANIFEST, CONFIG, LAYER = (MEDIA + kind for kind in ("manifest.v1+json", "config.v1+json", "layer.v1.tar"))


def layer_of(name, content):
    """A layer's tar, with one file."""
    room = io.BytesIO()
    with tarfile.open(fileobj=room, mode="w") as tar:
        entry = tarfile.TarInfo(name)
        entry.size = len(content)
        tar.addfile(entry, io.BytesIO(content))
    return room.getvalue()


def write_layout(folder, layers, name=None, is_packed=False):
    """Writes an image of these layers, under a name if it is given one, and with the layers packed by gzip if that is
    asked for. Gives the digests of its configuration and its layers."""
    blobs = os.path.join(folder, "blobs", "sha256")
    os.makedirs(blobs, exist_ok=True)

    def keep(content, kind):
        digest = hashlib.sha256(content).hexdigest()
        with open(os.path.join(blobs, digest), "wb") as file:
            file.write(content)
        return {"mediaType": kind, "digest": f"sha256:{digest}", "size": len(content)}

    unpacked = [f"sha256:{hashlib.sha256(layer).hexdigest()}" for layer in layers]
    rootfs = {"type": "layers", "diff_ids": unpacked}
    config = keep(json.dumps({"architecture": "amd64", "os": "linux", "config": {}, "rootfs": rootfs}).encode(), CONFIG)
    if is_packed:
        kept = [keep(gzip.compress(layer, 1, mtime=0), LAYER + "+gzip") for layer in layers]
    else:
        kept = [keep(layer, LAYER) for layer in layers]
    manifest = {"schemaVersion": 2, "mediaType": MANIFEST, "config": config, "layers": kept}
    entry = keep(json.dumps(manifest).encode(), MANIFEST)
    if name:
        entry["annotations"] = {"org.opencontainers.image.ref.name": name}
    index = {"schemaVersion": 2, "manifests": [entry]}
    for path, content in (("oci-layout", {"imageLayoutVersion": "1.0.0"}), ("index.json", index)):
        with open(os.path.join(folder, path), "w", encoding="ascii") as file:
            json.dump(content, file)
    return [blob["digest"] for blob in (config, *kept)]
