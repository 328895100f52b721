#!/usr/bin/env python3
"""Prints the numbers of data directories as Prometheus' node exporter reads them from a file (its textfile collector).

    metrics.py DIR.. > blobd.prom

They come from `blobd status --json DIR` and from the file system, also while a server has the directory: no server is
asked, and none is changed. The `blobd` is the one on the path. Of a directory that can't be read standard error says
why, `blobd_readable` is 0, the other numbers are missing, and the exit status is 1.
"""
import json
import os
import subprocess
import sys

# by the name of a number: what it is, and how it is read off what `blobd status` says
NUMBERS = {
    "blobd_readable": ("Whether the directory can be read.", lambda told: 1),
    "blobd_blobs": ("Blobs that are stored, each once.", lambda told: told["blobs"]),
    "blobd_stored_bytes": ("Bytes of the stored blobs.", lambda told: told["stored"]),
    "blobd_uploads_open": ("Open uploads, idle ones too.", lambda told: told["uploads"]),
    "blobd_received_bytes": ("Bytes that the open uploads have received.", lambda told: told["received"]),
    "blobd_disk_left_bytes": ("Bytes that are free on the disk of the directory.", lambda told: told["left"]),
    "blobd_records_unread": ("Records of the journal that are damaged.", lambda told: told.get("unread", 0)),
    "blobd_records_missing": ("Whether records are missing at its end.", lambda told: int("missing" in told)),
}


def told_of(path):
    """What `blobd status` says of a directory, with the room on its disk; nothing if that can't be had."""
    try:
        ran = subprocess.run(["blobd", "status", "--json", path], stdout=subprocess.PIPE, check=True)
        disk = os.statvfs(path)
        return json.loads(ran.stdout) | {"left": disk.f_bavail * disk.f_frsize}
    except (OSError, ValueError, subprocess.CalledProcessError) as fault:
        print(f"metrics.py: {path}: {fault}", file=sys.stderr)
        return None


def quoted(text):
    escaped = text.replace("\\", r"\\").replace('"', r"\"").replace("\n", r"\n")
    return f'"{escaped}"'


def lines_of(found):
    """The lines of all numbers of these directories."""
    for name, (meaning, value) in NUMBERS.items():
        yield f"# HELP {name} {meaning}"
        yield f"# TYPE {name} gauge"
        for path, told in found.items():
            if told is not None:
                yield f"{name}{{dir={quoted(path)}}} {value(told)}"
            elif name == "blobd_readable":
                yield f"{name}{{dir={quoted(path)}}} 0"


def main(paths):
    if not paths or paths[0].startswith("-"):
        print(__doc__)
        return 2
    found = {path: told_of(path) for path in paths}
    print("\n".join(lines_of(found)))
    return int(None in found.values())


if __name__ == "__main__":
    sys.exit(main(sys.argv[1:]))
