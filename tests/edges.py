#!/usr/bin/env python3
"""Tries the edges: programs that the contracts allow, and that a reader of them wouldn't expect. So what isn't promised
is a list that runs.

    edges.py            every edge
    edges.py CRATE..    those of these crates

An edge is a file `crates/CRATE/may-pass/NAME.edit`, written like a must-fail edit, but for its head:

    # does: what the edited function does
    # allowed by: the contract that lets it through

The prover must accept it. If it refuses one, a contract has become stronger, and the edge becomes a must-fail edit.
Prints a line for each edge. Exit status 1 if one isn't accepted.
"""
import os
import re
import subprocess
import sys
import tempfile

from edits import copied
from files import text_of, tracked
from wrong_bodies import edited

HEAD = re.compile(r"\A# does: .+\n# allowed by: .+\n")
PROVED = re.compile(r"^logic=proved ", re.MULTILINE)


def is_accepted(folder, path):
    """Whether the prover accepts an edge, in a copy of the repository that is as it was afterwards."""
    changed = edited(path)
    if changed is None or not HEAD.match(text_of(path)):
        return False
    for target, text in changed.items():
        with open(os.path.join(folder, target), "w", encoding="utf-8") as file:
            file.write(text)
    crate = os.path.join(folder, "crates", path.split("/")[1])
    ran = subprocess.run(["rt", "check"], cwd=crate, stdout=subprocess.PIPE, text=True, check=False)
    for target in changed:
        with open(os.path.join(folder, target), "w", encoding="utf-8") as file:
            file.write(text_of(target))
    return bool(PROVED.search(ran.stdout))


def main(crates):
    edges = sorted(path for path in tracked() if "/may-pass/" in path and path.endswith(".edit"))
    refused = 0
    with tempfile.TemporaryDirectory() as folder:
        copied(folder)
        for path in edges:
            if not crates or path.split("/")[1] in crates:
                accepted = is_accepted(folder, path)
                refused += not accepted
                print(f"{path}: {'accepted' if accepted else 'REFUSED, or it can not be tried'}", flush=True)
    return 1 if refused else 0


if __name__ == "__main__":
    sys.exit(main(sys.argv[1:]))
