#!/usr/bin/env python3
"""Tries must-fail edits in a copy of the repository: the further ones, under `crates/*/further-edits/`, or those that
are named.

    edits.py                 every further edit
    edits.py --minutes N     some of them by turns: it begins no edit later than N minutes from now, and the next call
                             goes on after the last one
    edits.py CRATE..         the further edits of these crates
    edits.py FILE..          these edits alone, of either folder

Prints a line for each edit. Exit status 1 if the prover doesn't refuse one.
"""
import argparse
import bisect
import itertools
import os
import re
import shutil
import subprocess
import sys
import tempfile
import time

from files import TOP, text_of, tracked
from wrong_bodies import FOLDERS

# the last edit that was tried by turns
LAST = "out/last-edit"
TRIED = re.compile(r"^rt: must-fail \w+/", re.MULTILINE)


def is_edit(path):
    return path.endswith(".edit") and path.split("/")[-2] in FOLDERS


def crate_of(path):
    return path.split("/")[1]


def copied(folder):
    """Copies what git tracks, edits left out, and the libraries that are proved already."""
    for path in tracked():
        if not is_edit(path):
            to = os.path.join(folder, path)
            os.makedirs(os.path.dirname(to), exist_ok=True)
            shutil.copy2(os.path.join(TOP, path), to)
    for crate in os.listdir(os.path.join(TOP, "crates")):
        proved = os.path.join(TOP, "crates", crate, "out", "rlib")
        if os.path.isdir(proved):
            shutil.copytree(proved, os.path.join(folder, "crates", crate, "out", "rlib"))


def tried(folder, edits):
    """Tries these edits in the copy. Gives how many, and whether all were refused."""
    for path in edits:
        at = os.path.join(folder, "crates", crate_of(path), "must-fail")
        os.makedirs(at, exist_ok=True)
        shutil.copy2(os.path.join(TOP, path), at)
    crates = sorted({crate_of(path) for path in edits})
    ran = subprocess.run(["rt", "must-fail", *crates], cwd=folder, stdout=subprocess.PIPE, text=True, check=False)
    print(ran.stdout, end="", flush=True)
    for crate in crates:
        shutil.rmtree(os.path.join(folder, "crates", crate, "must-fail"))
    return len(TRIED.findall(ran.stdout)), ran.returncode == 0


def tried_by_turns(folder, edits, minutes):
    """Tries edits for so long, on from the last one that was tried, as many at once as there are processors. Each
    crate is checked here first: its edits in the copy begin with what that keeps."""
    end = time.monotonic() + 60 * minutes
    count, all_refused = 0, True
    begin = bisect.bisect_right(edits, text_of(LAST))
    for crate, of_crate in itertools.groupby(edits[begin:] + edits[:begin], crate_of):
        if time.monotonic() < end:
            subprocess.run(["rt", "check"], cwd=os.path.join(TOP, "crates", crate), check=False)
        while time.monotonic() < end and (group := list(itertools.islice(of_crate, os.cpu_count()))):
            told, refused = tried(folder, group)
            count, all_refused = count + told, all_refused and refused
            os.makedirs(os.path.join(TOP, os.path.dirname(LAST)), exist_ok=True)
            with open(os.path.join(TOP, LAST), "w", encoding="utf-8") as file:
                file.write(group[-1])
    return count, all_refused


def main():
    parser = argparse.ArgumentParser()
    parser.add_argument("names", nargs="*")
    parser.add_argument("--minutes", type=float)
    asked = parser.parse_args()
    named = [os.path.relpath(os.path.abspath(name), TOP) for name in asked.names if name.endswith(".edit")]
    absent = [path for path in named if not os.path.isfile(os.path.join(TOP, path))]
    if absent:
        print(f"there is no {', '.join(absent)}", file=sys.stderr)
        return 2
    further = sorted(path for path in tracked() if is_edit(path) and "/further-edits/" in path)
    edits = named or [path for path in further if not asked.names or crate_of(path) in asked.names]
    with tempfile.TemporaryDirectory() as folder:
        copied(folder)
        count, all_refused = tried_by_turns(folder, edits, asked.minutes) if asked.minutes else tried(folder, edits)
    print(f"{count} of {len(edits)} edits tried{'' if all_refused else ', and not all were refused'}")
    return 0 if all_refused else 1


if __name__ == "__main__":
    sys.exit(main())
