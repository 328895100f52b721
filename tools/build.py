#!/usr/bin/env python3
"""Proves and builds the program, and keeps the toolchain's log in a file.

    build.py                        crates/blobd/out/blobd, for every x86-64 processor
    build.py --cpu=x86-64-v3        crates/blobd/out/blobd-v3, for processors of that level

On a terminal one line shows how far the proof is. If it fails, the end of the log is shown, and the exit status is 1.
"""
import contextlib
import os
import re
import subprocess
import sys

TOP = os.path.dirname(os.path.dirname(os.path.abspath(__file__)))
CRATE = os.path.join(TOP, "crates", "blobd")
OUT = os.path.join(CRATE, "out")
PROGRAM = os.path.join(OUT, "blobd")
LOG = os.path.join(OUT, "build.log")
LEVEL = re.compile(r"--cpu=x86-64-(v[234])")
PROVED = re.compile(r"(?:\w+ )?(\w+)::\S*: proved$")
LINES_SHOWN = 30


def prove_and_link(flags):
    """Runs the toolchain over the program, which serves nothing then. Whether it was built."""
    shows = sys.stderr.isatty()
    count = 0
    with open(LOG, "w", encoding="utf-8") as log, subprocess.Popen(
        ["rt", "run", *flags, "--", "once"],
        cwd=CRATE,
        stdin=subprocess.DEVNULL,
        stdout=subprocess.PIPE,
        stderr=subprocess.STDOUT,
        text=True,
        errors="replace",
    ) as built:
        for line in built.stdout:
            log.write(line)
            found = PROVED.match(line)
            if found and shows:
                count += 1
                print(f"\r\033[K{count} proved, now in {found.group(1)}", end="", file=sys.stderr, flush=True)
    if shows and count:
        print(file=sys.stderr)
    return built.returncode == 0


@contextlib.contextmanager
def set_aside():
    """Keeps the program for every processor, and the toolchain's note of it, as they are: it writes each form to the
    same place."""
    files = [path for path in (PROGRAM, f"{PROGRAM}.stamp") if os.path.exists(path)]
    for path in files:
        os.replace(path, f"{path}.aside")
    try:
        yield
    finally:
        for path in files:
            os.replace(f"{path}.aside", path)


def build(flags, level):
    if not level:
        well = prove_and_link(flags)
    else:
        with set_aside():
            well = prove_and_link(flags)
            if well:
                os.replace(PROGRAM, f"{PROGRAM}-{level}")
    if well:
        # `make` compares moments, and a program that didn't change keeps its own
        os.utime(f"{PROGRAM}-{level}" if level else PROGRAM)
    return well


def main(flags):
    levels = [found.group(1) for found in map(LEVEL.fullmatch, flags) if found]
    if len(levels) != len(flags) or len(levels) > 1:
        print(__doc__)
        return 2
    os.makedirs(OUT, exist_ok=True)
    log = os.path.relpath(LOG, TOP)
    print(
        "Proving and building: 30 to 60 minutes from nothing on four cores, a minute or two after a change. "
        f"The log is {log}.",
        file=sys.stderr,
    )
    try:
        well = build(flags, levels[0] if levels else "")
    except FileNotFoundError as fault:
        print(
            f"{fault.filename} isn't found. "
            "The toolchain's command rt has to be on the path (README.md, 'The program').",
            file=sys.stderr,
        )
        return 1
    if not well:
        with open(LOG, encoding="utf-8") as file:
            sys.stderr.writelines(file.readlines()[-LINES_SHOWN:])
        print(f"The program wasn't built: the whole log is {log}.", file=sys.stderr)
    return 0 if well else 1


if __name__ == "__main__":
    sys.exit(main(sys.argv[1:]))
