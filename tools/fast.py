#!/usr/bin/env python3
"""Builds the program without its proof, in three minutes: for a first try, and for developers.

    fast.py         crates/blobd/out/blobd-unproved, for every x86-64 processor

`rt try` makes one LLVM module of the whole program, with checks: an index out of bounds, an overflow and the like end
the process. It hands the module to the toolchain's clang. Here it meets a clang that keeps the module; the toolchain's
own then compiles it, and its linker links it. Exit status 1 if the sources have an error, or the toolchain isn't made
as this needs it.
"""
import os
import shutil
import subprocess
import sys
import tempfile
import time

TOP = os.path.dirname(os.path.dirname(os.path.abspath(__file__)))
CRATE = os.path.join(TOP, "crates", "blobd")
PROGRAM = os.path.join(CRATE, "out", "blobd-unproved")
TARGET = "x86_64-unknown-linux-gnu"
# `rt try` also has a module compiled that looks for bad accesses to memory: that one is kept, and the words with which
# it was to be compiled. No object file is made of it, so `rt try` ends.
LOOKS = "-fsanitize=address"
KEEPER = """#!/bin/sh
case " $* " in
*" {looks} "*) cp module.bc '{kept}' && printf '%s\\n' "$@" > '{kept}.words'; exit 1;;
esac
exec '{clang}' "$@"
"""
# of what went wrong, this many characters are shown
SHOWN = 3000


def linked_into(folder, source, but):
    """A folder of links to all that is in another one, but these."""
    os.makedirs(folder)
    for name in set(os.listdir(source)) - set(but):
        os.symlink(os.path.join(source, name), os.path.join(folder, name))


def with_keeper(kit, folder, kept):
    """A toolchain of links, whose clang is the keeper. `rt` looks for the others beside itself, so it is a copy."""
    copied = ("rt", "rtlib.py")
    linked_into(folder, kit, ["bin", "toolchain"])
    linked_into(f"{folder}/bin", f"{kit}/bin", copied)
    for name in copied:
        shutil.copy(f"{kit}/bin/{name}", f"{folder}/bin")
    linked_into(f"{folder}/toolchain", f"{kit}/toolchain", ["bin"])
    linked_into(f"{folder}/toolchain/bin", f"{kit}/toolchain/bin", ["clang"])
    with open(f"{folder}/toolchain/bin/clang", "w", encoding="utf-8") as file:
        file.write(KEEPER.format(looks=LOOKS, kept=kept, clang=f"{kit}/toolchain/bin/clang"))
    os.chmod(file.name, 0o755)


def ran(step, words, kept=None, **options):
    """Runs a step, which went well if it ends with status 0, or if it keeps this file. What it said, if it didn't."""
    begun = time.monotonic()
    done = subprocess.run(
        words, stdin=subprocess.DEVNULL, stdout=subprocess.PIPE, stderr=subprocess.STDOUT, check=False, **options
    )
    if not (os.path.exists(kept) if kept else done.returncode == 0):
        return done.stdout.decode("utf-8", "replace") or f"{words[0]} ended with {done.returncode}"
    print(f"{step}: {time.monotonic() - begun:.0f} s", file=sys.stderr, flush=True)
    return None


def compiled(kit, kept, made):
    """The words that compile the kept module: those that `rt try` had for it, but quick, and without a look."""
    with open(f"{kept}.words", encoding="utf-8") as file:
        words = file.read().splitlines()
    changed = {"module.bc": kept, "module.o": made, "-O0": "-O3"}
    return [f"{kit}/toolchain/bin/clang", *(changed.get(word, word) for word in words if word != LOOKS)]


def linked(kit, made, program):
    libraries = [f"{kit}/c/libos_c.a", f"{kit}/c/liblibc_c.a"]
    words = [f"{kit}/bin/rattle-link", "--target", TARGET, "--toolchain", f"{kit}/toolchain"]
    return [*words, "-o", program, made, *libraries]


def build(kit, folder):
    """What went wrong; nothing, if the program was built."""
    begun, kept, made, program = time.time(), f"{folder}/kept.bc", f"{folder}/program.o", f"{folder}/program"
    with_keeper(kit, f"{folder}/kit", kept)
    tried = [f"{folder}/kit/bin/rt", "try", "--steps", "1", "--seconds", "1", "--", "once"]
    fault = (
        ran("lowered", tried, kept, cwd=CRATE)
        or ran("compiled", compiled(kit, kept, made))
        or ran("linked", linked(kit, made, program))
    )
    if not fault:
        # what is changed while it is built is newer than it
        os.utime(program, (begun, begun))
        os.makedirs(os.path.dirname(PROGRAM), exist_ok=True)
        shutil.copy2(program, f"{PROGRAM}.new")
        os.replace(f"{PROGRAM}.new", PROGRAM)
    return fault


def main(words):
    if words:
        print(__doc__)
        return 2
    rt = shutil.which("rt")
    if not rt:
        told = "The toolchain's command rt has to be on the path (README.md, 'The program')."
        print(f"rt isn't found. {told}", file=sys.stderr)
        return 1
    print("Building without any proof: three minutes on a quiet machine.", file=sys.stderr, flush=True)
    try:
        with tempfile.TemporaryDirectory(prefix="unproved-") as folder:
            fault = build(os.path.dirname(os.path.dirname(os.path.realpath(rt))), folder)
    except OSError as error:
        fault = str(error)
    if fault:
        told = "Nothing was built. If the sources have no error: make build proves and builds the program."
        print(fault[-SHOWN:].rstrip(), told, sep="\n", file=sys.stderr)
    return 1 if fault else 0


if __name__ == "__main__":
    sys.exit(main(sys.argv[1:]))
