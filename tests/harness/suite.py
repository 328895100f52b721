"""Cases and their checks, which are counted: the last line of a script is 'N passed, M failed'.

A script's words are the built program, its own options, and `-k WORD` for the cases whose names have that word. A case
is a function. It makes checks, and goes on if one fails. If it raises an error, that is one more that failed.
"""
import argparse
import concurrent.futures
import dataclasses
import inspect
import multiprocessing
import os
import signal
import sys
import tempfile
import threading
import traceback
import typing

import servers

# The words of the script: `program` is the built program.
OPTIONS = argparse.Namespace(program="")


@dataclasses.dataclass(frozen=True)
class Case:
    """A function that makes checks, and the programs and Debian's packages without which it is skipped."""

    function: typing.Callable
    needs: tuple

    @property
    def name(self):
        return self.function.__name__

    def run(self):
        if lacks(self.name, *self.needs):
            return
        try:
            with tempfile.TemporaryDirectory() as folder:
                arguments = [folder] if inspect.signature(self.function).parameters else []
                self.function(*arguments)
        except Exception:
            check(self.name, False, traceback.format_exc())


CASES = []
COUNTS = {True: 0, False: 0}
LOCK = threading.Lock()


def case(*needs):
    """Makes a function a case. One that takes an argument is given a folder of its own."""

    def made(function):
        CASES.append(Case(function, needs))
        return function

    return made


def check(name, holds, told=""):
    """Counts a check, and tells of one that fails. Threads may make checks at once."""
    with LOCK:
        COUNTS[bool(holds)] += 1
    if not holds:
        print(f"FAILED: {name}: {told}", flush=True)


def equal(name, got, wanted):
    """Checks that something is what is wanted."""
    is_wanted = got == wanted
    check(name, is_wanted, is_wanted or f"{got!r:.2000} in place of {wanted!r:.2000}")


def skip(name, why):
    print(f"skipped: {name}: {why}", flush=True)


def lacks(name, *needs):
    """Whether some of these isn't installed: then what needs it is told as skipped."""
    missing = servers.missing(*needs)
    if missing:
        skip(name, f"{', '.join(missing)} isn't installed")
    return bool(missing)


def counted(number):
    """Runs a case in a process of its own, and gives its counts."""
    COUNTS.update({True: 0, False: 0})
    CASES[number].run()
    return COUNTS


def run_apart(chosen):
    """Runs cases at the same time, each in a process that knows what this one does."""
    fork = multiprocessing.get_context("fork")
    with concurrent.futures.ProcessPoolExecutor(len(chosen), mp_context=fork) as pool:
        for counts in pool.map(counted, map(CASES.index, chosen)):
            for holds, count in counts.items():
                COUNTS[holds] += count


def main(description, side_by_side=False, **options):
    """Runs the calling script's cases, and ends it: with status 1 if a check failed. Its options have a default and a
    meaning each, and are in `OPTIONS`. Cases that mostly wait may run side by side."""
    parser = argparse.ArgumentParser(description=description, formatter_class=argparse.RawDescriptionHelpFormatter)
    parser.add_argument("program", help="the built program, crates/blobd/out/blobd")
    parser.add_argument("-k", metavar="WORD", dest="words", action="append", help="only cases whose names have WORD")
    for name, (default, told) in options.items():
        parser.add_argument(f"--{name}", type=type(default), default=default, help=f"{told} ({default})")
    parser.parse_args(namespace=OPTIONS)
    OPTIONS.program = os.path.abspath(OPTIONS.program)
    # In the background of a shell this is ignored, and what is started here would ignore it too.
    signal.signal(signal.SIGINT, signal.default_int_handler)
    chosen = [one for one in CASES if any(word in one.name for word in OPTIONS.words or [""])]
    # those of a script that this one takes something from aren't its own
    chosen = [one for one in chosen if one.function.__module__ == "__main__"]
    if not chosen:
        check("the cases", False, "none has such a name")
    if side_by_side and len(chosen) > 1:
        run_apart(chosen)
    else:
        for one in chosen:
            one.run()
    print(f"{COUNTS[True]} passed, {COUNTS[False]} failed", flush=True)
    sys.exit(COUNTS[False] > 0)
