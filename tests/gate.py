#!/usr/bin/env python3
"""The whole gate: the repository's own checks, the toolchain's gate over every crate, and the scripts over the program.

`rt ci` builds the program before it tries must-fail edits. From then on the scripts run beside it, one for each
processor. What a script prints goes to a log, which is shown whole if it failed. At the end the gate says how long each
part took, what failed, and 'N passed, M failed'. Exit status 1 if anything failed.
"""
import collections
import concurrent.futures
import os
import re
import subprocess
import sys
import tempfile
import threading
import time

TOP = os.path.dirname(os.path.dirname(os.path.abspath(__file__)))
CLOSING = re.compile(r"^(\d+) passed, (\d+) failed$")
# What a part prints of a failure; of one that prints nothing of the kind its last lines tell.
TELLING = re.compile(r"\bFAILED\b|\bNOT (PROVED|REFUSED|TRIED)\b|^\w*(Error|Exception)\b")
TOLD_LINES = 30
# What `rt ci` prints once the program is proved and built, or once it has that of an earlier run; and of each crate that it
# proves its name, and in the last line of its check how many of its functions may wait.
BUILT = re.compile(r"^rt: blobd (proved$|is kept\b)")
CRATE = re.compile(r"^== (\w+)(: its tests)?$")
CHECKED = re.compile(r"^logic=(?:.*\bmay-wait=(\d+))?")

PROCESSORS = len(os.sched_getaffinity(0))
PRINTING = threading.Lock()

Part = collections.namedtuple("Part", ["name", "command"])
# How a part ended: its counts, what tells of a failure, and how many seconds it took.
End = collections.namedtuple("End", ["name", "passed", "failed", "telling", "seconds"])


def script(name, file, *words):
    """A script that drives the program, which `rt ci` leaves."""
    return Part(name, [sys.executable, f"tests/{file}.py", "crates/blobd/out/blobd", *words])


# The longest come first, so that the last to end is a short one. What a newcomer meets has the program built once more,
# without its proof.
SCRIPTS = [
    script("what a newcomer meets", "newcomers"),
    script("power cuts", "power_cuts"),
    script("pushes", "pushes"),
    script("its data directory on a disk that fails or fills", "serve_disks"),
    script("its data directory, damaged", "serve_damage"),
    script("its journal, damaged between its records", "serve_journal"),
    script("uploads to the server", "serve_uploads"),
    script("the registry: shards", "registry_shards"),
    script("its directory compacted", "compactions"),
    script("pushes to servers that don't serve", "push_servers"),
    script("connections of the server", "serve_connections"),
    script("replies before their time", "early_replies"),
    script("how much it holds", "serve_room"),
    script("the registry: pushes from elsewhere", "registry_adapter"),
    script("its data directory", "serve_data"),
    script("clients for a while", "soak", "--seconds", "7"),
    script("the registry: manifests", "registry_manifests"),
    script("the registry: texts that collide", "registry_collisions"),
    script("a memory that all kinds of requests fill", "fills"),
    script("the registry: its room", "registry_room"),
    script("the registry: clients", "registry_clients"),
    script("what it says that it holds", "serve_status"),
    script("the log of the server", "serve_log"),
    script("the registry: its health", "registry_health"),
    script("curl and clients of images", "serve_clients"),
    script("the registry: its setup", "registry_setup"),
    script("a memory that is full", "full_memory"),
    script("faults of the server", "serve_faults"),
    script("which folders it takes for that", "serve_folders"),
    script("the registry: requests", "registry_requests"),
    script("streams, beside a model", "differential"),
    script("the registry: images moved into it", "registry_moves"),
    script("the registry: restarts", "registry_restarts"),
    script("the command line", "command_line"),
    script("the commands", "commands"),
    script("whole connections", "connections"),
]
# This one takes the built tests too.
LAST = script("each growth refused in turn", "growths")


def say(*lines):
    with PRINTING:
        print(*lines, sep="\n", flush=True)


def ended(part, lines, status, begun):
    """How a part ended. One that says no counts has failed."""
    counts = [found for line in lines if (found := CLOSING.match(line))]
    passed, failed = map(int, counts[-1].groups()) if counts else (0, 1)
    if status != 0 and failed == 0:
        failed = 1
    telling = [line for line in lines if TELLING.search(line)] or lines
    end = End(part.name, passed, failed, telling[-TOLD_LINES:] if failed else [], time.monotonic() - begun)
    say(f"--- {end.name}: {passed} passed, {failed} failed, {end.seconds:.0f} s")
    return end


def run_shown(part, heard=lambda line: None, **variables):
    """Runs a part, showing what it prints; `heard` is told each line."""
    say(f"--- {part.name}")
    begun, lines = time.monotonic(), []
    options = {"stdout": subprocess.PIPE, "stderr": subprocess.STDOUT, "text": True, "errors": "replace"}
    with subprocess.Popen(part.command, cwd=TOP, env=os.environ | variables, **options) as process:
        for line in process.stdout:
            lines.append(line.rstrip())
            if not CLOSING.match(lines[-1]):
                say(lines[-1])
            heard(lines[-1])
    return ended(part, lines, process.returncode, begun)


def run_logged(part):
    """Runs a part. What it prints is shown if it failed."""
    begun = time.monotonic()
    with tempfile.TemporaryFile("w+", errors="replace") as log:
        status = subprocess.run(part.command, cwd=TOP, stdin=subprocess.DEVNULL, stdout=log, stderr=log, check=False).returncode
        log.seek(0)
        lines = log.read().splitlines()
    end = ended(part, lines, status, begun)
    if end.failed:
        say(f"--- {part.name}: its log", *lines)
    return end


class Crates:
    """Hears what `rt ci` prints: starts the scripts once the program is built, and compares how many functions of each crate
    that it proves may wait with crates.txt. A crate that an earlier run proved was compared then."""

    def __init__(self, pool):
        self.pool, self.scripts = pool, []
        self.crate, self.may_wait = None, {}

    def hear(self, line):
        if found := CRATE.match(line):
            self.crate = None if found[2] else found[1]
        elif (found := CHECKED.match(line)) and self.crate:
            self.may_wait[self.crate] = int(found[1] or 0)
        elif BUILT.match(line):
            self.scripts = [self.pool.submit(run_logged, part) for part in SCRIPTS]

    def counts(self):
        """Whether crates.txt has the numbers that the checks print."""
        begun = time.monotonic()
        with open(os.path.join(TOP, "crates.txt"), encoding="utf-8") as file:
            lines = [line.split(":")[0].split() for line in file if ":" in line and not line.startswith("#")]
        said = {name: next((int(word.split("=")[1]) for word in words if word.startswith("may_wait=")), 0) for name, *words in lines}
        wrong = [
            f"FAILED: {name}: may_wait={said.get(name, 0)}, and its check says {count}"
            for name, count in self.may_wait.items()
            if count != said.get(name, 0)
        ]
        closing = f"{len(self.may_wait) - len(wrong)} passed, {len(wrong)} failed"
        return ended(Part("what may wait, by crates.txt", []), [*wrong, closing], 0, begun)


def lanes():
    """Has the toolchain run as many checks at a time as there are processors, each over one job, if memory bears that."""
    return {"RT_JOBS": str(PROCESSORS)} if os.sysconf("SC_PHYS_PAGES") * os.sysconf("SC_PAGE_SIZE") >= PROCESSORS * 5 << 30 else {}


def all_parts():
    """Runs all parts and gives how each ended."""
    ends = [run_shown(Part("the repository", [sys.executable, "tests/repository.py"]))]
    with concurrent.futures.ThreadPoolExecutor(PROCESSORS) as pool:
        crates = Crates(pool)
        ends.append(run_shown(Part("the crates", ["rt", "ci"]), crates.hear, **lanes()))
        ends.append(crates.counts())
        # without a program each says that there is none
        crates.scripts = crates.scripts or [pool.submit(run_logged, part) for part in SCRIPTS]
        ends += [one.result() for one in crates.scripts]
    return [*ends, run_logged(LAST)]


def main():
    begun = time.monotonic()
    ends = all_parts()
    say(*(f"{end.seconds:5.0f} s {end.name}" for end in ends))
    # Said once more at the end, where a reader of a long log looks.
    say(*(f"{end.name}: {line:.300}" for end in ends for line in end.telling))
    passed, failed = sum(end.passed for end in ends), sum(end.failed for end in ends)
    say(f"{time.monotonic() - begun:5.0f} s in all", f"{passed} passed, {failed} failed")
    return 1 if failed else 0


if __name__ == "__main__":
    sys.exit(main())
