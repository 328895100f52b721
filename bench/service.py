#!/usr/bin/env python3
"""Figures of the service without a connection, as ratios in one run.

    service.py PROGRAM

PROGRAM is the built `bench_service`. Each of its words runs three times. A word measures two times, of which the least
of three counts, and memory, of which the most counts. Needs about 1.1 GiB of memory.
"""
import os
import re
import subprocess
import sys

WORDS = ("stream", "refuse", "commit", "drip")
TIME = re.compile(r"^(.*): (\d+) us")
MEMORY = re.compile(r"^memory kept: (\d+) for each 1,000 bytes$", re.MULTILINE)
BLOB_MEMORY = re.compile(r"^memory kept: (\d+) bytes for each blob$", re.MULTILINE)


def times(text):
    """What each time of a run is of, and the time in microseconds: first what is beside, then what is measured."""
    found = [TIME.match(line) for line in text.splitlines()]
    return [(match.group(1), int(match.group(2))) for match in found if match]


def figure(program, word):
    """The figure of a word, as a line."""
    texts = [
        subprocess.run([program, word], capture_output=True, text=True, timeout=120, check=True).stdout
        for _ in range(3)
    ]
    (beside, _), (measured, _) = times(texts[0])
    least_beside, least_measured = (min(times(text)[place][1] for text in texts) for place in (0, 1))
    stored = "false" if word == "refuse" else "true"
    if word != "drip" and not all(re.search(rf"stored: (?:{stored}|1000)$", text, re.MULTILINE) for text in texts):
        sys.exit(f"{word}: what had to be stored was not, or what had to be refused was")
    memory = [int(kept) for text in texts for kept in MEMORY.findall(text)]
    kept = f", {max(memory) / 1000:.3f} bytes of memory a byte" if memory else ""
    each = [int(kept) for text in texts for kept in BLOB_MEMORY.findall(text)]
    kept += f", {max(each)} bytes of memory a blob" if each else ""
    ratio = least_measured / max(least_beside, 1)
    return f"{measured}: {ratio:.3f} of the time of {beside} ({least_measured} us, {least_beside} us){kept}"


def main():
    program = os.path.abspath(sys.argv[1])
    for word in WORDS:
        print(figure(program, word))


if __name__ == "__main__":
    main()
