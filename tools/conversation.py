#!/usr/bin/env python3
"""Shows a whole upload: each request beside the program's reply to it, with what it shows.

    conversation.py COMMAND..       for example crates/blobd/out/blobd once

The command is given the requests of crates/blobd/stdin as its standard input. Exit status 1 if it doesn't answer each
of them.
"""
import os
import re
import subprocess
import sys

TOP = os.path.dirname(os.path.dirname(os.path.abspath(__file__)))
REQUESTS = os.path.join(TOP, "crates", "blobd", "stdin")
LENGTH = re.compile(rb"^content-length: *([0-9]+)\r$", re.IGNORECASE | re.MULTILINE)
# what each request shows, in their order
SHOWS = [
    "an upload is opened: the reply says where its chunks go",
    "its status: it has no byte yet, so there is no Range",
    "the first chunk is taken",
    "the next chunk is taken: the upload goes on where it stands",
    "the same chunk again: its offset is wrong now, so it is refused and changes nothing",
    "the upload is closed: the digest is that of the chunks, so the blob is stored",
    "after the close: a chunk is refused",
    "after the close: the upload is gone",
    "after the close: a second close is refused",
]


def messages(text):
    """The messages of a stream whose bodies all have a Content-Length, or none."""
    while text:
        head, separator, rest = text.partition(b"\r\n\r\n")
        found = LENGTH.search(head + b"\r\n")
        length = int(found.group(1)) if found else 0
        yield head + separator + rest[:length]
        text = rest[length:]


def shown(message, mark):
    lines = message.decode("utf-8", "replace").replace("\r\n", "\n").strip("\n").split("\n")
    return "\n".join(f"{mark} {line}".rstrip() for line in lines)


def main(command):
    if not command:
        print(__doc__)
        return 2
    try:
        with open(REQUESTS, "rb") as asked:
            ran = subprocess.run(command, stdin=asked, capture_output=True, check=False)
    except FileNotFoundError as fault:
        print(f"{fault.filename} isn't found (docs/TROUBLES.md)", file=sys.stderr)
        return 1
    with open(REQUESTS, "rb") as file:
        requests, replies = list(messages(file.read())), list(messages(ran.stdout))
    for number, (shows, request, reply) in enumerate(zip(SHOWS, requests, replies), 1):
        print(f"--- {number}. {shows}\n{shown(request, '>')}\n\n{shown(reply, '<')}\n")
    if ran.returncode != 0 or not len(SHOWS) == len(requests) == len(replies):
        sys.stderr.write(ran.stderr.decode("utf-8", "replace"))
        print(f"{len(replies)} replies to {len(requests)} requests, and status {ran.returncode}", file=sys.stderr)
        return 1
    print(f"{len(replies)} requests, each answered; the connection ended well.")
    return 0


if __name__ == "__main__":
    sys.exit(main(sys.argv[1:]))
