#!/usr/bin/env python3
"""Prints which blobs the manifests refer to: a line `NAME DIGEST` for each blob of each repository, as `blobd compact`
takes it.

    referenced.py ADDRESS > FILE               of all manifests
    referenced.py --tagged ADDRESS > FILE      of those alone that stay, as the next two tell
    referenced.py --untagged ADDRESS           prints the other manifests, in lines of the same form
    referenced.py --untagged --delete ADDRESS  deletes them, and prints those that it has deleted

A manifest stays if it has a tag, if it was pushed or lost a tag within the last day (--grace SECONDS: within so many),
or if one that stays names it.

ADDRESS is that of the Redis that keeps the manifests; FRONT_REDIS_PASSWORD has its password. If it can't be asked, the
exit status is 1, and no list is printed: it wouldn't be whole. A manifest that can't be read is named on standard
error, and refers to whatever its text has of the form of a digest.
"""
import argparse
import json
import os
import re
import socket
import sys
import typing

DIGEST = re.compile(r"sha256:[0-9a-f]{64}|sha512:[0-9a-f]{128}")
PATIENCE = 60
# seconds
DAY = 86400
# the script that drops a manifest
DROP = os.path.join(os.path.dirname(os.path.abspath(__file__)), "drop.lua")


class Refused(Exception):
    """Redis refuses a command, or ends the connection."""


class Redis:
    """A connection to Redis."""

    def __init__(self, address, password):
        host, port = address.rsplit(":", 1)
        self.socket = socket.create_connection((host.strip("[]"), int(port)), timeout=PATIENCE)
        self.replies = self.socket.makefile("rb")
        if password:
            self.ask("AUTH", password)

    def ask(self, *words):
        """What Redis replies to a command: bytes, a number, a list of replies, or None."""
        parts = [b"*%d\r\n" % len(words)]
        for word in words:
            word = word if isinstance(word, bytes) else word.encode()
            parts.append(b"$%d\r\n%s\r\n" % (len(word), word))
        self.socket.sendall(b"".join(parts))
        return self.reply()

    def read(self, size):
        content = self.replies.read(size)
        if len(content) < size:
            raise Refused("the connection ended")
        return content

    def reply(self):
        line = self.replies.readline()
        if not line.endswith(b"\r\n"):
            raise Refused("the connection ended")
        kind, rest = line[:1], line[1:-2]
        if kind == b"-":
            raise Refused(rest.decode(errors="replace"))
        if kind == b"+":
            return rest
        size = int(rest)
        if kind == b":":
            return size
        if size < 0:
            return None
        if kind == b"$":
            return self.read(size + 2)[:-2]
        return [self.reply() for _ in range(size)]


def read(body):
    """What a text of JSON says (RFC 8259, as json.lua has it), but for its numbers: none is too long."""

    def refuse(word):
        raise ValueError(f"{word} is no JSON")

    return json.loads(body.decode(), parse_int=str, parse_float=str, parse_constant=refuse)


def unescaped(body):
    """A text with the letters that it has as escapes."""
    text = body.decode("latin-1").replace("\\/", "/")
    return re.sub(r"\\u00([0-7][0-9a-fA-F])", lambda found: chr(int(found[1], 16)), text)


def digests_in(value):
    """All digests that a manifest has, wherever they stand in it."""
    if isinstance(value, dict):
        digest = value.get("digest")
        if isinstance(digest, str) and DIGEST.fullmatch(digest):
            yield digest
        value = value.values()
    elif not isinstance(value, list):
        return
    for part in value:
        yield from digests_in(part)


def referred(name, digest, body):
    """The digests that a manifest refers to."""
    try:
        return set(digests_in(read(body)))
    except (ValueError, RecursionError) as fault:
        kept = set(DIGEST.findall(unescaped(body)))
        told = f"{name.decode()}@{digest.decode()} can't be read: {fault}"
        print(f"referenced.py: {told}; the {len(kept)} digests in it are kept", file=sys.stderr)
        return kept


class Manifest(typing.NamedTuple):
    """A manifest as it was found: which put it was of, whether it stays whatever others name, the manifests that it
    names, and all digests that it refers to."""

    stamp: bytes
    is_root: bool
    names: list
    digests: set


def manifests_of(redis, name, since):
    """The manifests of a repository by their digests. One stays by itself if it has a tag, or was used since then."""
    found = {}
    for digest in redis.ask("SMEMBERS", b"manifests:" + name):
        at = name + b"@" + digest
        stamp, used = redis.ask("HMGET", b"manifest:" + at, "stamp", "used")
        is_root = int(used or 0) > since or redis.ask("EXISTS", b"tagged:" + at) == 1
        names = [named.decode() for named in redis.ask("SMEMBERS", b"names:" + at)]
        body = redis.ask("GET", b"body:" + at)
        # one that was deleted meanwhile refers to nothing
        if body is not None:
            found[digest.decode()] = Manifest(stamp, is_root, names, referred(name, digest, body))
    return found


def staying(found):
    """Those of a repository's manifests that stay: the roots, and what is named by one that stays."""
    stays, left = {}, [digest for digest, one in found.items() if one.is_root]
    while left:
        digest = left.pop()
        if digest in found and digest not in stays:
            stays[digest] = found[digest]
            left += found[digest].names
    return stays


def repositories(redis, grace):
    """Each repository's name, its manifests, and those of them that stay."""
    since = int(redis.ask("TIME")[0]) - grace
    for name in redis.ask("ZRANGE", "repositories", "0", "-1"):
        found = manifests_of(redis, name, since)
        yield name.decode(), found, staying(found)


def untagged(redis, grace):
    """The manifests that don't stay: the name, the digest and the stamp of each."""
    for name, found, stays in repositories(redis, grace):
        yield from ((name, digest, found[digest].stamp) for digest in sorted(found.keys() - stays.keys()))


def delete(redis, manifests):
    """Deletes manifests, and gives those that it has deleted. One stays if it was put again meanwhile, or if an index
    that stays names it: so the indexes among them go first."""
    with open(DROP, encoding="utf-8") as file:
        script = file.read()
    left, before = list(manifests), None
    while left != before:
        left, before = [], left
        for one in before:
            if redis.ask("EVAL", script, "0", *one, "0", "unnamed"):
                yield one
            else:
                left.append(one)


def referenced(redis, grace=None):
    """The pairs of a repository and a digest that its manifests have; those alone that stay if a grace is told."""
    for name, found, stays in repositories(redis, grace or 0):
        manifests = found if grace is None else stays
        for digest in sorted(set().union(*(one.digests for one in manifests.values()))):
            yield name, digest


def lines_of(redis, words):
    """The lines that the words ask for."""
    if not words.untagged:
        # all of them first: a list that isn't whole is none
        return list(referenced(redis, words.grace if words.tagged else None))
    found = list(untagged(redis, words.grace))
    return delete(redis, found) if words.delete else found


def seconds(text):
    """A number of seconds, as `blobd compact` takes it."""
    if not re.fullmatch(r"[0-9]{1,10}", text):
        raise argparse.ArgumentTypeError("SECONDS are digits alone, as 86400")
    return int(text)


def words_of(words):
    parser = argparse.ArgumentParser(description=__doc__, formatter_class=argparse.RawDescriptionHelpFormatter)
    which = parser.add_mutually_exclusive_group()
    which.add_argument("--tagged", action="store_true")
    which.add_argument("--untagged", action="store_true")
    parser.add_argument("--delete", action="store_true")
    parser.add_argument("--grace", metavar="SECONDS", type=seconds, default=DAY)
    parser.add_argument("address", metavar="ADDRESS")
    told = parser.parse_args(words)
    if told.delete and not told.untagged:
        parser.error("--delete goes with --untagged")
    return told


def main(words):
    told = words_of(words)
    try:
        redis = Redis(told.address, os.environ.get("FRONT_REDIS_PASSWORD"))
        for name, digest, *_ in lines_of(redis, told):
            print(name, digest)
        sys.stdout.flush()
    except (OSError, Refused, ValueError) as error:
        sys.exit(f"referenced.py: {error}")


if __name__ == "__main__":
    main(sys.argv[1:])
