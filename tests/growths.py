#!/usr/bin/env python3
"""Refuses each growth of memory in turn: in the tests that are written for it, and in the built program over whole
connections.

    growths.py PROGRAM

A small library, loaded before the C library, refuses the Nth allocation of a process, N from 1 until a run meets none.

- The tests are those of the crates whose name has `refused_growth`, in the test programs that `rt ci` and `rt test`
  leave in out/. Each of them passes whichever growth is refused.
- The program serves each connection of tests/connections/ (`blobd once`), and each with every request sent twice. If
  the service was refused memory, the request is answered 503 without a body, and the others as over a connection
  without that request. If the reader was, the connection ends with status 3 after the replies to the requests before.
  The expected replies are those of undisturbed runs. If there is no memory for the words of its command line, the
  program says so: `fault: memory`, status 3.
- A push to a server that has all the memory it wants ends well, since a connection is made again; or it says
  `fault: memory`, or `fault: file` if there is no memory for the file, with status 3.

Prints how many growths there were. Without a C compiler nothing is run.
"""
import collections
import concurrent.futures
import functools
import glob
import os
import re
import subprocess
import tempfile

import connections
import model
import stored
from harness import TOP, running, shims
from harness.suite import OPTIONS, case, check, equal, main

IS_GROWTH_TEST = "refused_growth"
MOST_GROWTHS = 10_000
# So many runs that aren't right are told of one connection.
MOST_WRONG = 10

NO_MEMORY = b"HTTP/1.1 503 Service Unavailable\r\nContent-Length: 0\r\n\r\n"
NO_MEMORY_AND_CLOSE = NO_MEMORY.replace(b"\r\n\r\n", b"\r\nConnection: close\r\n\r\n")
UPLOAD = b"/v2/lib/a/blobs/uploads/00000001-0000-8000-8000-000000000000"
BEGUN = connections.opening_reply(1)


def run_refused(folder, command, sent, number):
    """Runs a command whose growth of this number is refused. Gives what it wrote, its status (None: it didn't end) and
    whether it met that growth."""
    told, teller = os.pipe()
    env = shims.loaded(folder, "growths", REFUSED_GROWTH=number, GROWTHS_TELLER=teller)
    # a file, of which each run reads the same at a time
    with tempfile.TemporaryFile() as given:
        given.write(sent)
        given.seek(0)
        try:
            # what a test makes in a folder of its own stands in this one
            ran = running.finished(command, stdin=given, text=False, env=env, pass_fds=[teller], cwd=folder)
            written, status = ran.stdout, ran.returncode
        except subprocess.TimeoutExpired:
            written, status = b"", None
    os.close(teller)
    with os.fdopen(told, "rb") as end:
        return written, status, end.read() == b"x"


def over_all_growths(folder, command, sent, is_right):
    """Refuses each growth of a command in turn. Gives how many there were, and a line for each run that isn't right."""
    wrong = []
    for number in range(1, MOST_GROWTHS):
        written, status, met = run_refused(folder, command, sent, number)
        if not is_right(written, status):
            wrong.append(f"growth {number} refused: status {status}; wrote {written[-300:]!r}")
        if not met and number == 1:
            wrong.append("it met no growth")
        if not met or len(wrong) == MOST_WRONG:
            return number - (not met), wrong
    return number, ["no end of its growths"]


def has_growth_tests(crate):
    sources = glob.glob(f"{crate}src/**/*.rt", recursive=True)
    return any(IS_GROWTH_TEST in open(source, encoding="utf-8").read() for source in sources)


def growth_tests(crate):
    """The growth tests of a crate, each with its command. A crate that has such tests and no test program is an
    error."""
    name = os.path.basename(crate.rstrip("/"))
    program = f"{crate}out/{name}_tests"
    if not os.path.exists(program):
        raise AssertionError(f"{program} isn't there: rt test makes it, and rt ci")
    listed = subprocess.run([program, "--list"], capture_output=True, text=True, check=True).stdout
    tests = [test for test in re.findall(r"^(\S+): test$", listed, re.MULTILINE) if IS_GROWTH_TEST in test]
    return [(f"{name} {test}", [program, test]) for test in tests]


def ends_well(_, status):
    return status == 0


def requests_of(sent):
    """The requests of a connection. What stands behind the last that is answered is one more."""
    ends = [turn.end for turn in model.conversation(sent)[0]]
    return [request for request in (sent[begin:end] for begin, end in zip([0, *ends], [*ends, len(sent)])) if request]


def patch(first, body):
    """A PATCH of the first upload, and its reply."""
    last = first + len(body) - 1
    request = b"PATCH %s HTTP/1.1\r\nHost: h\r\nContent-Range: %d-%d\r\nContent-Length: %d\r\n\r\n%s" % (
        UPLOAD,
        first,
        last,
        len(body),
        body,
    )
    return request, BEGUN.replace(b"Content-Length", b"Range: 0-%d\r\nContent-Length" % last)


def right_ends(requests):
    """What the program may write over these requests, each with the status that goes with it, whichever growth is
    refused; and the method of the request that is then answered 503, if one is."""
    # no memory for the words of the command line, and none for the reader's buffer
    ends = {running.once(b"".join(requests)): None, (b"fault: memory\n", 3): None, (b"", 3): None}
    for place, request in enumerate(requests):
        before, _ = running.once(b"".join(requests[:place]))
        without, status = running.once(b"".join(requests[:place] + requests[place + 1 :]))
        ends[before, 3] = None
        if re.search(rb"(?i)\r\nConnection: *close\r\n", request):
            refused = (before + NO_MEMORY_AND_CLOSE, 0)
        else:
            refused = (before + NO_MEMORY + without[len(before) :], status)
        ends[refused] = request.split(b" ")[0].decode()
    return ends


def conversations():
    """Connections: a name, the requests, and how one of the runs has to end, if that is known."""
    small, small_taken = patch(0, b"a")
    more, more_taken = patch(1, b"bcdefghi")
    large, large_taken = patch(0, b"x" * 70_000)
    yield "a PATCH, and the next one twice", [connections.OPENING, small, more, more], (
        BEGUN + small_taken + NO_MEMORY + more_taken,
        0,
    )
    yield "a large PATCH twice", [connections.OPENING, large, large], (BEGUN + NO_MEMORY + large_taken, 0)
    for stem, sent, _, _ in stored.connections():
        requests = requests_of(sent)
        yield stem, requests, None
        yield f"{stem}, each request twice", [request for request in requests for _ in range(2)], None


def serve(folder, requests, wanted):
    """Serves a connection, each growth refused in turn. Gives how many there were, a line for each run that isn't
    right, and the methods answered 503."""
    ends, met = right_ends(requests), []

    def is_right(*end):
        met.append(end)
        return end in ends

    growths, wrong = over_all_growths(folder, [OPTIONS.program, "once"], b"".join(requests), is_right)
    if wanted and wanted not in met:
        wrong.append(f"no run ended with status {wanted[1]} and {wanted[0]!r}")
    return growths, wrong, collections.Counter(filter(None, map(ends.get, met)))


def over(cases, run):
    """Runs each case at once with others, and gives what each gave. A case whose growths were not all met well has
    failed."""
    cases, results = list(cases), []
    check("there are cases", cases)
    with concurrent.futures.ThreadPoolExecutor(os.cpu_count()) as pool:
        for (name, *_), result in zip(cases, pool.map(lambda case: run(*case[1:]), cases)):
            results.append((name, *result))
            check(name, not result[1], "\n    ".join(["", *result[1]]))
    return results


@case("cc")
def test_tests(folder):
    # it is compiled once, before threads load it
    shims.loaded(folder, "growths")
    crates = [crate for crate in sorted(glob.glob(f"{TOP}/crates/*/")) if has_growth_tests(crate)]
    tests = [test for crate in crates for test in growth_tests(crate)]
    for name, growths, _ in over(tests, lambda command: over_all_growths(folder, command, b"", ends_well)):
        print(f"{growths} growths: {name}")


@case("cc")
def test_program(folder):
    shims.loaded(folder, "growths")
    results = over(conversations(), functools.partial(serve, folder))
    refused = sum((methods for *_, methods in results), collections.Counter())
    counts = ", ".join(f"{count} {method}" for method, count in sorted(refused.items()))
    print(
        f"{sum(growths for _, growths, *_ in results)} growths: the program over {len(results)} connections; "
        f"answered 503: {counts}"
    )
    equal("what is answered 503", set(refused), {"GET", "PATCH", "POST", "PUT"})


@case("cc")
def test_push(folder):
    pushed, refused = (running.pushed(b"abc")[0].encode(), 0), (b"fault: memory\n", 3)
    # the reply to a close may be what there was no memory for: what is there is found then
    right = {pushed, refused, (running.already(b"abc")[0].encode(), 0), (b"fault: file\n", 3)}
    ends, met, path = collections.Counter(), True, running.written(folder, b"abc")
    with running.Server() as server:
        while met and ends.total() < MOST_GROWTHS:
            # each is to a repository that hasn't the blob
            number = ends.total() + 1
            command = [OPTIONS.program, "push", server.addr, f"lib/{number}", path, "2"]
            *end, met = run_refused(folder, command, b"", number)
            ends[tuple(end)] += 1
            check(f"a push whose growth {number} is refused", tuple(end) in right, end)
    print(f"{ends.total() - 1} growths: a push; {ends[refused]} times out of memory")
    equal("how pushes end", set(ends), right)


if __name__ == "__main__":
    main(__doc__)
