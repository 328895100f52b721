#!/usr/bin/env python3
"""The words, the environment and the standard streams of the built program, and how it ends.

    command_line.py PROGRAM
"""
import os
import socket
import subprocess

from harness import TOP
from harness.running import LAST_BASE, SERVED, USAGE, Server, on_a_terminal, run
from harness.suite import OPTIONS, case, check, equal, main
from harness.wire import PATIENCE, address_of, is_silent

ADDR = "127.0.0.1:0"


def are_refused(*words):
    equal(f"the words {list(words)}", run(*words), ("", 2, USAGE))


@case()
def words():
    for count in ("", "0", "1000001", "+1", "1x", "18446744073709551617"):
        are_refused("serve", ADDR, count)
    are_refused("serve", ADDR, "1", "1")
    for addr in ("localhost:0", "127.0.0.1", "127.0.0.1:65536", ""):
        are_refused("serve", addr, "1")
        are_refused("serve", addr)
    for chunk in ("0", "-1", "1k", "3G", "2147483649"):
        are_refused("push", ADDR, "a", "f", chunk)
    for others in ([], ["twice"], ["Once"], ["serve"], ["once", "once"], ["status"], ["status", "--json"], ["status", "d", "d"],
                   ["status", "d", "--json"]):
        are_refused(*others)
    for others in ([], ["--dry-run"], ["d", "k", "k"], ["--grace", "1"], ["--grace", "1", "d"], ["--dry-run", "--grace", "1"],
                   ["--grace", "1", "--dry-run", "d", "k"], ["--grace", "1", "d", "k", "k"]):
        are_refused("compact", *others)
    for grace in ("", "-1", "+1", "1d", "1000000001"):
        are_refused("compact", "--grace", grace, "d", "k")
        are_refused("compact", "--dry-run", "--grace", grace, "d", "k")


@case()
def help_and_version():
    """What the program is asked for is on standard output, and its version is that of the file."""
    with open(os.path.join(TOP, "VERSION"), encoding="utf-8") as file:
        equal("the version", run("--version"), (f"blobd {file.read().strip()}\n", 0, ""))
    told, status, more = run("--help")
    equal("help is no error", (status, more), (0, ""))
    for command in (
        "blobd serve ADDR [COUNT]",
        "blobd push ADDR NAME FILE [CHUNK]",
        "blobd compact [--dry-run] DIR\n",
        "blobd compact [--dry-run] [--grace SECONDS] DIR KEEP\n",
        "blobd once",
        "blobd status [--json] DIR",
        "blobd --help",
        "blobd --version",
        "BLOBD_LOG=1",
        "It speaks plain HTTP: ADDR is on this machine",
        "deploy/adapter.cfg",
    ):
        check(f"help tells of {command}", command in told, told)
    check("help fits a terminal", max(map(len, told.splitlines())) <= 100, told)
    for others in (["--help", "push"], ["--version", "1"], ["-h"], ["help"]):
        are_refused(*others)


@case()
def a_terminal_is_told_which_word():
    """Behind the usage, which is the same there."""
    for words, told in (
        (["serve", "localhost:5000"], "ADDR is an IP address and a port"),
        (["push", "127.0.0.1", "lib/a", "file"], "ADDR is an IP address and a port"),
        (["serve", "127.0.0.1:0", "0"], "COUNT is a number from 1 to 1000000"),
        (["push", "127.0.0.1:1", "lib/a", "file", "16MB"], "CHUNK is a number of bytes"),
        (["compact", "--grace", "1d", "d", "k"], "SECONDS is a number from 0 to 1000000000"),
        (["compact", "--dry-run", "--grace", "-1", "d", "k"], "SECONDS is a number from 0 to 1000000000"),
        (["compact", "--grace", "1", "d"], "the command has other words"),
        (["push", "127.0.0.1:1", "lib/a"], "the command has other words"),
        (["status"], "DIR is missing"),
        (["status", "--json"], "DIR is missing"),
        (["compact"], "DIR is missing"),
        (["compact", "--dry-run"], "DIR is missing"),
        (["status", "d", "d"], "the command has other words"),
        (["--help", "push"], "the command has other words"),
        (["help"], "no such command"),
        ([], "no such command"),
        (["push", "127.0.0.1:1", "lib/a", b"\xff"], "a word isn't UTF-8"),
    ):
        ended, drawn = on_a_terminal(*words)
        usage, more = drawn.replace("\r\n", "\n").split("\n", 1)
        equal(f"{words}: what is printed", (*ended, usage + "\n"), ("", 2, USAGE))
        check(f"{words}: what is told", more.startswith(f"blobd: {told}") and more.count("\n") == 1, more)


@case()
def switches():
    """A variable of the environment that says neither yes nor no is told, before an address is taken; another command
    doesn't read it."""
    told = "blobd: BLOBD_LOG is 1 to log requests, or 0, or not set\n"
    with socket.create_server(("127.0.0.1", 0)) as taken:
        for value in ("yes", "2", "on", "01", " 1", "\udcff"):
            ran = run("serve", address_of(taken), "1", env={"BLOBD_LOG": value})
            equal(f"BLOBD_LOG={value!r}", ran, ("", 2, told))
    wrong = {"BLOBD_LOG": "yes"}
    equal("other words go before the environment", run("serve", env=wrong), ("", 2, USAGE))
    equal("a command that logs nothing", run("once", stdin=subprocess.DEVNULL, env=wrong), ("", 0, ""))


@case()
def refuses_other_numbers_of_workers():
    """What may stand there is told on standard error, and nothing is opened."""
    for value in ("", "0", "257", "-1", "+2", " 2", "2 ", "1.5", "two"):
        ran = run("serve", ADDR, "1", env={"BLOBD_WORKERS": value})
        equal(f"BLOBD_WORKERS={value}", ran, ("", 2, "blobd: BLOBD_WORKERS is a number from 1 to 256\n"))
    ran = run("once", env={"BLOBD_WORKERS": "0"}, stdin=subprocess.DEVNULL)
    equal("BLOBD_WORKERS says nothing to another command", ran, ("", 0, ""))


@case()
def taken_address():
    with socket.create_server(("127.0.0.1", 0)) as taken:
        addr = address_of(taken)
        told = (
            f"blobd: can't listen at {addr}: Address already in use (os error 98)\n"
            f"blobd: another program has port {taken.getsockname()[1]} (ss -ltnp shows which; 5000 is also "
            "docker-registry's)\n"
        )
        equal("an address that is taken", run("serve", addr, "1"), ("fault: listen\n", 3, told))


@case()
def workers_have_small_stacks():
    """All the workers that there may be have their stacks in an address space that 64 of the system's own size would
    fill."""
    with Server(1, limits=[f"-v {512 << 10}"], env={"BLOBD_WORKERS": 256, "MALLOC_ARENA_MAX": 1}) as server:
        equal("256 workers in 512 MiB", server.end(), SERVED)


@case()
def faults():
    with open("/dev/full", "w", encoding="utf-8") as full:
        ended = subprocess.run([OPTIONS.program, "serve", ADDR, "1"], stdout=full, timeout=PATIENCE, check=False)
        equal("a line that can't be printed", ended.returncode, 3)


@case()
def closed_streams():
    """No socket gets the number of a standard stream that is closed, and so no line of a log goes to a client."""
    for name, closing in {"standard input": "<&-", "standard error": "2>&-", "both": "<&- 2>&-"}.items():
        with Server(3, shell=closing, env={"BLOBD_LOG": 1}, stderr=subprocess.DEVNULL) as server:
            streams = [os.readlink(f"/proc/{server.process.pid}/fd/{number}") for number in range(3)]
            check(f"the streams of a server without {name}", not any("socket" in stream for stream in streams), streams)
            for _ in range(2):
                reply = server.exchange(LAST_BASE)
                equal(
                    f"a reply without {name}",
                    reply,
                    b"HTTP/1.1 200 OK\r\nContent-Length: 0\r\nConnection: close\r\n\r\n",
                )
            equal(f"the end without {name}", server.end(), SERVED)
    # what can't be printed is a fault, as ever, and what can't be read too
    for name, closing in {"standard output": ">&-", "all three": "<&- >&- 2>&-"}.items():
        for command in (["serve", ADDR, "1"], ["once"]):
            shell = ["sh", "-c", f'exec "$@" {closing}', "sh", OPTIONS.program, *command]
            ended = subprocess.run(shell, stdin=subprocess.DEVNULL, timeout=PATIENCE, check=False)
            wanted = 3 if command[0] == "serve" or name == "all three" else 0
            equal(f"{command[0]} without {name}", ended.returncode, wanted)


@case()
def tells_a_terminal_how_to_stop():
    """Standard error that is a terminal gets two lines, and standard output gets no other than without it."""
    terminal, inner = os.openpty()
    with Server(1, stderr=inner, env={"BLOBD_MEMORY": "64M"}) as server:
        os.close(inner)
        told = b""
        while told.count(b"\n") < 2 and not is_silent(terminal, PATIENCE):
            told += os.read(terminal, 65536)
        equal("what it may hold, and how it is stopped", told.splitlines(), [
            b"blobd: it holds at most 64.0 MiB (BLOBD_MEMORY)",
            b"blobd: Ctrl-C stops it, and its blobs go with it",
        ])
        equal("what it prints all the same", server.end(), SERVED)
    os.close(terminal)


if __name__ == "__main__":
    main(__doc__)
