#!/usr/bin/env python3
"""`blobd push` to a registry with TLS and a login, through deploy/adapter.cfg.

    registry_adapter.py PROGRAM
"""
import os
import signal
import socket
import subprocess
import sys
import time

from harness import TOP
from harness.listeners import Scripted
from harness.registry import LOGIN, PROXY, Client, Site, servers
from harness.running import already, finished, push, pushed, run, written
from harness.suite import OPTIONS, case, check, equal, main
from harness.wire import PATIENCE, address_of

SCRIPT = os.path.join(TOP, "deploy", "adapter.py")
CONTENT = b"a file of another machine\n" * 9000
WORD = ":".join(LOGIN)


def adapter(site, folder, host="127.0.0.1", certificates=None, login=WORD):
    to = f"{host}:{servers.place(site.haproxy.tls)[1]}"
    return servers.Adapter(folder, to, certificates or site.certificates, login)


def status_through(adapter_of_some):
    with adapter_of_some as one:
        return Client(one.address).ask("GET", "/v2/").status


@case(*PROXY)
def files_are_pushed_over_tls(folder):
    """By an address and by a name. The second push finds the file."""
    path = written(folder, CONTENT)
    with Site() as site:
        for host in ("127.0.0.1", "localhost"):
            with adapter(site, folder, host) as one:
                name = f"lib/{host}"
                equal(f"a push to {host}", push(one.address, name, path, "64K"), pushed(CONTENT))
                equal(f"another to {host}", push(one.address, name, path), already(CONTENT))


@case(*PROXY)
def whom_the_adapter_trusts(folder):
    """Neither a certificate of others, nor one for another name, nor a wrong password."""
    others = os.path.join(folder, "others")
    os.mkdir(others)
    servers.certificate(others)
    with Site() as site:
        equal("the registry", status_through(adapter(site, folder)), 200)
        certificates = os.path.join(others, "ca", "front.crt")
        equal("a certificate of others", status_through(adapter(site, folder, certificates=certificates)), 503)
        renamed = adapter(site, folder, "localhost")
        renamed.settings["ADAPTER_NAME"] = "registry.example"
        equal("a certificate for another name", status_through(renamed), 503)
        equal("a wrong password", status_through(adapter(site, folder, login="alice:wrong")), 401)
        equal("no login", status_through(adapter(site, folder, login=None)), 401)


@case(*PROXY)
def a_push_says_whose_login_is_wrong(folder):
    """The adapter's, if the registry doesn't take it or there is none; and that a push has none, without the adapter."""
    path = written(folder, CONTENT)
    with Site() as site:
        to = f"127.0.0.1:{servers.place(site.haproxy.tls)[1]}"
        for login in (None, "alice:wrong"):
            with servers.Adapter(folder, to, site.certificates, login) as one:
                line, status, told = push(one.address, "lib/a", path)
                equal(f"a push with the login {login}", (line.split()[:2], status), (["refused:", "401"], 1))
                wanted = f"blobd: can't push to {one.address}: the registry behind the adapter wants a login, or another one"
                check(f"what is said of the login {login}", told.startswith(wanted), told)


@case(*PROXY)
def the_newcomers_adapter(folder):
    """deploy/adapter.py says how to push, and what is wrong if it can't."""
    login, bad, path = (os.path.join(folder, name) for name in ("login", "bad", "file"))
    for name, text in ((login, f"{WORD}\n"), (bad, "alice:wrong\n"), (path, "some text")):
        with open(name, "w", encoding="ascii") as file:
            file.write(text)
    with Site() as site:
        at = servers.free_address()
        words = [sys.executable, SCRIPT, site.haproxy.tls, "--at", at]
        trusted = ["--ca", site.certificates]
        for name, more, word in (
            ("no login", trusted, "LOGIN=FILE"),
            ("a wrong password", [*trusted, "--login", bad], "LOGIN=FILE"),
            ("a certificate that isn't trusted", ["--login", login], "CA=FILE"),
        ):
            ran = finished([*words, *more])
            check(name, ran.returncode == 1 and word in ran.stderr, ran)
        with subprocess.Popen([*words, *trusted, "--login", login], stdout=subprocess.PIPE, text=True) as running:
            told = next((line.split() for line in running.stdout if line.startswith("  blobd push")), None)
            equal("a line is told", told, ["blobd", "push", at, "NAME", "FILE"])
            ran = finished([OPTIONS.program, "push", at, "lib/new", path])
            check("it pushes", ran.returncode == 0 and ran.stdout.startswith("pushed "), ran)
            running.send_signal(signal.SIGINT)
            check("it ends well", running.wait(timeout=PATIENCE) == 0)


def told_of(registry, *more):
    """What deploy/adapter.py says of a registry that it can't push to."""
    ran = finished([sys.executable, SCRIPT, registry, "--at", servers.free_address(), *more])
    check(f"{registry} isn't pushed to", ran.returncode == 1 and not ran.stdout, ran)
    return ran.stderr


@case(*PROXY)
def the_adapter_names_the_cause(folder):
    """Each cause has its own words, before HAProxy is started, which has the same for all."""
    none = servers.free_address()
    for registry in (none, f"http://{none}"):
        equal(registry, told_of(registry).split(": ")[:2], [f"can't push to {none}", "nobody listens there"])
    told = told_of("registry.invalid:5443")
    check("a name that nobody has", "no address is known for the name registry.invalid" in told, told)
    with Site() as site:
        told = told_of(f"http://{site.haproxy.tls}")
        check("TLS where none is expected", "it speaks TLS" in told, told)
        told = told_of(site.haproxy.local)
        check("no TLS where it is expected", f"REGISTRY=http://{site.haproxy.local}\n" in told, told)
        port = servers.place(site.haproxy.tls)[1]
        told = told_of(f"127.0.0.1:{port}", "--ca", SCRIPT)
        equal("a certificate that is none", told, f"CA={SCRIPT} has no certificate in PEM's form\n")
    with Scripted([b"SSH-2.0-none\r\n"]) as other:
        told = told_of(f"http://{other.addr}")
        check("no HTTP", "it sends no reply of HTTP" in told, told)
    for status, what in ((404, "answers 404: "), (200, "has a blob of a digest that is none's: ")):
        with Scripted([b"HTTP/1.1 %d None\r\nContent-Length: 0\r\nConnection: close\r\n\r\n" % status]) as other:
            told = told_of(f"http://{other.addr}")
            equal(f"what answers {status} to anything", told, f"{other.addr} {what}it isn't a registry\n")


@case(*PROXY)
def an_address_that_another_adapter_has(folder):
    """HAProxy would share it, and pushes would go to either registry: it is refused before anything is begun."""
    rest = os.path.join(folder, "rest")
    os.mkdir(rest)
    none = b"HTTP/1.1 404 None\r\nContent-Length: 0\r\nConnection: close\r\n\r\n"
    with Scripted([none]) as registry, servers.Adapter(folder, registry.addr) as one:
        words = [f"REGISTRY=http://{registry.addr}", f"ADAPTER={one.address}"]
        ran = finished(["make", "--no-print-directory", "adapter", *words], cwd=TOP, env={"TMPDIR": rest})
        line = f"can't listen at {one.address}: another program has it (ss -ltnp shows which); "
        line += "ADAPTER=127.0.0.1:PORT names another address"
        equal("its line", (ran.returncode, ran.stdout, ran.stderr.splitlines()[0]), (2, "", line))
        equal("what the registry was asked", registry.asked, [])
    equal("what is left", os.listdir(rest), [])


@case(*PROXY)
def a_wait_of_the_adapter_is_told():
    """A registry that takes a connection and says nothing: seconds before the end it is told what is waited for."""
    with socket.create_server(("127.0.0.1", 0), backlog=50) as listener:
        registry = address_of(listener)
        words = [sys.executable, SCRIPT, f"http://{registry}", "--at", servers.free_address()]
        with subprocess.Popen(words, stderr=subprocess.PIPE, text=True) as waiting:
            equal("what is told", waiting.stderr.readline(), f"waits for {registry}\n")
            begun = time.monotonic()
            rest = waiting.stderr.read()
            check("in time", time.monotonic() - begun > 2, time.monotonic() - begun)
            equal("why it ends", rest.split(", ")[0], f"can't push to {registry}: it takes a connection")
            equal("how it ends", waiting.wait(timeout=PATIENCE), 1)


@case(*PROXY)
def a_push_through_the_adapter_to_nobody(folder):
    """It says what it waits for, and names no certificate where there is none."""
    path = written(folder, CONTENT)
    with servers.Adapter(folder, servers.free_address()) as one:
        # HAProxy tries for three seconds before it answers: a push whose time passed faster would give up before that
        line, status, told = run("push", one.address, "lib/none", path)
        equal("its line", (line, status), ("refused: out of tries\n", 1))
        # on a busy machine an answer may take longer, which is told too
        wait, *rest = [one_line for one_line in told.splitlines() if "which says nothing" not in one_line]
        equal("what it waits for", wait, f"blobd: waits for {one.address}, which answers 503")
        why = "the server answers 503: the registry behind the adapter takes no connection (tried 7 times)"
        equal("why it ended", rest, [f"blobd: can't push to {one.address}: {why}"])


if __name__ == "__main__":
    main(__doc__, side_by_side=True)
