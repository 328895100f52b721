"""Runs the built program: over one connection, and as a server over loopback."""
import concurrent.futures
import contextlib
import http.client
import multiprocessing
import os
import re
import resource
import select
import signal
import socket
import subprocess
import threading
import time

import servers

from . import TOP
from .suite import OPTIONS
from .wire import PATIENCE, Client, begun_reply, connected, demand, rest_of, sha256

KIB, MIB = 1 << 10, 1 << 20

# What it prints to standard error, in a line, for words that are no command; and a server once it has served its count.
USAGE = "usage: blobd once | serve ADDR COUNT | push ADDR NAME FILE CHUNK\n"
SERVED = "served\n", 0
# what a server says at most once a minute if requests have no room
FULL = (
    "blobd: requests are refused (503) for want of room: in memory (BLOBD_MEMORY), or on the disk of its data directory, "
    "if it has one\n"
)

# and if its table of uploads is full
TABLE_FULL = (
    "blobd: uploads are refused (429) for want of room: its table of open ones is full, or its last number was issued; "
    "one goes as it is closed or cancelled, or after an hour without a chunk\n"
)

# Requests as they are sent.
BASE = b"GET /v2/ HTTP/1.1\r\n\r\n"
LAST_BASE = b"GET /v2/ HTTP/1.1\r\nConnection: close\r\n\r\n"
UNREADABLE = b"GET /v2/ HTTP/9.9\r\n\r\n"


def environment(variables):
    """The environment of a process with these variables too, and without those that are `None`."""
    return {name: str(value) for name, value in (os.environ | variables).items() if value is not None}


def finished(words, env=None, **options):
    """A run of a program that ends by itself."""
    options = {"capture_output": True, "text": True, "timeout": PATIENCE, "check": False} | options
    return subprocess.run(words, env=environment(env or {}), **options)


def told_by(words, **options):
    """The exit status of a run of a program, and the end of what it printed."""
    ran = finished(words, **options)
    return ran.returncode, (ran.stdout + ran.stderr)[-1_000:]


def page_lines(test, places):
    """The lines of docs/OPERATIONS.md before which it says that this test runs them, each of its texts. Other words
    stand in the place of these."""
    with open(os.path.join(TOP, "docs", "OPERATIONS.md"), encoding="utf-8") as file:
        texts = re.findall(rf"<!-- tests/{test}\.py runs these lines.*?-->\n```sh\n(.*?)```", file.read(), re.DOTALL)
    words = re.compile("|".join(map(re.escape, places)) or "$^")
    return [words.sub(lambda found: places[found[0]], text) for text in texts]


def without_builds(folder, *files):
    """The variables with which nothing is built or proved: in this folder is a toolchain whose `rt` and whose other
    files of these names fail at once."""
    for name in ("bin/rt", *files):
        path = os.path.join(folder, name)
        os.makedirs(os.path.dirname(path), exist_ok=True)
        with open(path, "w", encoding="ascii") as file:
            file.write("#!/bin/sh\nexit 1\n")
        os.chmod(path, 0o755)
    return {"PATH": os.path.join(folder, "bin") + os.pathsep + os.environ["PATH"]}


def run(*words, **options):
    """Standard output, the exit status and standard error of a run of the built program that ends by itself."""
    ran = finished([OPTIONS.program, *words], **options)
    return ran.stdout, ran.returncode, ran.stderr


def on_a_terminal(*words, env=None):
    """Standard output and the exit status of a run whose standard error is a terminal, and what was drawn there."""
    terminal, inner = os.openpty()
    drawn, options = [], {"env": environment(env or {}), "text": True}
    with subprocess.Popen([OPTIONS.program, *words], stdout=subprocess.PIPE, stderr=inner, **options) as ran:
        os.close(inner)
        # a terminal that nobody has open any more ends with an error
        with contextlib.suppress(OSError):
            while part := os.read(terminal, 65536):
                drawn.append(part)
        told = ran.stdout.read(), ran.wait(timeout=PATIENCE)
    os.close(terminal)
    return told, b"".join(drawn).decode()


def written(folder, content):
    """The path of a file with these bytes."""
    path = os.path.join(folder, sha256(content).replace(":", "-"))
    with open(path, "wb") as file:
        file.write(content)
    return path


def unhurried(told):
    """What a push told, without the lines that it waits: any may come on a busy machine."""
    return "".join(line for line in told.splitlines(True) if not line.startswith("blobd: waits for "))


def push(addr, name, path, *chunk, **options):
    """A run of a push, without the lines that it waits."""
    line, status, told = run("push", addr, name, path, *map(str, chunk), **options)
    return line, status, unhurried(told)


def pushed(content):
    """What a push that went well prints."""
    return f"pushed {sha256(content)}\n", 0, ""


def already(content):
    """What a push of what is there already prints."""
    return f"already {sha256(content)}\n", 0, ""


def once(sent):
    """What `blobd once` writes over this connection, and its exit status."""
    ran = finished([OPTIONS.program, "once"], input=sent, text=False)
    return ran.stdout, ran.returncode


def becomes(wanted, value):
    """Whether a value becomes the wanted one."""
    end = time.monotonic() + PATIENCE
    while not (is_wanted := value() == wanted) and time.monotonic() < end:
        time.sleep(0.05)
    return is_wanted


def halt(process, seconds):
    """Stops a process for so long, and lets it go on."""
    process.send_signal(signal.SIGSTOP)
    time.sleep(seconds)
    process.send_signal(signal.SIGCONT)


def has_ipv6():
    try:
        socket.create_server(("::1", 0), family=socket.AF_INET6).close()
        return True
    except OSError:
        return False


def processes(count=None):
    """Workers that know what this process does, its options too."""
    return concurrent.futures.ProcessPoolExecutor(count, mp_context=multiprocessing.get_context("fork"))


class Repeated:
    """Works that are done again and again, each in a thread of its own, until they are told to end."""

    def __init__(self, works):
        self.ending = threading.Event()
        self.pool = concurrent.futures.ThreadPoolExecutor(len(works))
        self.threads = [self.pool.submit(self.repeat, work) for work in works]

    def repeat(self, work):
        while not self.ending.is_set():
            work()

    def end(self):
        self.ending.set()
        for thread in self.threads:
            thread.result(timeout=PATIENCE)
        self.pool.shutdown()


class SmallDisk:
    """A disk of so many MiB, in memory: there each byte that is removed is free at once."""

    def __init__(self, folder, size):
        self.path = os.path.join(folder, "disk")
        os.mkdir(self.path)
        self.is_there = os.geteuid() == 0 and self.mount(f"size={size}m")

    def mount(self, options):
        """Whether it could be mounted so."""
        words = ["mount", "-t", "tmpfs", "-o", options, "none", self.path]
        return not subprocess.run(words, capture_output=True, check=False).returncode

    def grow(self, size):
        """Makes it larger, beside whoever uses it."""
        demand(self.mount(f"remount,size={size}m"), "the disk can't be made larger")

    def protect(self, is_protected=True):
        """Has it be one that may only be read, or no more; nobody may have a file open to write."""
        demand(self.mount(f"remount,{'ro' if is_protected else 'rw'}"), "the disk can't be protected")

    def __enter__(self):
        return self

    def __exit__(self, *_):
        if self.is_there:
            subprocess.run(["umount", "-l", self.path], check=True)


def free_port():
    """A port that no other test is given, also not while nobody listens there."""
    return servers.place(servers.free_address())[1]


class Server:
    """`blobd serve`, each worker for so many connections, or for all that come; on a port that the system picks, unless
    one is given, which is to be a `free_port` if it is to start there again; with these variables in its environment,
    under limits of the system, as ["-n 4"] for four descriptors, and with what the shell does to its streams, as
    "2>&-"."""

    def __init__(self, count=None, port=0, host="127.0.0.1", env=None, limits=(), shell="", **options):
        words = [OPTIONS.program, "serve", f"{host}:{port}"] + ([] if count is None else [str(count)])
        if limits or shell:
            limited = "".join(f"ulimit {limit} && " for limit in limits)
            words = ["sh", "-c", f'{limited}exec "$@" {shell}', "sh", *words]
        self.process = subprocess.Popen(words, env=environment(env or {}), stdout=subprocess.PIPE, text=True, **options)
        # it prints this line once it listens
        self.first_line = self.process.stdout.readline()
        self.addr = self.first_line.removeprefix("listening ").strip()

    def __enter__(self):
        return self

    def __exit__(self, *_):
        self.stop()

    def stop(self):
        """Ends it at once, and gives what it printed behind its first line."""
        self.process.kill()
        self.process.wait()
        if self.process.stderr:
            self.process.stderr.close()
        if self.process.stdout.closed:
            return ""
        with self.process.stdout as printed:
            return printed.read()

    def place(self):
        return servers.place(self.addr)

    def connect(self):
        return connected(self.place())

    def client(self):
        return Client(self.place())

    def opened(self, name):
        """Where the upload is that an opening in a repository begins."""
        with self.client() as client:
            return client.opened(name)

    def exchange(self, text):
        """What comes over a connection of its own for these bytes, until the server closes."""
        with self.connect() as connection:
            connection.sendall(text)
            return rest_of(connection)

    def memory(self):
        """The bytes of its memory that are resident."""
        with open(f"/proc/{self.process.pid}/statm", encoding="ascii") as file:
            return int(file.read().split()[1]) * os.sysconf("SC_PAGE_SIZE")

    def address_space(self):
        """The bytes of its address space, resident or not."""
        with open(f"/proc/{self.process.pid}/statm", encoding="ascii") as file:
            return int(file.read().split()[0]) * os.sysconf("SC_PAGE_SIZE")

    def ended(self):
        """What else was printed and the exit status, once it has ended by itself."""
        status = self.process.wait(timeout=PATIENCE)
        return self.process.stdout.read(), status

    def told(self, seconds=PATIENCE):
        """The next line on standard error, or what comes of it in time: less than the usual time is for lines that
        have come already, or aren't to come."""
        line, descriptor = b"", self.process.stderr.fileno()
        # one byte at a time, so that what comes behind the line isn't held here
        while not line.endswith(b"\n") and select.select([descriptor], [], [], seconds)[0]:
            byte = os.read(descriptor, 1)
            if not byte:
                break
            line += byte
        return line.decode()

    def accepting(self):
        """How many of its threads wait for a connection, as the system says: it may hide that, and then it is none."""
        count, folder = 0, f"/proc/{self.process.pid}/task"
        for thread in os.listdir(folder):
            with contextlib.suppress(OSError), open(f"{folder}/{thread}/wchan", encoding="ascii") as file:
                count += "accept" in file.read()
        return count

    def descriptors(self):
        return len(os.listdir(f"/proc/{self.process.pid}/fd"))

    def allow_descriptors(self, most):
        """Lets the server have so many descriptors from now on."""
        _, hard = resource.prlimit(self.process.pid, resource.RLIMIT_NOFILE)
        resource.prlimit(self.process.pid, resource.RLIMIT_NOFILE, (most, hard))

    def end(self):
        """Uses up the connections that are left, and gives what else was printed and the exit status."""
        while self.process.poll() is None:
            try:
                self.connect().close()
            except OSError:
                break
        return self.process.stdout.read(), self.process.wait(timeout=PATIENCE)


def ask_alone(server, method, target, body=b"", **fields):
    """The reply to one request over a connection of its own, which the request asks to close."""
    with server.client() as client:
        return client.ask(method, target, body, Connection="close", **fields)


def base_replies(client, count):
    """The statuses of so many requests that change nothing."""
    return [client.ask("GET", "/v2/").status for _ in range(count)]


def pull(server, name, digest):
    """The blob, or the status where it isn't there."""
    status, fields, body = ask_alone(server, "GET", f"/v2/{name}/blobs/{digest}")
    return body if status == 200 and fields["Docker-Content-Digest"] == digest else status


def pulled_until_its_end(server, name, digest):
    """The length that the reply with a blob tells, and what comes of it before it ends, or its connection."""
    with server.client() as client:
        client.connect()
        client.send_head("GET", f"/v2/{name}/blobs/{digest}")
        reply = begun_reply(client.socket, "GET")
        length = reply.length
        try:
            return length, reply.read()
        except http.client.IncompleteRead as cut:
            return length, cut.partial
