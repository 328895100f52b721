"""Starts blobd and the servers that stand before it, with the settings of this folder, and ends them.

They listen on the loopback address alone. Each is a `Service`, for as long as its `with` lasts. It also ends if the
program that started it is killed.
"""
import contextlib
import ctypes
import errno
import fcntl
import ipaddress
import math
import os
import random
import shutil
import signal
import socket
import subprocess
import sys
import tempfile
import threading
import time

HERE = os.path.dirname(os.path.abspath(__file__))
# Debian keeps servers where the path of others doesn't look.
PATH = os.environ.get("PATH", "") + os.pathsep + "/usr/sbin" + os.pathsep + "/sbin"
# What `make serve` sets too: large blobs lie in huge pages, each large block is the system's own, and all threads have
# one heap.
MALLOC = {"GLIBC_TUNABLES": "glibc.malloc.hugetlb=1:glibc.malloc.mmap_threshold=1048576:glibc.malloc.arena_max=1"}
PATIENCE = 60
# how long the servers of a registry that has just been killed may still have their addresses, and `blobd` its data
# directory, while the system takes back its memory, in seconds
GOING, LOCKED = 3, 10
# a wait is told after so many seconds
TOLD = 3
# how many lines of a log are shown
LINES = 10
DIES_WITH_PARENT = 1
# below those that Linux gives to connections
FREE_PORTS = 10_000, 32_768
# what keeps addresses for this process
claims = []

# How to see that a package of Debian's is there that isn't named as its program is.
PACKAGES = {"nginx-light": lambda: program("nginx")}


def program(name):
    return shutil.which(name, path=PATH)


def missing(*packages):
    return [name for name in packages if not PACKAGES.get(name, lambda: program(name))()]


def place(address):
    """The host and the port of an address. That of an IPv6 one has brackets."""
    host, port = address.rsplit(":", 1)
    return host.strip("[]"), int(port)


def is_address(host):
    try:
        ipaddress.ip_address(host)
    except ValueError:
        return False
    return True


def is_taken(address):
    """Whether another program has it. HAProxy doesn't notice, and shares it with another HAProxy: so it is asked for
    alone (no SO_REUSEPORT), but beside connections that have ended (SO_REUSEADDR)."""
    host, port = place(address)
    try:
        with socket.socket(socket.AF_INET6 if ":" in host else socket.AF_INET) as probe:
            probe.setsockopt(socket.SOL_SOCKET, socket.SO_REUSEADDR, 1)
            probe.bind((host, port))
    except (OSError, OverflowError) as fault:
        # who is to listen there says what else is wrong
        return getattr(fault, "errno", None) == errno.EADDRINUSE
    return False


def claim(address):
    """Keeps an address from others that ask here, as long as this process lives: whether nobody has it so far. An
    abstract socket of its name is the claim, since the system gives each name once."""
    one = socket.socket(socket.AF_UNIX)
    try:
        one.bind(f"\0blobd-{address}")
    except OSError:
        one.close()
        return False
    claims.append(one)
    return True


def free_address():
    """An address that nobody listens on now, and that was given neither before nor to another process that runs, so
    that a server can end there and start again. Its port is none that the system gives to connections or to who asks
    for any."""
    while not claim(address := f"127.0.0.1:{random.randrange(*FREE_PORTS)}") or is_taken(address):
        pass
    return address


def any_taken(addresses):
    """Says which of these addresses another program has, with the variable of `make` that names each, and whether one
    does."""
    end = time.monotonic() + GOING
    # an interrupt ends the wait
    with contextlib.suppress(KeyboardInterrupt):
        while any(map(is_taken, addresses.values())) and time.monotonic() < end:
            time.sleep(0.05)
    taken = [name for name, address in addresses.items() if is_taken(address)]
    for name in taken:
        what = f"can't listen at {addresses[name]}: another program has it (ss -ltnp shows which)"
        print(f"{what}; {name}=127.0.0.1:PORT names another address", file=sys.stderr)
    return bool(taken)


@contextlib.contextmanager
def told_wait(what):
    """Says what is waited for, if that takes more than a moment."""
    timer = threading.Timer(TOLD, lambda: print(f"waits for {what}", file=sys.stderr, flush=True))
    timer.daemon = True
    timer.start()
    try:
        yield
    finally:
        timer.cancel()


def is_locked(path):
    """Whether a server has this data directory."""
    with contextlib.suppress(OSError):
        folder = os.open(path, os.O_RDONLY | os.O_DIRECTORY)
        try:
            fcntl.flock(folder, fcntl.LOCK_EX | fcntl.LOCK_NB)
        except BlockingIOError:
            return True
        finally:
            os.close(folder)
    return False


def stays_locked(path):
    """Says that another server has this data directory, if one still has it after some seconds."""
    end = time.monotonic() + LOCKED
    # an interrupt ends the wait
    with told_wait(f"the server that has {path}"), contextlib.suppress(KeyboardInterrupt):
        while is_locked(path) and time.monotonic() < end:
            time.sleep(0.05)
    if is_locked(path):
        print(f"can't use {path}: another server has it (fuser {path} shows which)", file=sys.stderr)
        return True
    return False


def leave_with_parent():
    ctypes.CDLL(None).prctl(DIES_WITH_PARENT, signal.SIGTERM)


def wait_for(address, goes_on=lambda: True, seconds=PATIENCE):
    """Whether somebody listens there in time, as long as it makes sense to wait."""
    end = time.monotonic() + seconds
    while goes_on() and time.monotonic() < end:
        try:
            socket.create_connection(place(address), timeout=1).close()
            return True
        except OSError:
            time.sleep(0.05)
    return False


class Service:
    """A process that listens on these addresses. What it prints goes to the file NAME.log of the folder."""

    # how long it may take until it listens
    seconds = PATIENCE

    def __init__(self, name, folder, words, addresses, settings=None):
        self.name, self.folder, self.words, self.addresses = name, folder, words, addresses
        self.settings = os.environ | (settings or {})
        # what somebody waits for until it listens
        self.waited_for = name
        self.log = os.path.join(folder, f"{name}.log")
        # where in it begins what it printed since it was started
        self.begun = 0
        self.process = None

    def __enter__(self):
        self.start()
        return self

    def __exit__(self, *_):
        self.end()

    def start(self):
        with open(self.log, "ab") as log:
            self.begun = log.tell()
            # In a session of its own, an interrupt at the terminal doesn't reach it: it is ended in its turn.
            self.process = subprocess.Popen(
                self.words, cwd=self.folder, env=self.settings, stdin=subprocess.DEVNULL, stdout=log, stderr=log,
                start_new_session=True, preexec_fn=leave_with_parent,
            )
        try:
            for address in self.addresses:
                self.wait_for(address)
        except BaseException:
            self.end()
            raise

    def wait_for(self, address):
        if not wait_for(address, lambda: self.process.poll() is None, self.seconds):
            raise RuntimeError(f"{self.name} doesn't listen on {address}: {self.how_it_is()}")

    def how_it_is(self):
        """How it ended, if it did, and the last lines that it printed since it was started."""
        code = self.process.poll()
        if code is None:
            how = "it runs"
        elif code < 0:
            name = signal.Signals(-code).name
            how = f"it was killed by {name}" + (", as the system does when memory is full" if name == "SIGKILL" else "")
        else:
            how = f"its exit status is {code}"
        with open(self.log, encoding="utf-8", errors="replace") as log:
            log.seek(self.begun)
            lines = log.read().splitlines()[-LINES:]
        if not lines:
            return f"{how}, and it printed nothing"
        return "\n  ".join([f"{how}, and it printed at last:", *lines])

    def end(self, by=signal.SIGTERM):
        """Ends it, by force if it doesn't go within five seconds."""
        if self.process is None:
            return
        self.process.send_signal(by)
        try:
            self.process.wait(timeout=5)
        except subprocess.TimeoutExpired:
            self.process.kill()
            self.process.wait()
        self.process = None

    def ended(self):
        return self.process is None or self.process.poll() is not None


def size_of(folder):
    """How many bytes the files in it have, about: some may go meanwhile."""
    paths = (os.path.join(above, name) for above, _, names in os.walk(folder) for name in names)
    return sum(os.path.getsize(path) for path in paths if os.path.exists(path))


def blobd(binary, folder, address, name="blobd", memory=None, workers=2, kept=None):
    """A shard with so many workers; if it is told, with so many bytes of address space, and with a data directory."""
    words = [os.path.abspath(binary), "serve", address]
    if memory:
        words = ["prlimit", f"--as={memory}", *words]
    shard = Service(name, folder, words, [address], MALLOC | {"BLOBD_WORKERS": str(workers)})
    if kept:
        shard.settings["BLOBD_DATA"], shard.seconds = kept, math.inf
        shard.waited_for = f"{name}, which reads all of {kept} first ({size_of(kept) >> 20} MiB)"
    return shard


def has_certificate(folder):
    """Whether the folder has one that is valid for another day."""
    pem = os.path.join(folder, "front.pem")
    words = ["openssl", "x509", "-noout", "-checkend", "86400", "-in", pem]
    return os.path.exists(pem) and subprocess.run(words, capture_output=True, check=False).returncode == 0


def certificate(folder):
    """Makes a certificate that signs itself, for this machine's loopback address: ca/front.crt, front.key, and both in
    front.pem."""
    os.makedirs(os.path.join(folder, "ca"), exist_ok=True)
    key, crt = os.path.join(folder, "front.key"), os.path.join(folder, "ca", "front.crt")
    words = ["openssl", "req", "-x509", "-newkey", "ec", "-pkeyopt", "ec_paramgen_curve:P-256", "-nodes", "-days", "30"]
    words += ["-subj", "/CN=blobd", "-addext", "subjectAltName=IP:127.0.0.1,DNS:localhost", "-keyout", key, "-out", crt]
    subprocess.run(words, check=True, stdout=subprocess.DEVNULL, stderr=subprocess.PIPE)
    pem = os.path.join(folder, "front.pem")
    with open(os.open(pem, os.O_CREAT | os.O_WRONLY | os.O_TRUNC, 0o600), "w", encoding="ascii") as both:
        for path in (crt, key):
            with open(path, encoding="ascii") as part:
                both.write(part.read())


def logins(folder, users):
    """Writes the logins, of these users with their passwords, where nobody else reads them."""
    path = os.path.join(folder, "users.cfg")
    with open(os.open(path, os.O_CREAT | os.O_WRONLY | os.O_TRUNC, 0o600), "w", encoding="ascii") as file:
        file.write(
            "userlist pushers\n"
            + "".join(f"    user {user} insecure-password {word}\n" for user, word in users.items())
        )


class HAProxy(Service):
    """HAProxy before these shards, each with so many workers, with the certificate and the logins of the folder, on
    free addresses but for those given, with more settings."""

    def __init__(self, folder, shards, tls=None, more=None, workers=2, local=None):
        self.tls, self.local = tls or free_address(), local or free_address()
        self.plain, self.status = free_address(), free_address()
        settings = {
            "FRONT_TLS": self.tls, "FRONT_PLAIN": self.plain, "FRONT_LOCAL": self.local, "FRONT_STATUS": self.status,
            "FRONT_CERT": os.path.join(folder, "front.pem"), "FRONT_LUA": os.path.join(HERE, "manifests.lua"),
            "BLOBD_CONNECTIONS": str(workers),
        }
        settings |= {f"BLOBD_{number}": address for number, address in enumerate(shards, 1)} | (more or {})
        self.socket = os.path.join(folder, "haproxy.sock")
        settings = {"FRONT_SOCKET": self.socket} | settings
        # with a master process, as Debian's unit has it, so that it can be reloaded
        words = [program("haproxy"), "-W", "-f", os.path.join(HERE, "haproxy.cfg"), "-f", "users.cfg"]
        super().__init__("haproxy", folder, words, [self.tls, self.plain, self.local, self.status], settings)

    def end(self, by=signal.SIGTERM):
        """Ends its master, and waits for the process that serves: that outlives a master that is killed for a moment,
        and would take connections which are meant for the next HAProxy there."""
        super().end(by)
        end = time.monotonic() + PATIENCE
        while any(map(is_taken, self.addresses)) and time.monotonic() < end:
            time.sleep(0.05)

    def serving(self):
        """The line that tells which of its processes answers."""
        return next((line for line in self.command("show info").splitlines() if line.startswith("Pid: ")), None)

    def reload(self):
        """Starts a new process with the settings as they are now, and waits for it; the one before serves what it has
        begun."""
        before, end = self.serving(), time.monotonic() + PATIENCE
        self.process.send_signal(signal.SIGUSR2)
        while self.serving() in (before, None) and time.monotonic() < end:
            time.sleep(0.05)

    def memory(self):
        """The bytes of memory that its processes have resident."""
        with open(f"/proc/{self.process.pid}/task/{self.process.pid}/children", encoding="ascii") as file:
            processes = [self.process.pid, *map(int, file.read().split())]
        pages = 0
        for number in processes:
            with open(f"/proc/{number}/statm", encoding="ascii") as file:
                pages += int(file.read().split()[1])
        return pages * os.sysconf("SC_PAGE_SIZE")

    def command(self, text):
        """What HAProxy says to a command over its socket."""
        with socket.socket(socket.AF_UNIX) as line:
            line.settimeout(PATIENCE)
            line.connect(self.socket)
            line.sendall(text.encode() + b"\n")
            return b"".join(iter(lambda: line.recv(65536), b"")).decode()

    def judged(self):
        """What `haproxy -c` says of the settings, where it isn't content."""
        ran = subprocess.run(
            [*self.words, "-c"], cwd=self.folder, env=self.settings, capture_output=True, text=True, check=False
        )
        return ran.stdout + ran.stderr if ran.returncode else ""


class Redis(Service):
    """Redis with the settings of this folder, a password, and its files in the folder of the others."""

    def __init__(self, folder, password):
        self.address = free_address()
        home = os.path.join(folder, "redis")
        os.makedirs(home, exist_ok=True)
        words = [
            program("redis-server"),
            os.path.join(HERE, "redis.conf"),
            "--port",
            self.address.rsplit(":", 1)[1],
            "--dir",
            home,
            "--requirepass",
            password,
        ]
        super().__init__("redis", folder, words, [self.address])


class Nginx(Service):
    """nginx before HAProxy's plain address."""

    def __init__(self, folder, front):
        self.tls = free_address()
        with open(os.path.join(HERE, "nginx.conf"), encoding="utf-8") as file:
            settings = file.read()
        # Its workers are of another user, where it is started by root: they need a way to their files.
        prefix = os.path.join(folder, "nginx")
        os.makedirs(prefix, exist_ok=True)
        os.chmod(folder, 0o711)
        os.chmod(prefix, 0o711)
        kinds = ("client_body", "proxy", "fastcgi", "scgi", "uwsgi")
        places = " ".join(f"{kind}_temp_path {kind};" for kind in kinds)
        changes = {
            "pid /run/nginx.pid;": "pid nginx.pid;",
            "error_log /var/log/nginx/error.log": "error_log stderr",
            "access_log /var/log/nginx/access.log;": f"access_log access.log; {places}",
            "server 127.0.0.1:5080;": f"server {front.plain};",
            "listen 443 ssl http2;": f"listen {self.tls} ssl http2;",
            "ssl_certificate /etc/blobd/front.pem;": f"ssl_certificate {folder}/front.pem;",
            "ssl_certificate_key /etc/blobd/front.pem;": f"ssl_certificate_key {folder}/front.pem;",
        }
        for old, new in changes.items():
            if settings.count(old) != 1:
                raise RuntimeError(f"nginx.conf doesn't say once: {old}")
            settings = settings.replace(old, new)
        path = os.path.join(folder, "nginx.conf")
        with open(path, "w", encoding="utf-8") as file:
            file.write(settings)
        super().__init__("nginx", folder, [program("nginx"), "-p", prefix, "-c", path, "-g", "daemon off;"], [self.tls])


class Adapter(Service):
    """Lets `blobd push` push to another registry: over TLS if it is given certificates that sign the registry's, and
    with a login, USER:PASSWORD, if it is given one."""

    def __init__(self, folder, to, certificates=None, login=None, address=None):
        self.address = address or free_address()
        states = os.path.join(folder, "states.map")
        with open(states, "w", encoding="ascii"):
            pass
        settings = {"ADAPTER": self.address, "ADAPTER_TO": to, "ADAPTER_MAP": states}
        if certificates:
            settings["ADAPTER_CA"] = certificates
            host = place(to)[0]
            # HAProxy finds no address in a certificate: who gives one has to be content with who signed it
            if not is_address(host):
                settings["ADAPTER_NAME"] = host
        if login:
            settings["ADAPTER_LOGIN"] = login
        words = [program("haproxy"), "-f", os.path.join(HERE, "adapter.cfg")]
        super().__init__("adapter", folder, words, [self.address], settings)


class DockerRegistry(Service):
    """Debian's docker-registry, with its files in the folder; with logins of Apache's form if they are given."""

    def __init__(self, folder, tls=False, htpasswd=None):
        self.address = free_address()
        self.root = os.path.join(folder, "registry")
        lines = ["version: 0.1", "log:", "  level: error", "  accesslog:", "    disabled: true"]
        lines += ["storage:", "  filesystem:", f"    rootdirectory: {self.root}", "http:", f"  addr: {self.address}"]
        if tls:
            lines += ["  tls:", f"    certificate: {folder}/ca/front.crt", f"    key: {folder}/front.key"]
        if htpasswd:
            lines += ["auth:", "  htpasswd:", "    realm: registry", f"    path: {htpasswd}"]
        path = os.path.join(folder, "registry.yml")
        with open(path, "w", encoding="utf-8") as file:
            file.write("\n".join(lines) + "\n")
        super().__init__("docker-registry", folder, [program("docker-registry"), "serve", path], [self.address])

    def end(self, by=signal.SIGTERM):
        super().end(by)
        shutil.rmtree(self.root, ignore_errors=True)


@contextlib.contextmanager
def kept_folder(path):
    """A folder for its owner alone, which is made if it isn't there, and stays."""
    os.makedirs(path, mode=0o700, exist_ok=True)
    yield os.path.abspath(path)


def until_interrupted(name, serve, kept=None):
    """What `serve` gives, or 0 if it is interrupted. It is called with the folder that is to be kept, or else with an
    empty one of this name that goes with it."""
    # in the background of a shell an interrupt is ignored, unless this is said
    for number in (signal.SIGINT, signal.SIGTERM):
        signal.signal(number, signal.default_int_handler)
    try:
        with kept_folder(kept) if kept else tempfile.TemporaryDirectory(prefix=f"blobd-{name}-") as folder:
            return serve(folder)
    except KeyboardInterrupt:
        print("\nended")
        return 0
    except (OSError, RuntimeError) as fault:
        print(fault, file=sys.stderr)
        return 1
