#!/usr/bin/env python3
"""How a registry is set up: whether the settings of deploy/ are accepted, `make registry`, and the lines of
docs/OPERATIONS.md.

    registry_setup.py PROGRAM
"""
import contextlib
import fcntl
import json
import os
import shlex
import shutil
import signal
import socket
import subprocess
import sys

from harness import TOP
from harness.registry import IMAGE_PUSHED, LOGIN, PROXY, Client, push_image
from harness.running import finished, free_port, has_ipv6, page_lines, told_by
from harness.suite import OPTIONS, case, check, equal, lacks, main, skip
from harness.wire import PATIENCE, sha256
import servers


def written(path, text, mode=0o644):
    with open(os.open(path, os.O_CREAT | os.O_WRONLY, mode), "w", encoding="utf-8") as file:
        file.write(text)


def text_of(path):
    with open(path, encoding="utf-8") as file:
        return file.read()


@case(*PROXY)
def settings_are_valid(folder):
    servers.certificate(folder)
    servers.logins(folder, dict([LOGIN]))
    words = [servers.program("haproxy"), "-c", "-f", os.path.join(servers.HERE, "haproxy.cfg"), "-f", "users.cfg"]
    others = {name: None for name in os.environ if name.startswith(("FRONT_", "BLOBD_"))}
    settings = {"FRONT_CERT": "front.pem", "FRONT_LUA": os.path.join(servers.HERE, "manifests.lua")}
    ran = told_by(words, cwd=folder, env=others | settings)
    check("haproxy -c, nothing else told", ran[0] == 0, ran)
    for shards in (1, 4):
        told = servers.HAProxy(folder, [servers.free_address() for _ in range(shards)]).judged()
        check(f"haproxy -c, {shards} shards", not told, told)
    adapter = servers.Adapter(folder, "127.0.0.1:5000")
    ran = told_by([*adapter.words, "-c"], env=adapter.settings)
    check("haproxy -c, the adapter", ran[0] == 0, ran)


@case("systemd-analyze")
def units_are_valid(folder):
    paths = [os.path.join(folder, name) for name in ("blobd@.service", "blobd-metrics.service", "blobd-metrics.timer")]
    for path in paths:
        unit = text_of(os.path.join(TOP, "deploy", os.path.basename(path)))
        written(path, unit.replace("/usr/local/bin/blobd", OPTIONS.program))
    ran = finished(["systemd-analyze", "verify", "--man=no", *paths])
    check("systemd-analyze verify", ran.returncode == 0 and not ran.stderr, ran.stderr)


@case()
def unit_waits_behind_a_fault(folder):
    """A fault, as a directory that can't be used, is followed by a pause; a kill and a stop aren't."""
    unit = text_of(os.path.join(TOP, "deploy", "blobd@.service"))
    (command,) = [line.split("=", 1)[1] for line in unit.splitlines() if line.startswith("ExecStopPost=")]
    written(os.path.join(folder, "sleep"), "#!/bin/sh\necho slept $1\n", 0o755)
    for ended, wanted in (("3", "slept 10\n"), ("0", ""), ("KILL", ""), ("TERM", "")):
        settings = {"EXIT_STATUS": ended, "PATH": folder + os.pathsep + os.environ["PATH"]}
        told = told_by(shlex.split(command.replace("$$", "$")), env=settings)
        equal(f"what follows an end by {ended}", told, (0, wanted))


@contextlib.contextmanager
def newcomers_registry(tls, store, *words, program=None, local=None, heard=lambda line: None):
    """`make registry` at these addresses, and the lines that it prints once it serves. `heard` is told each line. If
    the local address is empty, the registry chooses it."""
    words = [sys.executable, os.path.join(TOP, "deploy", "registry.py"), program or OPTIONS.program, *words]
    local = servers.free_address() if local is None else local
    settings = os.environ | {"FRONT_TLS": tls, "BLOBD_1": store, "FRONT_LOCAL": local}
    with subprocess.Popen(words, env=settings, stdout=subprocess.PIPE, stderr=subprocess.STDOUT, text=True) as registry:
        lines = []
        for line in registry.stdout:
            lines.append(line.strip())
            heard(lines[-1])
            if line.startswith("Docker"):
                break
        try:
            yield registry, lines
        finally:
            registry.terminate()


def told_lines(lines):
    """The lines of a registry that push an image and pull it."""
    told = [line for line in lines if line.startswith(("skopeo ", "zcat "))]
    are_told = [line.split()[1] for line in told[:3]] == ["login", "copy", "copy"] and len(told) == 4
    check("four lines are told", are_told, lines)
    return told


def local_of(lines):
    """The local address that a registry tells."""
    (address,) = [line.split("http://")[1].split(",")[0] for line in lines if "without a login" in line]
    return address


def blobd_of(lines):
    """The number of its blobd's process that it tells."""
    (number,) = [line.split()[4].removesuffix(":") for line in lines if line.startswith("Its blobd is process ")]
    return int(number)


def login_of(told):
    """The folder of certificates, the user and the password of these lines."""
    login = told[0].split() if told else ["skopeo", "login", "--cert-dir", "", "-u", "", "-p", ""]
    return login[3], login[5], login[7]


@case(*PROXY)
def the_newcomers_registry():
    """`make registry` as a newcomer meets it: the lines that it prints push an image and pull it, as they stand, and it
    ends without a rest."""
    tls, store = servers.free_address(), servers.free_address()
    with newcomers_registry(tls, store) as (registry, lines):
        told = told_lines(lines)
        folder, user, word = login_of(told)
        client = Client(tls, (user, word), os.path.join(folder, "front.crt"))
        equal("the registry answers", client.ask("GET", "/v2/").status, 200)
        equal("and takes an image", push_image(client, "lib/new"), IMAGE_PUSHED)
        equal("its local address asks for no login", Client(local_of(lines)).ask("GET", "/v2/").status, 200)
        told_of = [line.split("http://")[1].removesuffix("/health") for line in lines if line.endswith("/health")]
        equal("its health is told", [Client(address).ask("GET", "/health").status for address in told_of], [200])
        if not lacks("the registry's lines", "skopeo"):
            for line in told:
                ran = told_by(["sh", "-c", line], env={"REGISTRY_AUTH_FILE": os.path.join(folder, "auth.json")})
                check(f"as it is told: {line}", ran[0] == 0, ran)
            check("the image comes back", "hello" in ran[1], ran)
        registry.send_signal(signal.SIGINT)
        rest = registry.stdout.read()
        check("it ends well", registry.wait(timeout=PATIENCE) == 0 and rest.strip() == "ended", rest)
    check("its folder is gone", not os.path.exists(folder))
    for address in (tls, store):
        with socket.socket() as probe:
            check(f"nobody listens on {address}", probe.connect_ex(servers.place(address)) != 0)


def made_registry(tls, store, *words, **options):
    """A run of `make registry` at these addresses that ends by itself."""
    words = ["make", "--no-print-directory", "registry", f"FRONT_TLS={tls}", f"BLOBD_1={store}", *words]
    return finished(words, cwd=TOP, **options)


@case(*PROXY)
def a_registry_without_a_program(folder):
    """`make registry PROGRAM=..` says what is wrong with what it is told."""
    for program in ("/nowhere/blobd", folder, __file__):
        ran = made_registry(servers.free_address(), servers.free_address(), f"PROGRAM={program}")
        check(f"PROGRAM={program}", ran.returncode == 2 and ran.stderr.startswith(f"{program} is no program: "), ran)


@case()
def which_addresses_are_taken():
    """Those at which somebody listens, also at all of the machine's; not those of a connection that has ended."""
    # no connection of others has this port once the listener is gone
    with socket.create_server(("0.0.0.0", free_port())) as listener:
        taken = f"127.0.0.1:{listener.getsockname()[1]}"
        check("one of all", servers.is_taken(taken))
        with socket.create_connection(servers.place(taken)) as client:
            # who closes first keeps the address for a while
            listener.accept()[0].close()
            equal("the end of the connection", client.recv(1), b"")
    check("one of a connection that has ended", not servers.is_taken(taken))
    for address in ("127.0.0.1:99999", "registry.invalid:5443", "192.0.2.1:5443", "[::1]:0", ":0"):
        check(f"{address} isn't another program's", not servers.is_taken(address))
    if has_ipv6():
        with socket.create_server(("::1", 0), family=socket.AF_INET6) as listener:
            check("one of IPv6", servers.is_taken(f"[::1]:{listener.getsockname()[1]}"))


@case()
def an_address_is_given_once():
    """Neither this process nor another one is given an address again, though nobody listens there."""
    address = servers.free_address()
    check("here", not servers.claim(address))
    words = [sys.executable, "-c", f"import servers; print(servers.claim({address!r}))"]
    equal("elsewhere", told_by(words, cwd=servers.HERE), (0, "False\n"))


@case()
def a_service_that_cannot_start(folder):
    """It is told how it ended, and what it printed since it was started."""
    path = os.path.join(folder, "data")
    written(path, "a file in place of a folder")
    service = servers.blobd(OPTIONS.program, folder, servers.free_address(), kept=path)
    for _ in range(2):
        try:
            service.start()
            check("it starts", False)
        except RuntimeError as fault:
            first, *printed = str(fault).splitlines()
            check("how it ended", first.endswith(": its exit status is 3, and it printed at last:"), first)
            cause = f"  blobd: can't use {path}: not a folder"
            equal("what it printed", [line for line in printed if line.startswith(cause)], printed[:1])
            check("it printed the cause", len(printed) == 2, printed)


# those at which a registry's local address is looked for first
FIRST_PORTS = 5_081, 5_082


@contextlib.contextmanager
def first_ports_taken():
    """Has somebody listen at the first local ports of a registry."""
    with contextlib.ExitStack() as stack:
        for port in FIRST_PORTS:
            # else another program does
            with contextlib.suppress(OSError):
                stack.enter_context(socket.create_server(("127.0.0.1", port)))
        yield


def family(number):
    """A process, and all that it has started."""
    with open(f"/proc/{number}/task/{number}/children", encoding="ascii") as file:
        return [number, *(one for child in file.read().split() for one in family(child))]


@case(*PROXY, "redis-server")
def a_registry_that_keeps(folder):
    """`make registry DATA=..`: all of it is killed at once, then `blobd` alone, and the third is interrupted. Each time
    the next one has the image, its tag and the login, at the same addresses."""
    path, tls, store = os.path.join(folder, "kept"), servers.free_address(), servers.free_address()
    settings = {"REGISTRY_AUTH_FILE": os.path.join(folder, "auth.json")}
    has_skopeo = not lacks("the lines of a registry that keeps", "skopeo")
    with first_ports_taken(), newcomers_registry(tls, store, path, local="") as (registry, lines):
        told, local = told_lines(lines), local_of(lines)
        check("its local port is the next one", FIRST_PORTS[-1] < servers.place(local)[1] < 5_443, local)
        equal("nobody else has it", Client(local).ask("GET", "/v2/").status, 200)
        certificates, user, word = login_of(told)
        client = Client(tls, (user, word), os.path.join(certificates, "front.crt"))
        equal("it takes an image", push_image(client, "lib/kept"), IMAGE_PUSHED)
        manifest = client.ask("GET", "/v2/lib/kept/manifests/one").body
        for line in told[: 2 * has_skopeo]:
            ran = told_by(["sh", "-c", line], env=settings)
            check(f"before the kill: {line}", ran[0] == 0, ran)
        for number in reversed(family(registry.pid)):
            # HAProxy's own ends with it
            with contextlib.suppress(ProcessLookupError):
                os.kill(int(number), signal.SIGKILL)
    equal("whose it is", os.stat(path).st_mode & 0o777, 0o700)
    for number, end in enumerate((signal.SIGKILL, signal.SIGINT)):
        with newcomers_registry(tls, store, path, local="") as (registry, lines):
            equal("the same lines are told", (told_lines(lines), local_of(lines)), (told, local))
            client = Client(tls, (user, word), os.path.join(certificates, "front.crt"))
            again = client.ask("GET", "/v2/lib/kept/manifests/one")
            equal(f"the manifest by its tag, start {number}", (again.status, again.body), (200, manifest))
            layer = json.loads(manifest)["layers"][0]["digest"]
            equal("its layer", sha256(client.ask("GET", f"/v2/lib/kept/blobs/{layer}").body), layer)
            for line in told[2:] if has_skopeo else []:
                ran = told_by(["sh", "-c", line], env=settings)
                check(f"start {number}: {line}", ran[0] == 0, ran)
            is_killed = end == signal.SIGKILL
            os.kill(blobd_of(lines) if is_killed else registry.pid, end)
            rest = registry.stdout.read().strip()
            ended = registry.wait(timeout=PATIENCE), rest.split(",")[0]
            wanted = (1, "blobd ended: it was killed by SIGKILL") if is_killed else (0, "ended")
            equal("it says how it ended", ended, wanted)
    check("README kills that process alone", "\nkill -9 PID " in text_of(os.path.join(TOP, "README.md")))
    with socket.create_server(servers.place(local)):
        ran = made_registry(tls, store, f"PROGRAM={OPTIONS.program}", f"DATA={path}")
        line = ran.stderr.splitlines()[0]
        wanted = f"can't listen at {local}: another program has it "
        check("its local address is taken", line.startswith(wanted) and "FRONT_LOCAL=" in line, line)


@contextlib.contextmanager
def locked(path):
    """Has a data directory for a server, as one that was killed may for a while."""
    folder = os.open(path, os.O_RDONLY | os.O_DIRECTORY)
    fcntl.flock(folder, fcntl.LOCK_EX)
    try:
        yield
    finally:
        os.close(folder)


@case(*PROXY, "redis-server")
def a_registry_that_waits(folder):
    """Right after a kill another server may still have the data directory, and `blobd` may take long to start: what is
    waited for is told."""
    path, tls, store = os.path.join(folder, "kept"), servers.free_address(), servers.free_address()
    data, slow, go = (os.path.join(path, name) for name in ("data", "blobd-slow", "go"))
    os.makedirs(data)
    written(slow, f'#!/bin/sh\nuntil test -e "{go}"; do sleep 0.1; done\nexec "{OPTIONS.program}" "$@"\n', 0o755)
    waits = f"waits for the server that has {data}", f"waits for blobd, which reads all of {data} first (0 MiB)"
    with locked(data):
        ran = made_registry(tls, store, f"PROGRAM={OPTIONS.program}", f"DATA={path}")
        refused = f"can't use {data}: another server has it (fuser {data} shows which)"
        equal("one that has it for long", (ran.returncode, ran.stderr.splitlines()[:2]), (2, [waits[0], refused]))
    with contextlib.ExitStack() as stack:
        stack.enter_context(locked(data))
        ends = {waits[0]: stack.close, waits[1]: lambda: written(go, "")}

        def hear(line):
            if line in ends:
                ends[line]()

        with newcomers_registry(tls, store, path, program=slow, heard=hear) as (_, lines):
            equal("what is waited for", tuple(lines[:2]), waits)
            told_lines(lines)


@case(*PROXY, "redis-server")
def a_registry_beside_another(folder):
    """`make registry` is refused before anything is begun if another one runs, whose address HAProxy would share. If
    the other one was just killed, it waits until it is gone."""
    tls, store = servers.free_address(), servers.free_address()
    path, rest = os.path.join(folder, "kept"), os.path.join(folder, "rest")
    os.mkdir(rest)
    with newcomers_registry(tls, store) as (_, lines):
        words = [f"PROGRAM={OPTIONS.program}", f"DATA={path}"]
        ran = made_registry(tls, store, *words, env={"TMPDIR": rest})
        wanted = [
            f"can't listen at {address}: another program has it (ss -ltnp shows which); "
            f"{name}=127.0.0.1:PORT names another address"
            for name, address in (("FRONT_TLS", tls), ("BLOBD_1", store))
        ]
        equal("its lines", (ran.returncode, ran.stdout, ran.stderr.splitlines()[:2]), (2, "", wanted))
        equal("what is left", (os.path.exists(path), os.listdir(rest)), (False, []))
        os.kill(blobd_of(lines), signal.SIGKILL)
        with newcomers_registry(tls, store) as (_, lines):
            told_lines(lines)


# A root of its own, which goes with the process: what is written goes to a file system in memory. ROOT, TOP, WORK: its
# place, the repository, what the lines begin with.
OWN_ROOT = """
mount -t tmpfs tmpfs "$ROOT"
mkdir "$ROOT/upper" "$ROOT/work" "$ROOT/root"
mount -t overlay overlay -o "lowerdir=/,upperdir=$ROOT/upper,workdir=$ROOT/work" "$ROOT/root"
cd "$ROOT/root"
mount -t proc proc proc
mount --rbind /dev dev
mount -t tmpfs tmpfs run
mkdir run/haproxy
mkdir -p ".$TOP" "$ROOT/upper/set-up"
mount --bind "$TOP" ".$TOP"
cp -a "$WORK"/. set-up/
"""
SYSTEMCTL = '''"""Starts a unit in place of systemd: what its ExecStart says, with its environment and as its user."""
import os, re, shlex, subprocess, sys

def settings(path, wanted):
    with open(path, encoding="utf-8") as file:
        return [line.strip().partition("=")[2] for line in file if line.startswith(wanted + "=")]

words = [word for word in sys.argv[1:] if not word.startswith("-")]
if words[0] in ("daemon-reload", "disable"):
    sys.exit()
name, at, instance = words[1].partition("@")
places = (f"/{top}/systemd/system/{name}{at}.service" for top in ("etc", "lib"))
unit = next(path for path in places if os.path.exists(path))
environment = dict(os.environ)
for line in settings(unit, "Environment"):
    line = line.replace("%S", "/var/lib").replace("%i", instance)
    environment |= dict(word.split("=", 1) for word in shlex.split(line))
for path in settings(unit, "EnvironmentFile"):
    if os.path.exists(path.lstrip("-")):
        with open(path.lstrip("-"), encoding="utf-8") as file:
            environment |= dict(word.split("=", 1) for word in shlex.split(file.read(), comments=True))
user = next(iter(settings(unit, "User")), None)
command = settings(unit, "ExecStart")[0].replace("%i", instance)
command = shlex.split(re.sub(r"[$]([A-Z]+)", lambda found: environment.get(found[1], ""), command))
for kind, place in (("RuntimeDirectory", "/run/"), ("StateDirectory", "/var/lib/")):
    for folder in settings(unit, kind):
        os.makedirs(place + folder.replace("%i", instance), exist_ok=True)
log = open(f"/set-up/{name}.log", "wb")
streams = {"stdin": subprocess.DEVNULL, "stdout": log, "stderr": log}
subprocess.Popen(command, env=environment, user=user, group=user, start_new_session=True, **streams)
'''
APT_GET = """
for word in "$@"; do
    case "$word" in install | -*) ;; *) dpkg -s "$word" >/dev/null || exit 1 ;; esac
done
"""
TRIED = """
import sys
sys.path.insert(0, sys.argv[1] + "/tests")
from harness import registry
import servers
for address in ("127.0.0.1:5001", "127.0.0.1:6380", "127.0.0.1:5443"):
    servers.wait_for(address)
client = registry.Client("127.0.0.1:5443", ("alice", "SECRET"), "/etc/blobd/front.crt")
pushed = registry.push_image(client, "lib/set-up")
print(pushed, client.ask("GET", "/v2/lib/set-up/manifests/one").status, client.ask("GET", "/v2/_catalog").body)
"""
# The loopback device is up then.
UP = "import fcntl, socket, struct; fcntl.ioctl(socket.socket(), 0x8914, struct.pack('16sh14x', b'lo', 0x1 | 0x40))"
UNSHARED = ["unshare", "--mount", "--net", "--pid", "--fork", "--kill-child", "sh", "-c"]


def can_have_a_root():
    tried = (
        "mount -t tmpfs tmpfs /mnt && mkdir /mnt/a /mnt/b /mnt/c"
        " && mount -t overlay overlay -o lowerdir=/,upperdir=/mnt/a,workdir=/mnt/b /mnt/c"
    )
    return os.geteuid() == 0 and shutil.which("unshare") and finished([*UNSHARED, tried]).returncode == 0


@case(*PROXY, "redis-server")
def the_set_up_works(folder):
    """The lines of docs/OPERATIONS.md, as they stand, in a root and a network of their own, with stand-ins for systemd
    and apt-get."""
    if not can_have_a_root():
        skip("the_set_up_works", "no root of its own can be had here (root, unshare, overlay)")
        return
    work, root = os.path.join(folder, "work"), os.path.join(folder, "root")
    out = os.path.join(work, "crates", "blobd", "out")
    for path in (root, os.path.join(work, "bin"), out):
        os.makedirs(path)
    shutil.copy(OPTIONS.program, os.path.join(out, "blobd"))
    os.symlink(os.path.join(TOP, "deploy"), os.path.join(work, "deploy"))
    for name, interpreter, text in (("systemctl", sys.executable, SYSTEMCTL), ("apt-get", "/bin/sh", APT_GET)):
        written(os.path.join(work, "bin", name), f"#!{interpreter}\n{text}", 0o755)
    (lines,) = page_lines("registry_setup", {})
    written(os.path.join(work, "lines.sh"), lines)
    written(os.path.join(work, "tried.py"), TRIED)
    inside = (
        'cd /set-up && PATH="/set-up/bin:$PATH:/usr/sbin" sh -eu lines.sh'
        ' && "$PYTHON" tried.py "$TOP" || { cat /set-up/*.log; exit 1; }'
    )
    script = f'set -eu\n{OWN_ROOT}\n"$PYTHON" -c "$UP"\nexec chroot . sh -c \'{inside}\''
    settings = {"ROOT": root, "TOP": TOP, "WORK": work, "PYTHON": sys.executable, "UP": UP}
    ran = told_by([*UNSHARED, script], env=settings)
    expected = f"{IMAGE_PUSHED} 200 " + 'b\'{"repositories":["lib/set-up"]}\''
    check("the lines of docs/OPERATIONS.md make a registry", ran[0] == 0 and expected in ran[1], ran)


if __name__ == "__main__":
    main(__doc__, side_by_side=True)
