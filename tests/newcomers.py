#!/usr/bin/env python3
"""What somebody meets who tries it for the first time: a server without a proof, in minutes, an image that anybody may
read, and settings that HAProxy has nothing to say of. The program without its proof is built if its sources are newer.

    newcomers.py PROGRAM
"""
import io
import os
import subprocess
import sys
import tarfile

from harness import TOP
from harness.registry import LOGIN, PROXY, servers
from harness.running import environment, finished, told_by, without_builds
from harness.suite import case, check, equal, main
from harness.wire import PATIENCE, Client
import pack

UNPROVED = "crates/blobd/out/blobd-unproved"
NOT_PROVED = f"{UNPROVED}: not proved on this machine: make build proves it, in an hour\n"
# minutes on a quiet machine
BUILT_WITHIN = 3600


@case("rt")
def a_server_without_a_proof(folder):
    """`make serve` if nothing is proved: once the program is built it is built no more, and it serves."""
    ran = finished(["make", "-s", "fast"], cwd=TOP, timeout=BUILT_WITHIN)
    equal("make fast", (ran.returncode, ran.stdout), (0, NOT_PROVED))
    equal("it is built once", finished(["make", "-q", UNPROVED], cwd=TOP).returncode, 0)
    words = ["serve", "ADDR=127.0.0.1:0", "COUNT=1", "WORKERS=1", "EVERY=/nowhere", "NATIVE=/nowhere/v3"]
    options = {"cwd": TOP, "env": environment(without_builds(folder)), "text": True}
    streams = {"stdout": subprocess.PIPE, "stderr": subprocess.PIPE}
    with subprocess.Popen(["make", "-s", *words], **options, **streams) as server:
        first, _, address = server.stdout.readline().partition(" ")
        with Client(servers.place(address.strip())) as client:
            equal("it answers", client.ask("GET", "/v2/", Connection="close").status, 200)
        told = first, *server.communicate(timeout=PATIENCE), server.returncode
    equal("make serve", told, ("listening", "served\n", NOT_PROVED, 0))


@case()
def the_adapter_wants_a_registry():
    told = finished(["make", "--no-print-directory", "adapter"], cwd=TOP)
    check("make adapter", told.returncode == 2 and told.stderr.startswith("usage: make adapter REGISTRY="), told)
    words = [sys.executable, os.path.join(TOP, "deploy", "adapter.py"), "registry.example"]
    told = finished(words)
    check("a registry without a port", told.returncode == 2 and "HOST:PORT" in told.stderr, told)
    told = finished([*words[:-1], "registry.example:5443", "--at=5951"])
    check("an adapter without a host", told.returncode == 2 and "ADAPTER=5951 is no HOST:PORT" in told.stderr, told)


@case(*PROXY)
def the_adapter_names_a_file_that_it_cannot_read(folder):
    none, binary = os.path.join(folder, "none"), os.path.join(folder, "binary")
    with open(binary, "wb") as file:
        file.write(b"\xff")
    causes = {none: "No such file or directory", folder: "Is a directory", binary: "it is no text"}
    for variable in ("LOGIN", "CA"):
        for path, why in causes.items():
            words = ["REGISTRY=127.0.0.1:1", f"ADAPTER={servers.free_address()}", f"{variable}={path}"]
            told = finished(["make", "--no-print-directory", "adapter", *words], cwd=TOP)
            line = told.stderr.splitlines()[0]
            equal(f"{variable}: {why}", (told.returncode, line), (2, f"{variable}={path} can't be read: {why}"))


@case()
def an_image_lists_its_folders():
    """Those of a layer that aren't listed may be made for root alone."""
    names = ["usr/local/bin/blobd", "lib64/ld.so"]
    made = pack.tar_of({name: (b"bytes", 0o755) for name in names})
    with tarfile.open(fileobj=io.BytesIO(made)) as tar:
        entries = [(entry.name, entry.isdir(), entry.mode) for entry in tar]
    folders = ["lib64", "usr", "usr/local", "usr/local/bin"]
    equal("folders before what is in them", [name for name, *_ in entries], sorted(folders + names))
    check(
        "all may be entered", all(is_folder == (name in folders) and mode == 0o755 for name, is_folder, mode in entries)
    )


@case(*PROXY)
def haproxy_has_nothing_to_say(folder):
    """Neither a warning at each start, nor advice, also with several shards and with all that may be set."""
    servers.certificate(folder)
    servers.logins(folder, dict([LOGIN]))
    rights = os.path.join(folder, "rights")
    with open(rights, "w", encoding="ascii") as file:
        file.write("alice/*\n")
    for shards, more in ((1, {}), (4, {"FRONT_RIGHTS": rights, "FRONT_REDIS": "127.0.0.1:6380"})):
        proxy = servers.HAProxy(folder, [servers.free_address() for _ in range(shards)], more=more)
        ran = told_by([*proxy.words, "-c"], cwd=folder, env=proxy.settings)
        check(f"{shards} shards", ran[0] == 0 and "[WARNING]" not in ran[1], ran)
    adapter = servers.Adapter(folder, "127.0.0.1:5000", os.path.join(folder, "ca", "front.crt"), "alice:SECRET")
    ran = told_by([*adapter.words, "-c"], env=adapter.settings)
    check("the adapter", ran[0] == 0 and "[WARNING]" not in ran[1], ran)


if __name__ == "__main__":
    main(__doc__)
