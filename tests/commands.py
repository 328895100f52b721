#!/usr/bin/env python3
"""The commands that people type, over the built program: what `make` says without building, which program it starts,
requests beside their replies, and what is packed.

    commands.py PROGRAM
"""
import hashlib
import io
import json
import os
import shutil
import sys
import tarfile
from unittest import mock

from harness import TOP
from harness.running import finished, without_builds
from harness.suite import OPTIONS, case, check, equal, main, skip
import build
import pack


def make(*words):
    """What `make` prints, on both streams, and its status."""
    ran = finished(["make", "--no-print-directory", *words], cwd=TOP)
    return ran.stdout + ran.stderr, ran.returncode


def shown(*command):
    """A run that shows a whole upload by this command."""
    return finished([sys.executable, os.path.join(TOP, "tools", "conversation.py"), *command])


def is_told(name, words, begin):
    """Checks that `make` refuses these words, with a line that begins so."""
    told, status = make(*words)
    check(name, status == 2 and told.startswith(begin), (told, status))


@case()
def test_wrong_counts_are_refused_before_anything_is_built():
    for count in ("0", "-1", "x", "12x", "1000001", "100000000"):
        is_told(f"COUNT={count}", ["serve", f"COUNT={count}", "PROGRAM=/nowhere/blobd"], "usage: make serve")


@case()
def test_nothing_is_built_by_run_and_upload():
    for target in ("run", "upload"):
        is_told(f"make {target}", [target, "BUILT="], "Nothing is built yet.")
        told, _ = make(target, "BUILT=")
        check(f"make {target} names another way", "or name one that is built: PROGRAM=FILE\n" in told, told)


def forms(folder, *newer):
    """The words that have `make` take these copies of the program in place of its own: the proved one and the unproved
    one. They are older than their source, but those that are named."""
    proved, unproved, source = (os.path.join(folder, name) for name in ("proved", "unproved", "source"))
    written(source, "")
    os.utime(source, (2, 2))
    for path in (proved, unproved):
        shutil.copy(OPTIONS.program, path)
        second = 3 if os.path.basename(path) in newer else 1
        os.utime(path, (second, second))
    words = [f"EVERY={proved}", f"NATIVE={proved}", f"UNPROVED={unproved}", f"PARTS={source}"]
    return proved, unproved, words


@case()
def test_what_is_older_than_its_sources_is_built_without_its_proof(folder):
    for newer in (["proved", "unproved"], ["proved"], ["unproved"], []):
        _, _, words = forms(folder, *newer)
        for target in ("serve", "once", "registry"):
            told, status = make("-n", target, *words)
            name = f"make {target}, if what is newer than its sources is {newer}"
            equal(name, (status, "tools/fast.py" in told, "tools/build.py" in told), (0, not newer, False))
        for target in ("build", "native", "bench", "image", "fuzz"):
            told, _ = make("-n", target, *words)
            is_right = ("tools/build.py" in told) == ("proved" not in newer) and "unproved " not in told
            check(f"make {target} is of the proved one", is_right, told)


@case()
def test_it_is_told_which_program_is_started(folder):
    """On standard error: what scripts compare is as it was. `make run` and `make upload` start what is built."""
    wanted, options = f"blobd {pack.version()}\n", {"cwd": TOP, "env": without_builds(folder)}
    for newer in (["proved"], ["unproved"], []):
        proved, unproved, words = forms(folder, *newer)
        line = f"{unproved}: not proved on this machine: make build proves it, in an hour\n"
        if newer == ["proved"]:
            line = f"{proved}: proved\n"
        if newer:
            ran = finished(["make", "-s", "once", *words], **options)
            told = ran.returncode, ran.stdout[:6], ran.stderr
            equal(f"make once, newer: {newer}", told, (0, "--- 1.", line))
        else:
            # of two that are old that is taken which was built last
            os.utime(unproved, (2, 2))
        ran = finished(["make", "-s", "run", "ARGS=--version", *words], **options)
        equal(f"make run, newer: {newer}", (ran.returncode, ran.stdout, ran.stderr), (0, wanted, line))
    ran = finished(["make", "-s", "run", "ARGS=--version", f"PROGRAM={OPTIONS.program}", *words], **options)
    equal("one that is named", (ran.returncode, ran.stdout, ran.stderr), (0, wanted, ""))


@case()
def test_a_toolchain_that_isnt_as_it_was_builds_nothing_unproved(folder):
    kits = {
        "less": without_builds(os.path.join(folder, "less")),
        "other": without_builds(os.path.join(folder, "other"), "bin/rtlib.py", "toolchain/bin/clang"),
        "none": {"PATH": folder},
    }
    for name, env in kits.items():
        ran = finished([sys.executable, os.path.join(TOP, "tools", "fast.py")], env=env)
        told = "rt isn't found." if name == "none" else "make build proves"
        check(f"tools/fast.py, toolchain: {name}", ran.returncode == 1 and told in ran.stderr.splitlines()[-1], ran)


@case()
def test_a_program_that_is_named_is_not_built():
    """Neither one that isn't there, nor one that a rule would build."""
    for program in ("/nowhere/blobd", "crates/blobd/out/blobd"):
        for target in ("serve", "registry", "once", "bench"):
            told, status = make("-n", target, f"PROGRAM={program}")
            is_built = any(step in told for step in ("make -s", "build.py", "fast.py"))
            is_right = status == 0 and f" {program} " in told and not is_built
            check(f"make {target} PROGRAM={program}", is_right, told)


@case()
def test_run_starts_what_is_built():
    is_told("make run", ["run", f"BUILT={OPTIONS.program}", "ARGS=no such words"], "usage: ")


@case()
def test_each_request_stands_beside_its_reply():
    ran = shown(OPTIONS.program, "once")
    parts = ran.stdout.split("--- ")[1:]
    replies = [next(line for line in part.splitlines() if line.startswith("< ")).split()[2] for part in parts]
    wanted = ["202", "204", "202", "202", "416", "201", "404", "404", "404"]
    equal("each request beside its reply", (ran.returncode, replies), (0, wanted))


@case()
def test_a_command_that_isnt_there_is_told():
    ran = shown("no-such-rt")
    told = "no-such-rt isn't found (docs/TROUBLES.md)\n"
    equal("a command that isn't there", (ran.returncode, ran.stderr), (1, told))


@case()
def test_a_program_that_answers_less_is_told():
    statuses = [shown("true").returncode, shown("head", "-c", "100").returncode]
    equal("a program that answers less", statuses, [1, 1])


def written(path, text):
    with open(path, "w", encoding="utf-8") as file:
        file.write(text)


@case()
def test_the_program_for_every_processor_outlives_a_build_of_the_other(folder):
    program = os.path.join(folder, "blobd")

    def link(_):
        written(program, "v3")
        return True

    written(program, "every")
    with mock.patch.object(build, "PROGRAM", program), mock.patch.object(build, "prove_and_link", link):
        is_built = build.build(["--cpu=x86-64-v3"], "v3")
    texts = {name: pack.contents(os.path.join(folder, name)) for name in os.listdir(folder)}
    equal("both forms", (is_built, texts), (True, {"blobd": b"every", "blobd-v3": b"v3"}))


def packed(folder, what, program):
    """The name of what is packed into this folder."""
    with mock.patch.object(pack, "DIST", folder), mock.patch.object(pack, "PROGRAM", program):
        with mock.patch("sys.stdout", io.StringIO()):
            equal(f"{what} is packed", pack.main([what]), 0)
    return next(name for name in os.listdir(folder) if ".tar" in name and not name.endswith(".sha256"))


def files_of(tar):
    return {entry.name: tar.extractfile(entry).read() for entry in tar if entry.isfile()}


def unpacked(folder, what, program):
    """The files of what is packed, by their names. The sum stands beside it."""
    name = packed(folder, what, program)
    data = pack.contents(os.path.join(folder, name))
    beside = pack.contents(os.path.join(folder, f"{name}.sha256"))
    equal(f"the sum of {what}", beside, f"{hashlib.sha256(data).hexdigest()}  {name}\n".encode())
    with tarfile.open(fileobj=io.BytesIO(data)) as tar:
        return files_of(tar)


@case()
def test_an_image_has_the_program_and_what_it_is_loaded_with(folder):
    files = unpacked(folder, "image", OPTIONS.program)
    (image,) = json.loads(files["manifest.json"])
    config, layer = json.loads(files[image["Config"]]), files[image["Layers"][0]]
    equal("its tag is the version", image["RepoTags"], [f"localhost/blobd:{pack.version()}"])
    equal("what it runs on", (config["os"], config["architecture"]), ("linux", "amd64"))
    digests = config["rootfs"]["diff_ids"]
    equal("the layer's digest", digests, [f"sha256:{hashlib.sha256(layer).hexdigest()}"])
    with tarfile.open(fileobj=io.BytesIO(layer)) as tar, mock.patch.object(pack, "PROGRAM", OPTIONS.program):
        inside = files_of(tar)
        libraries = {path.lstrip("/") for path in pack.libraries()}
        volume = tar.getmember("var/lib/blobd")
    equal("the program in the image", inside["usr/local/bin/blobd"], pack.contents(OPTIONS.program))
    check("what it is loaded with", libraries <= set(inside), (libraries, list(inside)))
    equal("the folder of its data", (volume.mode, volume.uid, volume.gid), (0o700, 65534, 65534))


@case()
def test_both_images_are_set_up_alike(folder):
    """The image of `make image` runs as that of the Containerfile does: its user, its folder for data, its signal."""
    files = unpacked(folder, "image", OPTIONS.program)
    config = json.loads(files[json.loads(files["manifest.json"])[0]["Config"]])["config"]
    with open(os.path.join(TOP, "deploy", "Containerfile"), encoding="utf-8") as file:
        lines = [line.rstrip().split(" ", 1) for line in file if line[0].isupper()]
    told = {word: [rest for first, rest in lines if first == word] for word, _ in lines}
    equal("the variables", sorted(config["Env"]), sorted(told["ENV"]))
    equal("the user", [config["User"]], told["USER"])
    equal("the volume", list(config["Volumes"]), told["VOLUME"])
    equal("the signal", [config["StopSignal"]], told["STOPSIGNAL"])
    equal("the port", list(config["ExposedPorts"]), [f"{port}/tcp" for port in told["EXPOSE"]])
    equal("its command", json.loads(told["CMD"][0])[2:], config["Entrypoint"] + config["Cmd"])
    check("its folder for data", config["Env"][2].split("=")[1].startswith(told["VOLUME"][0] + "/"), config)


@case("buildah")
def test_an_image_runs_where_buildah_is_installed(folder):
    if os.geteuid() != 0:
        skip("an image that runs", "buildah can't run one here")
        return
    archive = packed(folder, "image", OPTIONS.program)
    words = ["buildah", "--root", f"{folder}/root", "--runroot", f"{folder}/run", "--storage-driver", "vfs"]

    def told(*more):
        ran = finished([*words, *more])
        equal(f"buildah {more[0]}", (ran.returncode, ran.stderr if ran.returncode else ""), (0, ""))
        return ran.stdout.strip()

    image = told("pull", f"docker-archive:{folder}/{archive}").splitlines()[-1]
    container = told("from", image)
    ran = told("run", "--isolation", "chroot", container, "--", "/usr/local/bin/blobd", "--version")
    equal("the image's program", ran, f"blobd {pack.version()}")
    told("rm", container)


@case()
def test_a_release_has_both_forms_and_the_sums_of_all(folder):
    program, dist = os.path.join(folder, "blobd"), os.path.join(folder, "dist")
    for path, text in ((program, "every"), (f"{program}-v3", "v3")):
        written(path, text)
    files = unpacked(dist, "release", program)
    top = f"blobd-{pack.version()}/"
    both = files[f"{top}bin/blobd"], files[f"{top}bin/blobd-v3"]
    equal("both forms of a release", both, (b"every", b"v3"))
    sums = dict(reversed(line.split("  ")) for line in files.pop(f"{top}SHA256SUMS").decode().splitlines())
    digests = {name.removeprefix(top): hashlib.sha256(data).hexdigest() for name, data in files.items()}
    equal("the sums of a release", sums, digests)
    check("pages of a release", {"LICENSE", "README.md", "VERSION"} <= set(sums), list(sums))


if __name__ == "__main__":
    main(__doc__)
