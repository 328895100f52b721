#!/usr/bin/env python3
"""Checks of the repository itself: what its files may say, and what must stand beside what.

Prints a line for each check, and 'N passed, M failed' as the last. Exit status 1 if one failed.
"""
import collections
import itertools
import os
import re
import sys

import definitions
import pages
import stored
import wrong_bodies
from files import TOP, text_of, tracked

HANDLES = "Handles allowed: Threads, Wait, Net.\n"

HOLE = re.compile(r"(=\s*\?|[( ]\?[ ),]|\?\s*$)")

# What the program is made of beside the libraries: no other crate stands on these.
PROGRAM = {"blobd", "blobd_data", "blobd_push", "blobd_serve", "blobd_shared", "blobd_tests", "blobd_words"}

# How many edits `make test` tries at most, and how many further ones `make edits` has. Each takes 10 seconds to two and
# a half minutes of a processor, and the first of a crate a proof of it: 162 of them took half of the gate's time.
MOST_TRIED = 45
MOST_FURTHER = 200

# Settings of the C library's memory. A record of figures has those that they were measured with.
TUNED = re.compile(r"glibc\.malloc\.hugetlb=[\w.:=]+")

# A module that a crate has only in its tests.
OF_TESTS = re.compile(r"^#\[cfg\(test\)\]\nmod (\w+);", re.MULTILINE)


def holes(paths):
    """Proofs that are not finished."""
    return [
        f"{path}:{number}: {line.strip()}"
        for path in paths
        if path.endswith(".antt")
        for number, line in enumerate(text_of(path).splitlines(), 1)
        if HOLE.search(line.split("--")[0])
    ]


def words_of(path):
    """How often each word stands in a source, comments of definitions left out."""
    lines = text_of(path).splitlines()
    return collections.Counter(
        definitions.words(" ".join(map(definitions.without_comment, lines) if path.endswith(".antt") else lines))
    )


def module_of(path):
    """`upload_names.specs.Digest` of `crates/upload_names/specs/Digest.antt`."""
    return path.removeprefix("crates/").removesuffix(".antt").replace("/", ".")


def names_taken(sources):
    """The names that other files take from each module of definitions; from one that is taken whole, each word of the
    file."""
    taken = collections.defaultdict(set)
    for path in sources:
        words = words_of(path)
        for module, names in definitions.taken(text_of(path)):
            taken[module].update(names or words)
    return taken


def unnamed(paths):
    """Definitions and lemmas that nothing names beside themselves. The code names lemmas by their paths, in
    attributes."""
    sources = [path for path in paths if path.startswith("crates/") and path.endswith((".antt", ".rt"))]
    taken = names_taken(sources)
    in_code = sum((words_of(path) for path in sources if path.endswith(".rt")), collections.Counter())
    found = []
    for path in (path for path in sources if path.endswith(".antt")):
        words = words_of(path)
        for item in definitions.definitions(path, text_of(path)):
            here = words[item.name] > definitions.words(" ".join(item.lines)).count(item.name)
            if not (here or item.is_answer or item.name in taken[module_of(path)] or item.name in in_code):
                found.append(f"{path}:{item.line}: {item.name}")
    return found


def of_tests_alone(paths):
    """Definitions that name what only the tests of their crate declare. The crate isn't proved without its tests
    then."""
    roots = {path.split("/")[1]: path for path in paths if re.fullmatch(r"crates/\w+/src/(lib|main)\.rt", path)}
    return [
        f"{path}: {name}"
        for crate, root in roots.items()
        for name in (f"{crate}.specs.declared.{module}." for module in OF_TESTS.findall(text_of(root)))
        for path in paths
        if path.startswith(f"crates/{crate}/") and path.endswith(".antt") and name in text_of(path)
    ]


def outputs(paths):
    """What the toolchain makes, which is never committed."""
    return [path for path in paths if "out" in path.split("/")[:-1]]


def handles(_):
    return [] if text_of("HANDLES") == HANDLES else ["HANDLES is not its one line"]


def too_many(_):
    """More edits than the gate, or `make edits`, has time for."""
    count = collections.Counter(edit.folder for edit in wrong_bodies.edits())
    return [
        f"{count[folder]} edits in {folder}/ in place of {most}"
        for folder, most in (("must-fail", MOST_TRIED), ("further-edits", MOST_FURTHER))
        if count[folder] > most
    ]


def headless(paths):
    """Must-fail edits that don't say what they do wrong, which functions that are there refuse it, or by what."""
    found = []
    for crate, of_crate in itertools.groupby(wrong_bodies.edits(), lambda edit: edit.crate):
        code = " ".join(text_of(path) for path in paths if path.startswith(f"crates/{crate}/src/"))
        functions = set(re.findall(r"\bfn (\w+)", code))
        for edit in of_crate:
            broken = {name.split(":")[-1] for name in edit.breaks}
            if not edit.wrong:
                found.append(f"{edit.path} has no line '# wrong: ..'")
            if not broken or not broken <= functions:
                found.append(f"{edit.path} has no line '# breaks: ..' that names functions which are there")
            if edit.is_tried and not edit.ruled_out_by:
                found.append(f"{edit.path} has no line '# ruled out by: ..'")
    return found


def unapplied(paths):
    """Edits that the sources have left behind."""
    return [path for path in paths if path.endswith(".edit") and wrong_bodies.edited(path) is None]


def stands_on(crate):
    """The crates of the repository that a crate is built of, itself among them."""
    lines = [line.partition(":") for line in text_of("crates.txt").splitlines() if line and not line.startswith("#")]
    direct = {name.split()[0]: uses.split() for name, _, uses in lines}
    found, left = set(), [crate]
    while left:
        name = left.pop()
        if name in direct and name not in found:
            found.add(name)
            left += direct[name]
    return found


def unwatched(_):
    """Crates of the program whose changes `make` doesn't see, and names there of crates that aren't the program's."""
    watched = re.search(r"^CRATES = (.*)$", text_of("Makefile"), re.MULTILINE)
    return [
        f"Makefile's CRATES: {name}"
        for name in sorted(stands_on("blobd") ^ set(watched.group(1).split() if watched else []))
    ]


def outside_the_program(_):
    """Crates that stand on one of the program's and aren't the program's; and a half of the program that stands on the
    other."""
    found = [
        f"{crate} stands on {name}"
        for crate in sorted(set(os.listdir(os.path.join(TOP, "crates"))) - PROGRAM)
        for name in sorted(stands_on(crate) & PROGRAM)
    ]
    halves = {"blobd_push", "blobd_serve"}
    return found + [f"{half} stands on the other half" for half in sorted(halves) if halves <= stands_on(half)]


def unversioned(paths):
    """The program's version, and that of the first entry of the changes, if it isn't that of the file VERSION."""
    version = text_of("VERSION").strip()
    found = []
    forms = {"crates/blobd_words/src/help.rt": r'VERSION: &str = "blobd (.*)";', "CHANGELOG.md": r"^## \[(.*?)\]"}
    for path, form in forms.items():
        said = re.findall(form, text_of(path), re.MULTILINE)[:1]
        if said != [version]:
            found.append(f"{path} says {said}, and VERSION says {version}")
    return found if re.fullmatch(r"[0-9]+\.[0-9]+\.[0-9]+", version) else [*found, "VERSION isn't a version"]


def unlike_the_model(_):
    return [f"tests/connections/{stem}: the model answers otherwise" for stem in stored.unlike_the_model()]


def unlike_copies(paths):
    """Assertions of tests that aren't the same in each crate. No library's function may take an `Abort`, so each crate
    that takes them has the file."""
    copies = [path for path in paths if re.fullmatch(r"crates/\w+/src/expect\.rt", path)]
    return [f"{path} isn't {copies[0]}" for path in copies[1:] if text_of(path) != text_of(copies[0])]


def vouched_by_nothing(paths):
    """Places that name the keeping that keeps nothing, beside the two modules that may make one and the line that hands
    it from one to the other. Whoever makes one can vouch by it for any answer."""
    may = {f"crates/{crate}/src/unkept.rt" for crate in ("upload_keeper", "upload_intake")}
    found = [path for path in paths if path.endswith(".rt") and path not in may and "NoKeeping" in text_of(path)]
    return [path for path in found if path != "crates/upload_keeper/src/lib.rt"]


def untuned(paths):
    """Places that set the C library's memory otherwise than `make serve` does."""
    wanted = TUNED.search(text_of("Makefile")).group()
    return [
        f"{path}: {said} in place of {wanted}"
        for path in paths
        if not path.endswith((".json", "CHANGELOG.md"))
        for said in TUNED.findall(text_of(path))
        if said != wanted
    ]


CHECKS = [
    ("no hole in a proof", holes),
    ("each definition and each lemma is named", unnamed),
    ("definitions name nothing that only tests declare", of_tests_alone),
    ("no output is committed", outputs),
    ("HANDLES is its one line", handles),
    ("no more edits than there is time for", too_many),
    ("every edit says what it does wrong and what refuses it", headless),
    ("the page of wrong bodies has the edits that make test tries", pages.unlisted),
    ("every edit applies", unapplied),
    ("each link of a page leads somewhere", pages.unlinked),
    ("each row of the promises names functions and clauses that are there", pages.unpromised),
    ("no row of the promises is longer than two lines", pages.long_rows),
    ("each test that a page names is there", pages.untested),
    ("the page of the crates says what each stands on", pages.misplaced),
    ("README lists the files that the headline rests on, with their lines", pages.miscounted),
    ("make watches every crate that the program is built of", unwatched),
    ("the program's crates are the program's alone", outside_the_program),
    ("the version is said once", unversioned),
    ("the page on using the crates shows its programs as they are", pages.unshown),
    ("pages for users call an upload an upload", pages.called_sessions),
    ("the model answers each stored connection as its files say", unlike_the_model),
    ("the assertions of tests are the same in each crate", unlike_copies),
    ("what keeps nothing is named in two modules", vouched_by_nothing),
    ("the C library's memory is set the same everywhere", untuned),
]


def main():
    paths = tracked()
    failed = 0
    for name, check in CHECKS:
        found = check(paths)
        print(f"{'ok' if not found else 'FAILED'}: {name}")
        for line in found:
            print(f"    {line}")
        failed += bool(found)
    print(f"{len(CHECKS) - failed} passed, {failed} failed")
    return 1 if failed else 0


if __name__ == "__main__":
    sys.exit(main())
