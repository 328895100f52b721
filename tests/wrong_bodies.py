#!/usr/bin/env python3
"""Prints the must-fail edits: a table of those that `make test` tries, which docs/WRONG-BODIES.md has, and for each
crate one of the further ones, which `make edits` tries.

    wrong_bodies.py             of all crates
    wrong_bodies.py CRATE..     of these

An edit is a file `crates/CRATE/must-fail/NAME.edit`, or one under `further-edits/`. Its head is made of lines that the
prover skips:

    # wrong: what the edited function does wrong
    # breaks: RepoName::read, <RepoName as Ord>::cmp   the functions whose contracts refuse it
    # ruled out by: `RepoName::read: named`            the clauses that do: each edit in must-fail/ says so
"""
import dataclasses
import itertools
import os
import re
import sys

from files import TOP

# the folders of edits: those that `make test` tries, and the others
FOLDERS = ("must-fail", "further-edits")
HEAD = re.compile(r"# (wrong|breaks|ruled out by): *(.*)")


@dataclasses.dataclass(frozen=True)
class Edit:
    """What the head of an edit says."""

    path: str
    crate: str
    folder: str
    name: str
    wrong: str
    breaks: tuple
    ruled_out_by: str

    @property
    def is_tried(self):
        """Whether `make test` tries it."""
        return self.folder == "must-fail"


def edit_at(path):
    """The edit in a file of the repository, `crates/CRATE/FOLDER/NAME.edit`. What its head lacks is empty."""
    with open(os.path.join(TOP, path), encoding="utf-8") as file:
        head = dict(found.groups() for found in map(HEAD.match, file.read().splitlines()) if found)
    _, crate, folder, name = path.split("/")
    breaks = tuple(word.strip() for word in head.get("breaks", "").split(",") if word.strip())
    return Edit(
        path, crate, folder, name.removesuffix(".edit"), head.get("wrong", ""), breaks, head.get("ruled out by", "")
    )


def edited(path):
    """The files that an edit of the repository changes, with what is in them then. None if an old text doesn't stand
    once in its file, where the texts before it were replaced."""
    texts, target, old = {}, None, None
    crate = os.path.dirname(os.path.dirname(path))
    with open(os.path.join(TOP, path), encoding="utf-8") as file:
        lines = file.read().splitlines()
    for line in lines:
        word, _, text = line.partition(": ")
        if word == "file":
            target = f"{crate}/{text.strip()}"
            if target not in texts:
                with open(os.path.join(TOP, target), encoding="utf-8") as file:
                    texts[target] = file.read()
        elif word == "old":
            old = text
        elif word == "new":
            if texts[target].count(old) != 1:
                return None
            texts[target] = texts[target].replace(old, text)
    return texts or None


def edits():
    """Every edit, by crate and name."""
    found = []
    for crate in os.listdir(os.path.join(TOP, "crates")):
        for folder in FOLDERS:
            at = os.path.join(TOP, "crates", crate, folder)
            names = os.listdir(at) if os.path.isdir(at) else []
            found += [edit_at(f"crates/{crate}/{folder}/{name}") for name in names if name.endswith(".edit")]
    return sorted(found, key=lambda edit: (edit.crate, edit.name))


def row(cells):
    return f"| {' | '.join(cells)} |"


def table(heads, rows):
    return "\n".join([row(heads), "|---" * len(heads) + "|", *map(row, rows)])


def known(of_crates):
    """The table of the edits that `make test` tries."""
    rows = [(f"`{it.name}`", f"`{it.crate}`", it.wrong, it.ruled_out_by) for it in of_crates if it.is_tried]
    return table(("Edit", "Crate", "Mistake", "Ruled out by"), rows)


def further(of_crate):
    """The table of the further edits of a crate."""
    rows = [
        (f"`{it.name}`", it.wrong, ", ".join(f"`{name}`" for name in it.breaks)) for it in of_crate if not it.is_tried
    ]
    return table(("Edit", "Mistake", "Breaks"), rows)


def main(crates):
    found = [edit for edit in edits() if not crates or edit.crate in crates]
    print(f"{known(found)}\n")
    for crate, of_crate in itertools.groupby(found, lambda edit: edit.crate):
        print(f"## {crate}\n\n{further(of_crate)}\n")
    return 0


if __name__ == "__main__":
    sys.exit(main(sys.argv[1:]))
