#!/usr/bin/env python3
"""Measures the sources: how much code, contracts, definitions and proofs there are, and where they are long or repeat
something.

    house.py            prints the figures
    house.py WORD       prints the places behind the figure whose name begins so, such as `asks` or `wide`

It refuses nothing. A figure that grows asks why.
"""
import collections
import dataclasses
import os
import re
import sys

import definitions
from files import TOP, text_of, tracked

MOST_ARGUMENTS = 5
MOST_PARAMETERS = 4
WIDEST_LINE = 120
WIDEST_CLAUSE = 100
MOST_FILES = 20

# the two types whose cases are counted where they are listed
LISTED = {"asks": ("ask.Ask", "Ask"), "answers": ("answer.Answer", "Answer")}
CLAUSE = re.compile(r"^\s*(?:requires|ensures|ghost (?!use|mod))\b")
FUNCTION = re.compile(r"\bfn (\w+)\s*(?:<[^(]*>)?\(")
# the head of a clause of a local function, and of a branch
LOCAL_CLAUSE = re.compile(r"^ +(?!let\b)(\w\S* [^=]*) =(?: |$)")
BRANCH = re.compile(r"(?:\[|\|) ([^|\[↦]*) ↦")
WORD = re.compile(r"\w+")
TESTS = re.compile(r"(?:^|/)tests(?:\.rt$|/)|_tests/")


@dataclasses.dataclass(frozen=True)
class Source:
    """A file of a crate."""

    path: str
    text: str

    @property
    def crate(self):
        return self.path.split("/")[1]

    @property
    def kind(self):
        """`code`, `tests`, `specs` or `proofs`."""
        folder = self.path.split("/")[2]
        return "tests" if TESTS.search(self.path) else "code" if folder == "src" else folder


def sources():
    """The crates' code, definitions and proofs."""
    paths = (path for path in tracked() if re.match(r"crates/\w+/(?:src|specs|proofs)/.*\.(?:rt|antt)$", path))
    return [Source(path, text_of(path)) for path in paths]


def clause_lines(text):
    """The numbers of the lines that contracts have."""
    found, open_brackets, inside = set(), 0, False
    for number, line in enumerate(text.splitlines(), 1):
        inside = inside or bool(CLAUSE.match(line))
        if inside:
            found.add(number)
            open_brackets += line.count("{") - line.count("}")
            inside = open_brackets > 0 or (open_brackets == 0 and "{" not in line and bool(CLAUSE.match(line)))
    return found


def lines_of(all_sources):
    """How many lines that aren't empty there are of each kind; contracts stand in the code and count by themselves."""
    counts = collections.Counter()
    for source in all_sources:
        lines = sum(bool(line.strip()) for line in source.text.splitlines())
        contracts = len(clause_lines(source.text)) if source.path.endswith(".rt") else 0
        counts[source.kind] += lines - contracts
        counts["contracts"] += contracts
    return counts


def parameters(text, at):
    """The parameters behind a bracket that opens here, one by one."""
    depth, part, found = 1, "", []
    while depth:
        letter = text[at]
        depth += (letter in "([{<") - (letter in ")]}" or (letter == ">" and text[at - 1] not in "-="))
        if depth == 0 or (letter == "," and depth == 1):
            found.append(part.strip())
            part = ""
        else:
            part += letter
        at += 1
    return [part for part in found if part]


def functions(all_sources):
    """Each function of the code: its file, its line, its name and its parameters."""
    for source in all_sources:
        if source.path.endswith(".rt"):
            text = re.sub(r"//.*", "", source.text)
            for match in FUNCTION.finditer(text):
                yield source, text.count("\n", 0, match.start()) + 1, match.group(1), parameters(text, match.end())


def crowded_functions(all_sources):
    for source, line, name, takes in functions(all_sources):
        beside = [part for part in takes if not re.match(r"(?:alloc|_alloc|rt)\b", part)]
        if source.kind == "code" and len(beside) > MOST_PARAMETERS:
            yield f"{source.path}:{line}: {name} has {len(beside)}"


def all_definitions(all_sources):
    return [
        item
        for source in all_sources
        if source.path.endswith(".antt")
        for item in definitions.definitions(source.path, source.text)
    ]


def crowded_specs(all_sources):
    for item in all_definitions(all_sources):
        count = definitions.positional(item)
        if "/specs/" in item.path and count > MOST_ARGUMENTS:
            yield f"{item.path}:{item.line}: {item.name} has {count}"


def case_names(text, module):
    """How this file writes the cases of a type: a pattern for one of them, or None if it takes none."""
    aliased = re.search(rf"specs\.declared\.{module}\.TheVariants as (\w+)", text)
    taken = re.findall(rf"specs\.declared\.{module}\.TheVariants\.\{{([^}}]*)\}}", text)
    names = [name.split(" as ")[-1] for group in taken for name in re.split(r",\s*", group.strip()) if name]
    ways = (
        ([rf"{aliased.group(1)}\.(\w+)"] if aliased else []) + ([rf"(?<![\w.])({'|'.join(names)})\b"] if names else [])
    )
    return re.compile("|".join(ways)) if ways else None


def lists_in_definitions(source, module):
    """The definitions of a file whose clauses, or whose `elim`, go through cases of a type: two of them, or one and all
    others."""
    cases = case_names(source.text, module)
    for item in definitions.definitions(source.path, source.text) if cases else []:
        heads = item.clauses + [
            head for line in item.lines for head in [*LOCAL_CLAUSE.findall(line), *BRANCH.findall(line)]
        ]
        found = {match.group() for head in heads for match in cases.finditer(head.removeprefix(item.name))}
        others = any(re.search(r"\bother\b", head) for head in heads)
        if len(found) + others > 1 and found:
            yield f"{source.path}:{item.line}: {item.name}"


def lists_in_code(source, kind):
    """The functions that go through cases of a type."""
    parts = re.split(r"\bfn (?=\w)", source.text)
    line = parts[0].count("\n") + 1
    for part in parts[1:]:
        cases = set(re.findall(rf"\b{kind}::(\w+)[^;{{}}]*(?:\{{[^{{}}]*\}})?\s*(?:\||=>)", part))
        if len(cases) > 1:
            yield f"{source.path}:{line}: {WORD.match(part).group()}"
        line += part.count("\n")


def lists_of(all_sources, module, kind):
    for source in all_sources:
        yield from (
            lists_in_definitions(source, module) if source.path.endswith(".antt") else lists_in_code(source, kind)
        )


def homonyms(all_sources):
    """Names that two modules or more define. A definition without `pub` is its module's own, and counts too."""
    where = collections.defaultdict(set)
    for item in all_definitions(all_sources):
        if not item.is_answer and not re.search(r"/(?:Answers|Invariants|Proof)\.antt$", item.path):
            where[item.name].add(item.path)
    for name, paths in sorted(where.items()):
        if len(paths) > 1:
            yield f"{name}: {', '.join(sorted(paths))}"


def wide_lines(all_sources):
    for source in all_sources:
        for number, line in enumerate(source.text.splitlines(), 1):
            if len(line) > WIDEST_LINE:
                yield f"{source.path}:{number}: {len(line)} columns"


def wide_texts(paths):
    """The wide lines of scripts, and of pages but for tables and for what is shown as it is."""
    for path in paths:
        text = text_of(path) if re.search(r"\.(?:py|lua|md)$", path) else ""
        shown = False
        for number, line in enumerate(text.splitlines(), 1):
            of_page = path.endswith(".md")
            shown ^= of_page and line.lstrip().startswith("```")
            if len(line) > WIDEST_LINE and not (of_page and (shown or line.lstrip().startswith("|"))):
                yield f"{path}:{number}: {len(line)} columns"


def wide_clauses(all_sources):
    for source in (source for source in all_sources if source.path.endswith(".rt")):
        lines = source.text.splitlines()
        for number in sorted(clause_lines(source.text)):
            if len(lines[number - 1]) > WIDEST_CLAUSE:
                yield f"{source.path}:{number}: {len(lines[number - 1])} columns"


def crowded_folders(all_sources):
    counts = collections.Counter(
        os.path.dirname(source.path) for source in all_sources if source.path.endswith(".antt")
    )
    for folder, count in sorted(counts.items()):
        if count > MOST_FILES:
            yield f"{folder}: {count} files"


def measures(all_sources):
    """Each figure that is a count of places: its word, what it says, and the places."""
    return {
        **{
            word: (f"places that list the cases of `{kind}`", list(lists_of(all_sources, module, kind)))
            for word, (module, kind) in LISTED.items()
        },
        "arguments": (f"specs with more than {MOST_ARGUMENTS} positional arguments", list(crowded_specs(all_sources))),
        "parameters": (
            f"functions with more than {MOST_PARAMETERS} parameters beside the allocator",
            list(crowded_functions(all_sources)),
        ),
        "homonyms": ("names that two modules or more define", list(homonyms(all_sources))),
        "wide": (f"lines over {WIDEST_LINE} columns", list(wide_lines(all_sources))),
        "texts": (f"lines of scripts and pages over {WIDEST_LINE} columns", list(wide_texts(tracked()))),
        "clauses": (f"lines of contracts over {WIDEST_CLAUSE} columns", list(wide_clauses(all_sources))),
        "folders": (
            f"folders of more than {MOST_FILES} files of definitions or proofs", list(crowded_folders(all_sources))
        ),
    }


def files_of(places):
    return len({place.partition(":")[0] for place in places})


def main(words):
    os.chdir(TOP)
    all_sources = sources()
    found = measures(all_sources)
    if words:
        chosen = [word for word in found if word.startswith(words[0])]
        print(
            "\n".join(place for word in chosen for place in found[word][1])
            if chosen
            else f"there is no figure {words[0]}: {', '.join(found)}"
        )
        return 0 if chosen else 2
    counts = lines_of(all_sources)
    print(
        "lines: " + ", ".join(f"{kind} {counts[kind]:,}" for kind in ("code", "contracts", "specs", "proofs", "tests"))
    )
    per_crate = collections.Counter(source.crate for source, *_ in functions(all_sources) if source.kind == "code")
    print(
        f"functions: {sum(per_crate.values())}: "
        + ", ".join(f"{crate} {count}" for crate, count in sorted(per_crate.items()))
    )
    for word, (says, places) in found.items():
        in_files = f" in {files_of(places)} files" if word in LISTED else ""
        print(f"{word}: {len(places)} {says}{in_files}")
    return 0


if __name__ == "__main__":
    sys.exit(main(sys.argv[1:]))
