"""Checks of the repository's pages: that what they name and show is there, as they say it."""
import os
import re

import definitions
import wrong_bodies
from files import TOP, text_of

# A link of a page, and a heading that one may lead to.
LINK = re.compile(r"\]\(([^)\s]+)\)")
HEADING = re.compile(r"^#+ (.*)$", re.MULTILINE)
FENCED = re.compile(r"^```.*?^```", re.MULTILINE | re.DOTALL)

# The contracts of the service, which name the headline, and a row of README that says how many lines a file of the
# definitions has that it rests on.
SERVICE = "crates/upload_service/src/service.rt"
COUNTED = re.compile(r"^\|.*\]\((crates/\S+\.antt)\).*\| (\d+) \|$", re.MULTILINE)

# The page of promises, and what the cells name that say where a promise stands: a function and clauses of it, or a
# file.
PROMISES = "docs/PROMISES.md"
NAMED = re.compile(r"`([^`]+)`")
FUNCTION = re.compile(r"(?:[\w]+::)*(\w+)(?:: ([\w, ]+))?")
PLACE = re.compile(r"[\w/]+\.(?:rt|antt|py)|[\w/]+/")
WORD = re.compile(r"\w+")

# The page of wrong bodies.
WRONG_BODIES = "docs/WRONG-BODIES.md"

# The page of the crates, and its rows that list all that a crate stands on; and the lines of the file that says so.
ARCHITECTURE = "docs/ARCHITECTURE.md"
CRATE_ROW = re.compile(r"^\| `(\w+)` \|.*\| (`\w+`(?:, `\w+`)*) \|$", re.MULTILINE)
CRATE = re.compile(r"^(\w+)(?: [\w=+]+)*: (.+)$", re.MULTILINE)

# The page on using the crates, and what it shows of the two programs that do.
USING = "docs/USING.md"
SHOWN = re.compile(r"crates/embed_\w+/(src/\w+\.rt|specs/(?!Lib\.)\w+\.antt)")

# The pages for users who know uploads, and no sessions: of those that aren't about the code.
OF_UPLOADS = ("CHANGELOG.md", "docs/OPERATIONS.md", "docs/TROUBLES.md", USING)
SESSION = re.compile(r"\bsessions?\b")


def unlisted(_):
    """The table of the page of wrong bodies, if it isn't that of the edits that `make test` tries."""
    table = wrong_bodies.known(wrong_bodies.edits())
    is_there = f"\n\n{table}\n\n" in text_of(WRONG_BODIES)
    return [] if is_there else [f"{WRONG_BODIES} hasn't the first table that tests/wrong_bodies.py prints"]


def anchors(text):
    """The anchors of a page's headings, as GitHub makes them."""
    return {
        re.sub(r"[^\w -]", "", heading.lower()).replace(" ", "-") for heading in HEADING.findall(FENCED.sub("", text))
    }


def unlinked(paths):
    """Relative links of pages that lead nowhere."""
    found = []
    for page in (path for path in paths if path.endswith(".md")):
        for link in LINK.findall(FENCED.sub("", text_of(page))):
            if re.match(r"[a-z]+:", link):
                continue
            place, _, anchor = link.partition("#")
            target = os.path.normpath(os.path.join(os.path.dirname(page), place)) if place else page
            if not os.path.exists(os.path.join(TOP, target)) or (anchor and anchor not in anchors(text_of(target))):
                found.append(f"{page}: {link} leads nowhere")
    return found


def clauses_by_function(paths):
    """The names of the clauses that stand behind each function of the crates, by its name."""
    found = {}
    for path in (path for path in paths if path.startswith("crates/") and path.endswith(".rt")):
        for part in re.split(r"\bfn (?=\w)", text_of(path))[1:]:
            name = WORD.match(part).group()
            found.setdefault(name, set()).update(re.findall(r"\bensures (\w+) ", part))
    return found


def cells_under(page, *headings):
    """The cells of the page's tables that stand under these headings, each with its line's number."""
    column = None
    for number, line in enumerate(page.splitlines(), 1):
        cells = [cell.strip() for cell in line.split("|")[1:-1]]
        heads = [at for at, cell in enumerate(cells) if cell in headings]
        column = heads[0] if heads else column if cells else None
        if cells and column is not None and not heads and set(line) - set("|- "):
            yield number, cells[column]


def unpromised(paths):
    """Names in the table of promises of functions, clauses, definitions or files that aren't there."""
    clauses = clauses_by_function(paths)
    words = set(
        WORD.findall(
            " ".join(text_of(path) for path in paths if path.startswith("crates/") and path.endswith((".rt", ".antt")))
        )
    )
    found = []
    for number, cell in cells_under(text_of(PROMISES), "Contract", "Law"):
        for name in NAMED.findall(cell):
            function = FUNCTION.fullmatch(name)
            if PLACE.fullmatch(name):
                there = any(path.endswith(name) or f"/{name}" in path for path in paths)
            elif function and function.group(2):
                there = set(WORD.findall(function.group(2))) <= clauses.get(function.group(1), set())
            else:
                there = set(WORD.findall(name)) <= words
            if not there:
                found.append(f"{PROMISES}:{number}: there is no {name}")
        if not any(
            WORD.findall(name)[-1] in clauses or ":" in name for name in NAMED.findall(cell)
        ) and not cell.startswith(("the ", "each ")):
            found.append(f"{PROMISES}:{number}: names no function")
    return found


def long_rows(_):
    """Rows of the promises that are longer than two lines."""
    return [
        f"{PROMISES}:{number}: {len(line)} characters"
        for number, line in enumerate(text_of(PROMISES).splitlines(), 1)
        if line.startswith("|") and len(line) > 240
    ]


def untested(paths):
    """Tests and scripts that the pages name as what refuses or shows something, and that aren't there."""
    scripts = [path for path in paths if path.endswith((".rt", ".py"))]
    words = set(WORD.findall(" ".join(text_of(path) for path in scripts)))
    found = []
    for page in (PROMISES, WRONG_BODIES):
        for number, cell in cells_under(text_of(page), "Tests", "Test"):
            for name in NAMED.findall(cell):
                begins = name.removesuffix("..")
                if PLACE.fullmatch(name):
                    there = any(path.startswith(name) for path in paths)
                elif begins != name:
                    there = any(word.startswith(begins) for word in words)
                else:
                    there = (
                        " " in name or set(WORD.findall(name)) <= words | set(os.listdir(os.path.join(TOP, "crates")))
                    )
                if not there:
                    found.append(f"{page}:{number}: there is no {name}")
    return found


def contract_of(path, name):
    """The contract of a function in a file of code."""
    return re.search(rf"\bfn {name}\b.*?^    \{{", text_of(path), re.MULTILINE | re.DOTALL).group()


def imported(path):
    """The repository's own files of definitions that a file takes names from, each with the names."""
    for module, names in definitions.taken(text_of(path)):
        place = f"crates/{module.replace('.', '/')}.antt"
        if os.path.exists(os.path.join(TOP, place)):
            yield place, names


def definitions_behind_the_headline():
    """The files that define what the contracts of the service name, and all that these files import."""
    contracts = set(definitions.words("".join(contract_of(SERVICE, name) for name in ("step", "run_all"))))
    left = [place for place, names in imported(SERVICE) if contracts & set(names)]
    found = set()
    while left:
        place = left.pop()
        if place not in found:
            found.add(place)
            left += [place for place, _ in imported(place)]
    return found


def miscounted(_):
    """The definitions that the headline rests on, if README lists others, or other counts of their lines."""
    readme = text_of("README.md")
    rows = {(path, int(count)) for path, count in COUNTED.findall(readme)}
    real = {(path, len(text_of(path).splitlines())) for path in definitions_behind_the_headline()}
    found = [f"README.md: no row is {path} with {count} lines" for path, count in sorted(real - rows)]
    found += [f"README.md: {path} with {count} lines isn't so" for path, count in sorted(rows - real)]
    said = f"{len(real)} files, {sum(count for _, count in real)} lines in all"
    return found if said in " ".join(readme.split()) else [*found, f"README.md: they are {said}"]


def misplaced(_):
    """Crates of which the page of the crates says that they stand on others than they do."""
    stand = {crate: set(below.split()) for crate, below in CRATE.findall(text_of("crates.txt"))}
    rows = [(crate, set(NAMED.findall(below))) for crate, below in CRATE_ROW.findall(text_of(ARCHITECTURE))]
    return [
        f"{ARCHITECTURE}: {crate}: {', '.join(sorted(below ^ stand.get(crate, set())))}"
        for crate, below in rows
        if below != stand.get(crate)
    ]


def unshown(paths):
    """Files of the programs that use the crates which the page on that doesn't show word for word."""
    page = text_of(USING)
    return [
        f"{USING} doesn't show {path} as it is"
        for path in paths
        if SHOWN.fullmatch(path) and f"\n{text_of(path)}```\n" not in page
    ]


def called_sessions(_):
    """Lines of pages for users that call an upload a session, as the code and the proofs do."""
    return [
        f"{path}:{number}: {line.strip()}"
        for path in OF_UPLOADS
        for number, line in enumerate(text_of(path).splitlines(), 1)
        if SESSION.search(line)
    ]
