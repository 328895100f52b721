"""Reads the definitions and lemmas of the crates' `specs/` and `proofs/`: their names, where they stand, and what they
take."""
import dataclasses
import re

ITEM = re.compile(r"( *)(?:(?:pub|abbrev|unfoldable) )*(?:(record|data) )?([^\s(){}\[\],;:.]+)(?=[\s:]|$)")
SIGNED = re.compile(r"\s*:(?:\s|$)")
MODULE = re.compile(r"( *)module _")
WORDS = re.compile(r"[\s(){}\[\],;.:λ]+")
# what a file takes of a module of definitions: names, or the whole under its own name or another
TAKEN = re.compile(r"^\s*(?:ghost )?use Rattle\.([\w.]+?)(?:\.\{(.*)\}| as \w+)?;?$", re.MULTILINE)
# what no item begins with
KEYWORDS = {"use", "mod", "module", "let", "in", "unfolding", "where", "→", "∙", "|", "λ", "--"}
# what ends the head of a clause
CLAUSE_ENDS = re.compile(r" =(?: |$)")
# an answer to a goal of the prover, or a whole proof in its form: the prover looks for these by their names
ANSWER = re.compile(r":\s*goal\.|^pub \S+_spec :")


@dataclasses.dataclass(frozen=True)
class Definition:
    """A definition or a lemma: its own lines are its signature and its clauses."""

    path: str
    line: int
    kind: str
    name: str
    lines: tuple

    @property
    def is_answer(self):
        return bool(ANSWER.search(self.lines[0]))

    @property
    def signature(self):
        """The lines up to the first clause, or the fields, as one."""
        return " ".join(line.strip() for line in self.lines[: self.head_ends])

    @property
    def head_ends(self):
        """How many of the lines are the signature's. That of a record or of a type goes up to its `where`."""
        if self.kind:
            return next((at for at, line in enumerate(self.lines, 1) if line.endswith("where")), 1)
        return next(
            (at for at, line in enumerate(self.lines) if at and words(line)[:1] == [self.name]), len(self.lines)
        )

    @property
    def clauses(self):
        """The heads of the clauses, each as one: what stands in front of their `=`."""
        begins = [at for at, line in enumerate(self.lines) if at and words(line)[:1] == [self.name]]
        ends = [*begins[1:], len(self.lines)]
        whole = [" ".join(map(str.strip, self.lines[begin:end])) for begin, end in zip(begins, ends)]
        return [CLAUSE_ENDS.split(clause, 1)[0] for clause in whole]


def without_comment(line):
    return line.split("--")[0] if line.lstrip().startswith("--") else line.split(" -- ")[0]


def words(text):
    return [word for word in WORDS.split(text) if word]


def taken(text):
    """The modules of definitions that a file takes something from, each with the names; with none if it takes all."""
    return [(module, words(names)) for module, names in TAKEN.findall(text)]


def indent_of(line):
    return len(line) - len(line.lstrip())


def begins_item(line, indent):
    """The kind and the name of the item that begins with this line of an indentation, or None."""
    found = ITEM.match(line)
    if not found or len(found.group(1)) != indent or found.group(3) in KEYWORDS:
        return None
    kind, name = found.group(2) or "", found.group(3)
    return (kind, name) if kind or SIGNED.match(line[found.end() :]) else None


def belongs(line, item, indent):
    """Whether a line is still of the item that began with this indentation."""
    if not line.strip() or line.strip()[0] in "})]":
        return True
    return indent_of(line) > indent or (indent_of(line) == indent and words(line)[:1] in ([item[1]], ["unfolding"]))


def definitions(path, text):
    """The definitions of a file, in order. Fields of records, and what a `where` holds, are of the item that they stand
    in."""
    lines = [without_comment(line) for line in text.splitlines()]
    found, at, indent = [], 0, 0
    while at < len(lines):
        module = MODULE.match(lines[at])
        if lines[at].strip():
            indent = len(module.group(1)) + 2 if module else min(indent, indent_of(lines[at]))
        item = None if module else begins_item(lines[at], indent)
        end = at + 1
        if item:
            while end < len(lines) and belongs(lines[end], item, indent):
                end += 1
            own = tuple(line for line in lines[at:end] if line.strip())
            found.append(Definition(path, at + 1, *item, own))
        at = end
    return found


def parts(text):
    """A type's parts between its arrows that stand in no bracket."""
    depth, part, found = 0, "", []
    for letter in text:
        depth += (letter in "({[") - (letter in ")}]")
        if letter == "→" and depth == 0:
            found.append(part)
            part = ""
        else:
            part += letter
    return [*found, part]


def named_parameters(text):
    """How many names the brackets `(a b : A)` give. Those in braces are found by the prover."""
    return sum(len(words(group)) for group in re.findall(r"\(([^():]+) :", text))


def positional(definition):
    """How many arguments the definition takes one after the other."""
    signature = definition.signature
    if definition.kind:
        return named_parameters(signature.rpartition(" : ")[0])
    behind = signature.partition(" : ")[2].partition(" = ")[0]
    takes = parts(behind)[:-1]
    return sum(
        named_parameters(part) if part.strip().startswith("(") and " : " in part else not part.strip().startswith("{")
        for part in takes
    )
