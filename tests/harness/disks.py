"""What a power cut may leave of a folder: the calls on it are noted (tests/shims/disks.c), and played up to any of
them.

What was written and not put on the disk behind that may be lost, be there, or be torn within its sectors; so may a
length, and a name whose folder was not synced since. What was synced is there, and nothing else is touched.
"""
import dataclasses
import os
import typing

# What a device writes at once.
SECTOR = 4096
# What stands at a name that there wasn't.
NOTHING = object()


class Note(typing.NamedTuple):
    """A call: which, on what path below the folder, and an offset or a length; and what was written."""

    call: str
    path: str
    at: int
    written: bytes
    # where the next one stands in the notes
    end: int


def notes_in(path):
    """The calls that were noted."""
    with open(path, "rb") as file:
        notes, place = file.read(), 0
    while place < len(notes):
        line, begin = notes.index(b"\n", place), notes.index(b"\n", place) + 1
        call, name, at, count = notes[place:line].decode().rsplit(" ", 3)[-4:]
        place = begin + int(count)
        yield Note(call, name, int(at), notes[begin:place], place)


@dataclasses.dataclass
class File:
    """What is on the disk, and the calls behind that."""

    synced: bytes = b""
    pending: list = dataclasses.field(default_factory=list)

    def sync(self):
        self.synced = self.read()
        self.pending = []

    def read(self):
        """As a read finds it."""
        return after(self.synced, self.pending, lambda sector: True)

    def left(self, dice):
        """What a cut may leave: of the calls that are pending some, of each write whole sectors, and of those that were
        under way perhaps anything."""
        chance = dice.choice([0, 0.1, 0.5, 0.9, 1])
        if chance == 1:
            return self.read()
        kept = after(self.synced, [call for call in self.pending if dice.random() < 0.8 or call[0] == "write"],
                     lambda sector: dice.random() < chance)
        if self.pending and dice.random() < 0.3:
            kept = torn(kept, self.pending, dice)
        return kept


def after(content, calls, is_kept):
    """A content behind calls, of whose writes the sectors are kept that the function says."""
    content = bytearray(content)
    for call, at, written in calls:
        if call == "resize":
            del content[at:]
            content.extend(bytes(at - len(content)))
            continue
        end = at + len(written)
        for begin in range(at // SECTOR * SECTOR, end, SECTOR):
            if is_kept(begin):
                first, last = max(begin, at), min(begin + SECTOR, end)
                content.extend(bytes(max(0, last - len(content))))
                content[first:last] = written[first - at : last - at]
    return bytes(content)


def torn(content, calls, dice):
    """A content of which a sector that was being written is anything."""
    writes = [(at, written) for call, at, written in calls if call == "write" and written]
    if not writes:
        return content
    at, written = dice.choice(writes)
    sector = dice.randrange(at // SECTOR, (at + len(written) - 1) // SECTOR + 1) * SECTOR
    spoiled = len(content[sector : sector + SECTOR])
    # a small number often means something
    anything = bytes([dice.randrange(4)]) + dice.randbytes(SECTOR) if dice.random() < 0.5 else dice.randbytes(SECTOR)
    return content[:sector] + anything[:spoiled] + content[sector + spoiled :]


class Disk:
    """A folder as the calls on it made it, and as it is on the disk."""

    def __init__(self):
        # by path: what stands there as a read finds it; and the paths whose names are on the disk. A folder is None.
        self.files, self.named = {".": None}, {"."}
        # files that were removed, and whose removal isn't on the disk
        self.removed = {}
        # by path, what was renamed to it and what stood there before, while that isn't on the disk
        self.renamed = {}

    @classmethod
    def holding(cls, paths):
        """A disk that has these, as `left` has them."""
        disk = cls()
        disk.files = {path: None if content is None else File(content) for path, content in paths.items()}
        disk.named = set(paths)
        return disk

    def behind(self, notes):
        """The same disk, once these calls were played."""
        for note in notes:
            self.play(note)
        return self

    def play(self, note):
        if note.call == "folder":
            self.files[note.path] = None
        elif note.call == "make":
            self.files[note.path] = File()
        elif note.call == "remove":
            removed = self.files.pop(note.path)
            if note.path in self.named:
                self.named.discard(note.path)
                self.removed[note.path] = removed
        elif note.call == "rename":
            other = note.written.decode()
            moved = self.files.pop(note.path)
            self.renamed[other] = note.path, moved, self.files.get(other, NOTHING), note.path in self.named
            self.files[other] = moved
            self.named.discard(note.path)
        elif note.call in ("write", "resize"):
            self.files[note.path].pending.append((note.call, note.at, note.written))
        elif self.files[note.path] is None:
            self.sync_names(note.path)
        else:
            self.files[note.path].sync()

    def sync_names(self, folder):
        self.named |= {path for path in self.files if parent(path) == folder}
        self.removed = {path: file for path, file in self.removed.items() if parent(path) != folder}
        self.renamed = {path: what for path, what in self.renamed.items() if parent(path) != folder}

    def read(self):
        """All paths, each with its bytes as a read finds them, or None for a folder: as `data.tree` has them."""
        return {path: file and file.read() for path, file in self.files.items()}

    def left(self, dice):
        """What a cut may leave, as `read` has it."""
        files, named = dict(self.files), set(self.named)
        for path, (before, moved, replaced, was_named) in self.renamed.items():
            if dice.random() < 0.5:
                files[path], files[before] = replaced, moved
                path = before
            # it has one of the two names if its own was on the disk
            named |= {path} if was_named else set()
        files = {path: file for path, file in files.items() if file is not NOTHING}
        left = {path: file for path, file in files.items() if path in named or dice.random() < 0.5}
        left |= {path: file for path, file in self.removed.items() if dice.random() < 0.5}
        # what stands in a folder whose name is lost is lost with it
        return {
            path: file and file.left(dice)
            for path, file in left.items()
            if all(above in left for above in parents(path))
        }


def parent(path):
    return os.path.dirname(path) or "." if path != "." else ""


def parents(path):
    while path != ".":
        path = parent(path)
        yield path


def make(folder, left):
    """Makes a folder of these paths."""
    for path in sorted(left, key=lambda path: (path != ".", path)):
        place = os.path.normpath(os.path.join(folder, path))
        if left[path] is None:
            os.makedirs(place, mode=0o700, exist_ok=True)
        else:
            with open(place, "wb") as file:
                file.write(left[path])
