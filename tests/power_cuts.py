#!/usr/bin/env python3
"""Cuts the power at the calls of a server with a data directory, and starts it again on what a cut may leave.

    power_cuts.py PROGRAM [--cuts N] [--seed S]

Clients open uploads, send chunks, close, mount and store while each call on the directory is noted
(tests/shims/disks.c). Then the directory is made as a cut after one of these calls may leave it
(tests/harness/disks.py), and a server is started on that. Each client's uploads and blobs are those behind the last
request that it heard the answer of, or the next one's. Some starts are cut as well, at one of their own calls.

`blobd compact` is cut at each of its calls too: a start after that has all that there was, and so it has after a second
compact. So is one with a list of what is referred to: what that has is there after each cut, and what else is there is
what was there. So is a start that compacts by itself. After each the bodies are those of before, or of the compaction, and
nothing is left of what was cut.
"""
import collections
import functools
import itertools
import os
import random
import subprocess
import tempfile
import threading
import time

from harness import disks, running, shims
from harness.data import serving, tree
from harness.running import MIB
from harness.suite import OPTIONS, case, check, equal, main
from harness.wire import sha256

# behind all notes
END = 1 << 62
CLIENTS = 3
STEPS = 24
# A body of more than 64 KiB has a file of its own, which is written and synced before its request is asked.
SIZES = [0, 1, 300, 4_000, 65_000, 66_000, 150_000, 300_000]
# One of some parts of 4 MiB each, which are written and synced one after another.
LONG = 9 * MIB + 5
# A start compacts by itself if 64 MiB go.
WASTE = 65 * MIB

# What a client's repositories have: for each upload how many bytes it has received, and the digests of the blobs.
State = collections.namedtuple("State", ["uploads", "blobs"])


class Story:
    """What a client asked, in order: the state after each request, and where the notes ended as it heard the
    answer."""

    def __init__(self, number, notes):
        self.name, self.notes = f"lib/{number}", notes
        self.dice, self.sizes = random.Random(OPTIONS.seed * 1_000 + number), SIZES
        self.received, self.blobs = {}, {}
        self.told = []
        self.tell()

    def tell(self):
        uploads = {place: len(content) for place, content in self.received.items()}
        self.told.append((os.path.getsize(self.notes), State(uploads, frozenset(self.blobs))))

    def content(self):
        return self.dice.randbytes(self.dice.choice(self.sizes))

    def target(self, where):
        return f"/v2/{self.name}/blobs/uploads/{where}"

    def step(self, client):
        if not self.received or self.dice.random() < 0.2:
            self.dice.choice([self.open, self.store])(client)
        else:
            self.dice.choice([self.send, self.send, self.close, self.miss])(client)
        self.tell()

    def all_steps(self, client):
        for _ in range(STEPS):
            self.step(client)

    def long_steps(self, client):
        """An upload and a blob of long bodies."""
        self.sizes = [LONG]
        for step in (self.open, self.send, self.close, self.store):
            step(client)
            self.tell()

    def wasteful_steps(self, client):
        """A blob that another repository gets too, in a body that nothing needs, and an upload."""
        self.sizes = [WASTE]
        self.store(client)
        (digest, content), = self.blobs.items()
        equal("a second body", client.ask("POST", f"/v2/lib/other/blobs/uploads/?digest={digest}", content).status, 201)
        self.sizes = SIZES
        for step in (self.open, self.send):
            step(client)
        self.tell()

    def open(self, client):
        reply = client.ask("POST", self.target(""))
        equal("an opening", reply.status, 202)
        self.received[reply.fields["Location"]] = b""

    def store(self, client):
        content = self.content()
        equal("a blob", client.ask("POST", self.target(f"?digest={sha256(content)}"), content).status, 201)
        self.blobs[sha256(content)] = content

    def send(self, client):
        place, chunk = self.dice.choice(list(self.received)), self.content()
        equal("a chunk", client.ask("PATCH", place, chunk).status, 202)
        self.received[place] += chunk

    def miss(self, client):
        place = self.dice.choice(list(self.received))
        first = len(self.received[place]) + 1
        equal("a gap", client.ask("PATCH", place, b"x", Content_Range=f"{first}-{first}").status, 416)

    def close(self, client):
        place, rest = self.dice.choice(list(self.received)), self.content()
        content = self.received.pop(place) + rest
        equal("a close", client.ask("PUT", f"{place}?digest={sha256(content)}", rest).status, 201)
        self.blobs[sha256(content)] = content

    def allowed(self, end):
        """The states that a cut may leave behind the notes up to this place."""
        heard = sum(place <= end for place, _ in self.told)
        return [state for _, state in self.told[max(heard - 1, 0) : heard + 1]]

    def found(self, client):
        """What a server has of it. A blob with other bytes than it was stored with is none of these."""
        places = {place for _, state in self.told for place in state.uploads}
        uploads = {}
        for place in places:
            reply = client.ask("GET", place)
            if reply.status == 204:
                uploads[place] = reply.held()
        blobs = set()
        for digest, content in self.blobs.items():
            reply = client.ask("GET", f"/v2/{self.name}/blobs/{digest}")
            if reply.status == 200:
                blobs.add(digest if reply.body == content else "other bytes")
        return State(uploads, frozenset(blobs))


def served(folder, data, **more):
    """A server on a data directory whose calls are noted."""
    notes = os.path.join(folder, f"notes-{len(os.listdir(folder))}")
    noted = shims.loaded(folder, "disks", DISK_FOLDER=data, DISK_NOTES=notes)
    return serving(data, env=more | noted, stderr=subprocess.DEVNULL), notes


def told_stories(folder, data, steps=Story.all_steps, clients=CLIENTS):
    """Serves the clients' requests, and gives their stories and the notes."""
    server, notes = served(folder, data, BLOBD_WORKERS=CLIENTS)
    with server:
        stories = [Story(number, notes) for number in range(clients)]

        def tell(story):
            with server.client() as client:
                steps(story, client)

        threads = [threading.Thread(target=tell, args=[story]) for story in stories]
        for thread in threads:
            thread.start()
        for thread in threads:
            thread.join()
    return stories, list(disks.notes_in(notes))


def bodies_in(paths):
    """What the bodies are that have a number, whichever that is."""
    numbered = (content for path, content in paths.items() if path.startswith("bodies/") and content is not None)
    return sorted(map(sha256, numbered))


def left_over(data, allowed=None):
    """What is in a data directory that a start or a compaction removes; the bodies are one of these lists, if they are
    given."""
    paths = tree(data)
    new = [path for path in paths if path == "journal.new" or path.startswith("bodies/new/")]
    if new or allowed is None or bodies_in(paths) in allowed:
        return [f"{path} is left" for path in new]
    return [f"{len(bodies_in(paths))} bodies are there, in place of {list(map(len, allowed))}, or others"]


def after_start(server, data, stories, end, allowed=None):
    """What is wrong with what a server has after a cut, and with what is in its directory."""
    if not server.first_line.startswith("listening "):
        server.stop()
        return [f"it doesn't start: {server.first_line!r}"]
    with server, server.client() as client:
        wrong = left_over(data, allowed)
        wrong += [
            f"{story.name} has {found}, and may have {allowed}"
            for story in stories
            if (found := story.found(client)) not in (allowed := story.allowed(end))
        ]
        more = client.push("lib/more", b"goes on" * 20_000, 70_000)
        return wrong + ([] if more[-1] == 201 else [f"a push after it: {more}"])


def cut(stories, notes, number):
    """Cuts at a call, perhaps cuts the start after that, and gives what is wrong then."""
    dice = random.Random(OPTIONS.seed * 1_000_000 + number)
    count = 1 + number % len(notes)
    left = disks.Disk().behind(notes[:count]).left(dice)
    if dice.random() < 0.3:
        left = cut_start(left, dice)
    wrong = started(left, stories, notes[count - 1].end)
    return [f"cut after call {count} of {len(notes)}: {line}" for line in wrong]


def started(left, stories, end):
    """What is wrong as a server starts on what a cut left after the notes up to this place."""
    with tempfile.TemporaryDirectory(dir=memory()) as folder:
        data = os.path.join(folder, "data")
        disks.make(data, left)
        with open(os.path.join(folder, "told"), "w+", encoding="utf-8") as told:
            wrong = after_start(serving(data, stderr=told), data, stories, end)
            told.seek(0)
            text = f"{told.read()} {journal_in(left)} was left, {journal_in(tree(data))} is there"
            return [f"{line} {text}" for line in wrong]


def journal_in(left):
    """What tells whether a journal is one: how it begins."""
    content = left.get("journal")
    return "no journal" if content is None else f"a journal of {len(content)} bytes {content[:16].hex()}.."


def cut_start(left, dice):
    """Starts a server on what a cut left, and gives what a second cut leaves, at a call of that start."""
    with tempfile.TemporaryDirectory(dir=memory()) as folder:
        data = os.path.join(folder, "data")
        disks.make(data, left)
        server, notes = served(folder, data)
        server.stop()
        calls = list(disks.notes_in(notes))
    return disks.Disk.holding(left).behind(calls[: dice.randint(0, len(calls))]).left(dice)


def memory():
    """A folder in memory, if there is one: what a test syncs needn't be on a disk."""
    return "/dev/shm" if os.path.isdir("/dev/shm") else None


def wrong_of(told):
    return cut(*told)


def are_allowed(data, stories, notes, numbers):
    """Cuts by numbers: each call has one of the first ones, and those behind them cut again with other dice."""
    check("the notes tell all", disks.Disk().behind(notes).read() == tree(data))
    with running.processes() as pool:
        cuts = zip(itertools.repeat(stories), itertools.repeat(notes), numbers)
        runs = pool.map(wrong_of, cuts, chunksize=20)
        wrong = [line for lines in runs for line in lines]
    check("what a cut leaves", not wrong, "\n    ".join(["", *wrong[:10]]))
    syncs = sum(note.call == "sync" for note in notes)
    print(f"{len(numbers)} cuts at {len(notes)} calls, {syncs} of them syncs")
    return syncs


@case("cc")
def test_cuts(folder):
    data = os.path.join(folder, "data")
    stories, notes = told_stories(folder, data)
    syncs = are_allowed(data, stories, notes, range(OPTIONS.cuts))
    check("there are calls", syncs > STEPS, notes[:20])


@case("cc")
def cuts_of_long_bodies(folder):
    """Bodies that are written and synced part by part are cut at each of their calls."""
    data = os.path.join(folder, "data")
    stories, notes = told_stories(folder, data, Story.long_steps, 1)
    begun = [at for at, note in enumerate(notes) if note.call == "make" and note.path.startswith("bodies/new/")]
    syncs = collections.Counter(note.path for note in notes if note.call == "sync")
    check("each of three bodies has parts", [syncs[notes[at].path] > 2 for at in begun] == [True] * 3, syncs)
    # what stands before are the calls of a first start
    are_allowed(data, stories, notes, range(begun[0] - 1, len(notes)))


def compacted(folder, data, keep):
    """Has a data directory compacted, with the lines of a list if there is one, and gives the calls of that."""
    notes = os.path.join(folder, f"notes-{len(os.listdir(folder))}")
    env = shims.loaded(folder, "disks", DISK_FOLDER=data, DISK_NOTES=notes)
    words = [data] if keep is None else ["--grace", "0", data, "-"]
    told, status, more = running.run("compact", *words, env=env, input=keep)
    return (status, told, more), list(disks.notes_in(notes))


class Kept(Story):
    """The same of which a list refers to some blobs: the others may be there after a cut, or not."""

    def __init__(self, story, referred):
        # the parts of the story, which goes on no more
        vars(self).update(vars(story))
        self.referred = referred

    def found(self, client):
        found = super().found(client)
        # all that it may lack is there, or none of it
        few = found.blobs == self.told[-1][1].blobs & self.referred
        return State(found.uploads, self.told[-1][1].blobs) if few else found


def lines_for(stories):
    """The lines of a list that refers to every other blob, and the stories with that."""
    kept = [Kept(story, frozenset(sorted(story.blobs)[::2])) for story in stories]
    lines = [f"{story.name} {digest}\n" for story in kept for digest in sorted(story.referred)]
    check("some go and some stay", lines and len(lines) < sum(len(story.blobs) for story in kept), lines)
    return "".join(lines), kept


def bare_start(folder, data):
    """Has a server start on a data directory, and gives the calls of that."""
    server, notes = served(folder, data)
    is_there = server.first_line.startswith("listening ")
    return (0 if is_there else server.first_line, "", server.stop()), list(disks.notes_in(notes))


class Compaction:
    """One that is cut: what does it, what was there before, the calls, and the stories that are there after it."""

    def __init__(self, run, data, stories):
        self.run, self.stories = run, stories
        self.before, self.notes, self.allowed = tree(data), [], []

    def behind(self, count):
        """The disk as so many calls leave it."""
        return disks.Disk.holding(self.before).behind(self.notes[:count])

    def cut(self, count):
        """Cuts it at a call, perhaps has what that leaves compacted again, and gives what is wrong then."""
        dice = random.Random(OPTIONS.seed * 1_000_000 + count)
        with tempfile.TemporaryDirectory(dir=memory()) as folder:
            data = os.path.join(folder, "data")
            disks.make(data, self.behind(count).left(dice))
            wrong = self.again(folder, data) if dice.random() < 0.3 else []
            with open(os.path.join(folder, "told"), "w+", encoding="utf-8") as told:
                wrong += after_start(serving(data, stderr=told), data, self.stories, END, self.allowed)
                told.seek(0)
                return [f"cut after call {count} of {len(self.notes)}: {line} {told.read()}" for line in wrong]

    def again(self, folder, data):
        (status, told, more), _ = self.run(folder, data)
        return left_over(data, self.allowed) if status == 0 else [f"it isn't compacted again: {told!r} {more!r}"]


# The one whose calls are cut by processes, which know it from this one.
CUT = []


def cut_compaction(count):
    return CUT[-1].cut(count)


def are_cut(folder, data, run, stories):
    """Has a data directory compacted, and that cut at each of its calls."""
    one = Compaction(run, data, stories)
    (status, told, more), one.notes = run(folder, data)
    equal("a compaction", (status, more), (0, ""))
    after = tree(data)
    check("the notes tell all of it", one.behind(len(one.notes)).read() == after)
    one.allowed = [bodies_in(one.before), bodies_in(after)]
    check("it makes room", sum(len(content or b"") for content in after.values())
          < sum(len(content or b"") for content in one.before.values()))
    (again, _, more), _ = run(folder, data)
    equal("a second one", (again, more, tree(data) == after), (0, "", True))
    CUT.append(one)
    with running.processes() as pool:
        wrong = [line for lines in pool.map(cut_compaction, range(1, len(one.notes) + 1), chunksize=4) for line in lines]
    check("what a cut of a compaction leaves", not wrong, "\n    ".join(["", *wrong[:10]]))
    print(f"{len(one.notes)} cuts of a compaction")
    return told


@case("cc")
def compactions(folder):
    data = os.path.join(folder, "data")
    stories, _ = told_stories(folder, data)
    told = are_cut(folder, data, functools.partial(compacted, keep=None), stories)
    check("it says what went", told.startswith("compacted: "), told)


@case("cc")
def compactions_with_a_list(folder):
    data = os.path.join(folder, "data")
    stories, _ = told_stories(folder, data)
    # what was stored in this second is young
    time.sleep(1.1)
    keep, kept = lines_for(stories)
    told = are_cut(folder, data, functools.partial(compacted, keep=keep), kept)
    check("it says what went", told.startswith("compacted: "), told)


@case("cc")
def starts_that_compact(folder):
    """A start that compacts by itself is cut at each of its calls."""
    data = os.path.join(folder, "data")
    stories, _ = told_stories(folder, data, Story.wasteful_steps, 1)
    are_cut(folder, data, bare_start, stories)
    equal("how many bodies there are, and are left", list(map(len, CUT[-1].allowed)), [2, 1])


if __name__ == "__main__":
    main(
        __doc__,
        cuts=(375, "how many cuts"),
        seed=(1, "where the dice begin"),
    )
