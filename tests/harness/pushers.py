"""Clients that store blobs, fill a server with them, and look whether all are there; and some that push, mount, resume
and pull as chance has it, and note what they were told: that has to be there after a kill of their server."""
import collections
import random
import threading
import time

from .running import MIB, pull
from .suite import check
from .wire import Connection, demand, named, request_text, sha256

NAME = "lib/a"
# Those of blobs that fill a disk, or a memory.
SIZES = 20 * MIB, MIB, 100_000, 20_000, 200
# The service has room for no more than 1,024 open uploads.
MOST_OPEN = 200


def post(client, content, digest_of=sha256):
    """The status of a blob that is sent in one request."""
    return client.ask("POST", f"/v2/{NAME}/blobs/uploads/?digest={digest_of(content)}", content).status


def fill(client, told, chance, sizes=SIZES):
    """Uploads blobs of the first size until one is answered otherwise than 201, then of the next, and so on. Gives the
    last statuses."""
    statuses = []
    for size in sizes:
        while (status := post(client, content := chance.randbytes(size))) == 201:
            told.append(content)
        statuses.append(status)
    return statuses


def has_all(name, server, told):
    """Checks that these are there, byte for byte."""
    wrong = [len(content) for content in told if pull(server, NAME, sha256(content)) != content]
    check(name, not wrong, wrong)


def held(client, place):
    """The status of an upload, and how many bytes it has received."""
    reply = client.ask("GET", place)
    return reply.status, reply.held() if reply.status == 204 else None


def repository_of(place):
    """That of an upload."""
    return place.split("/blobs/")[0].removeprefix("/v2/")


class Told:
    """What clients of a server were told, and what they had begun as it was killed."""

    def __init__(self):
        self.lock = threading.Lock()
        # which contents repositories have, and the offset that each open upload was told, and would have next
        self.stored, self.uploads = {}, {}
        # uploads that were being closed: the repository and the content
        self.closing = {}
        # open uploads that no client is at, and all that a kill left
        self.idle, self.left = set(), set()
        # how often each thing was done
        self.done = collections.Counter()

    def count(self, what):
        with self.lock:
            self.done[what] += 1

    def keep(self, name, content):
        with self.lock:
            self.stored[name, sha256(content)] = content

    def note(self, place, told, next_, content):
        with self.lock:
            self.uploads[place] = told, next_, content


class Pusher:
    """A client that does one thing after another, and notes what it is told."""

    def __init__(self, server, told, seed):
        self.told, self.chance = told, random.Random(seed)
        self.connection, self.name = Connection(server.place()), f"lib/{seed % 4}"

    def ask(self, method, target, body=b"", **fields):
        """The reply. Nothing comes once the server is gone."""
        self.connection.send(request_text(method, target, body, named(fields)))
        return self.connection.hear(method)

    def content(self, most):
        return self.chance.randbytes(self.chance.choice((0, 1, 700, 9_000, 70_000, most)))

    def turn(self):
        """Does one thing, or nothing for a moment once the server is gone."""
        work = self.chance.choice((self.whole, self.upload, self.mount, self.resume, self.pull))
        if work():
            self.told.count(work.__name__)
        else:
            time.sleep(0.01)

    def whole(self):
        content = self.content(200_000)
        reply = self.ask("POST", f"/v2/{self.name}/blobs/uploads/?digest={sha256(content)}", content)
        return reply is not None and self.keep(reply, self.name, content)

    def keep(self, reply, name, content):
        demand(reply.status == 201, "a blob", reply)
        self.told.keep(name, content)
        return True

    def any_stored(self):
        """A repository and what it has, or nothing while none has anything."""
        with self.told.lock:
            return self.chance.choice(list(self.told.stored.items())) if self.told.stored else None

    def mount(self):
        if not (stored := self.any_stored()):
            return False
        (name, digest), content = stored
        reply = self.ask("POST", f"/v2/{self.name}/blobs/uploads/?mount={digest}&from={name}")
        return reply is not None and self.keep(reply, self.name, content)

    def pull(self):
        if not (stored := self.any_stored()):
            return False
        (name, digest), content = stored
        reply = self.ask("GET", f"/v2/{name}/blobs/{digest}")
        if reply is None:
            return False
        demand((reply.status, reply.body == content) == (200, True), "a pull of", name, digest, reply)
        return True

    def upload(self):
        reply = self.ask("POST", f"/v2/{self.name}/blobs/uploads/")
        if reply is None:
            return False
        demand(reply.status == 202, "an opening", reply)
        return self.go_on(reply.fields["Location"], b"")

    def resume(self):
        """Goes on with an upload that another client left, or a kill, where the server says that it is."""
        with self.told.lock:
            if not self.told.idle:
                return False
            place = self.chance.choice(sorted(self.told.idle))
            self.told.idle.discard(place)
            offset, _, content = self.told.uploads[place]
        reply = self.ask("GET", place)
        if reply is None:
            return False
        demand(reply.status == 204 and reply.held() == offset, "an upload", place, reply, offset)
        if not self.go_on(place, content):
            return False
        if place in self.told.left:
            self.told.count("after a kill")
        return True

    def send(self, place, content, chunk):
        """Sends a chunk behind what an upload has, perhaps with its range. Gives whether there was a reply."""
        offset, next_ = len(content), len(content) + len(chunk)
        fields = {"Content_Range": f"{offset}-{next_ - 1}"} if chunk and self.chance.random() < 0.5 else {}
        self.told.note(place, offset, next_, content + chunk)
        reply = self.ask("PATCH", place, chunk, **fields)
        if reply is None:
            return False
        demand(reply.status == 202 and reply.held() == next_, "a chunk", reply)
        self.told.note(place, next_, next_, content + chunk)
        return True

    def go_on(self, place, content):
        for _ in range(self.chance.randrange(5)):
            chunk = self.content(150_000)
            if not self.send(place, content, chunk):
                return False
            content += chunk
        if self.chance.random() < 0.3:
            # it stays open
            self.told.note(place, len(content), len(content), content)
            with self.told.lock:
                self.told.idle.add(place)
            return True
        return self.close(place, content)

    def close(self, place, content):
        name = repository_of(place)
        with self.told.lock:
            self.told.uploads.pop(place, None)
            self.told.closing[place] = name, content
        reply = self.ask("PUT", f"{place}?digest={sha256(content)}")
        if reply is None:
            return False
        with self.told.lock:
            del self.told.closing[place]
        return self.keep(reply, name, content)


def look(server, told, chance):
    """Checks what a server has that was killed before, and notes what became of what was under way. Of the blobs that
    were looked at before, some are looked at again."""
    with server.client() as client:
        look_at_blobs(client, told, chance)
        look_at_uploads(client, told)
        look_at_closes(client, told)
    told.idle, told.left = set(told.uploads), told.left | set(told.uploads)


def look_at_blobs(client, told, chance):
    wrong, stored = [], list(told.stored.items())
    for (name, digest), content in stored[-400:] + chance.sample(stored, min(100, len(stored))):
        reply = client.ask("GET", f"/v2/{name}/blobs/{digest}")
        if (reply.status, reply.body) != (200, content):
            wrong.append((name, digest, reply.status))
    check("what was answered 201", not wrong, wrong[:3])


def look_at_uploads(client, told):
    wrong = []
    for place, (offset, next_, content) in list(told.uploads.items()):
        status, has = held(client, place)
        if status != 204 or has not in (offset, next_):
            wrong.append((place, status, has, (offset, next_)))
        else:
            told.uploads[place] = has, has, content[:has]
    check("the uploads", not wrong, wrong[:3])


def look_at_closes(client, told):
    wrong = []
    for place, (name, content) in told.closing.items():
        status, has = held(client, place)
        blob = client.ask("GET", f"/v2/{name}/blobs/{sha256(content)}")
        if status == 404 and (blob.status, blob.body) == (200, content):
            told.stored[name, sha256(content)] = content
        elif (status, has) == (204, len(content)):
            told.uploads[place] = has, has, content
        else:
            wrong.append((place, status, has, len(content), blob.status))
    check("the uploads that were being closed", not wrong, wrong[:3])
    told.closing.clear()


def close_some(server, told):
    """Goes on with some of the uploads that are open, up to their ends."""
    with server.client() as client:
        for place, (offset, _, content) in list(told.uploads.items())[:-MOST_OPEN]:
            reply = client.ask("PUT", f"{place}?digest={sha256(content[:offset])}")
            check("the close of an upload that a kill left", reply.status == 201, reply)
            told.keep(repository_of(place), content[:offset])
            del told.uploads[place]
            told.idle.discard(place)
