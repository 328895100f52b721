"""Clients that make requests at random, and record what they were told."""
import collections
import concurrent.futures
import dataclasses
import random
import threading
import time

from harness.wire import PATIENCE, Complaint, Connection, demand, request_text, sha256

NAMES = ["a", "lib/a", "lib/b", "lib/blobs/uploads"]
SIZES = [0, 1, 2, 10, 300, 300, 5_000, 5_000, 70_000]
# Once a client has sent so much, it sends little, since blobs stay.
MOST_BYTES = 64 << 20
# How often what was refused memory is asked again.
TRIES = 200


@dataclasses.dataclass
class Upload:
    """What a client knows of an upload: where it is, and the bytes that were taken. A chunk or a close whose client
    went away is perhaps still to come."""

    name: str
    place: str
    held: bytes = b""
    perhaps: bytes = b""
    perhaps_closed: bool = False


def placed(upload, body):
    """The fields of a chunk that stands behind what was taken."""
    first = len(upload.held)
    return [("Content-Range", f"{first}-{first + len(body) - 1}")]


class Client:
    """Makes requests at random, one upload and one connection after the other, and keeps account."""

    def __init__(self, place, seed, is_refused):
        self.place, self.is_refused = place, is_refused
        self.chance = random.Random(seed)
        self.uploads, self.committed = [], []
        self.sent = 0
        self.seen = collections.Counter()
        self.past = collections.deque(maxlen=12)
        self.connection = None

    def often(self, part):
        return self.chance.random() < part

    # --- asking ---

    def connected(self):
        if not self.connection or not self.connection.is_open:
            self.connection = Connection(self.place)
        return self.connection

    def leave(self):
        if self.connection:
            self.connection.close()

    def heard(self, method, target, reply):
        """Notes a reply. Only out of memory may leave a request without one, or answer it 503."""
        told = reply.status if reply else "nothing"
        self.seen[f"{method} {told}"] += 1
        self.past.append(f"{method} {target}: {told}")
        demand(self.is_refused or (reply and reply.status != 503), "no reply although nothing is wrong")
        return None if reply and reply.status == 503 else reply

    def ask(self, method, target, body=b"", fields=()):
        """The reply to a request, or nothing if memory was refused."""
        self.sent += len(body)
        connection = self.connected()
        connection.send(request_text(method, target, body, fields, is_chunked=self.often(0.2)))
        return self.heard(method, target, connection.hear(method))

    def ask_until_heard(self, method, target):
        """The reply to a request that changes nothing, asked again if it is out of memory."""
        for _ in range(TRIES):
            reply = self.ask(method, target)
            if reply:
                return reply
        raise Complaint(f"{method} {target} is never answered")

    def ask_unheard(self, method, target, body=b"", fields=()):
        """Sends a request, whole or in part, and goes away. Gives whether it may have been taken."""
        text = request_text(method, target, body, fields, is_chunked=self.often(0.2))
        is_whole = self.often(0.5)
        sent = text if is_whole else text[: self.chance.randrange(len(text))]
        self.past.append(f"{method} {target}: {len(sent)} of {len(text)} bytes sent, unheard")
        self.seen["unheard" if is_whole else "cut"] += 1
        connection = self.connected()
        connection.send(sent)
        connection.close(with_reset=self.often(0.5))
        return is_whole

    def ask_at_once(self, *requests):
        """The replies to requests that are sent at once, over a connection each."""
        self.leave()
        meeting = threading.Barrier(len(requests))

        def ask(request):
            connection = Connection(self.place)
            meeting.wait(PATIENCE)
            connection.send(request_text(*request[:3], [*request[3], ("Connection", "close")]))
            reply = connection.hear(request[0])
            connection.close()
            return reply

        with concurrent.futures.ThreadPoolExecutor(len(requests)) as pool:
            replies = list(pool.map(ask, requests))
        return [self.heard(*request[:2], reply) for request, reply in zip(requests, replies)]

    # --- uploads ---

    def some_bytes(self):
        size = self.chance.choice(SIZES if self.sent < MOST_BYTES else SIZES[:4])
        return self.chance.randbytes(size)

    def open(self):
        name = self.chance.choice(NAMES)
        reply = self.ask("POST", f"/v2/{name}/blobs/uploads/")
        if reply:
            place = reply.fields["Location"] or ""
            is_right = reply.status == 202 and place.startswith(f"/v2/{name}/blobs/uploads/")
            demand(is_right, "an opening is answered", reply)
            self.uploads.append(Upload(name, place))

    def settle_chunk(self, upload):
        """Sends a chunk again that was perhaps taken, at its place: it is taken now, or was before. So it can't be
        taken later, either."""
        body, before = upload.perhaps, upload.held
        reply = self.ask("PATCH", upload.place, body, placed(upload, body))
        if reply and reply.status == 416:
            told = f"an upload of {len(before)} bytes, and perhaps {len(body)} more, has {reply.held()}"
            demand(reply.held() == len(before + body), told)
            upload.held += body
        elif reply:
            self.took(upload, body, reply)
        if reply:
            upload.perhaps = b""

    def settle_close(self, upload):
        """Asks again for a close that was perhaps done."""
        reply = self.ask("PUT", self.closing(upload, upload.held))
        if reply:
            demand(reply.status in (201, 404), "a close that was perhaps done is answered", reply)
            self.commit(upload)

    def took(self, upload, body, reply):
        """Notes that a chunk was taken, and sees that the reply says so."""
        upload.held += body
        demand(reply.status == 202 and reply.fields["Location"] == upload.place, "a chunk is answered", reply)
        demand(reply.held() == len(upload.held), "an upload of", len(upload.held), "bytes has", reply.held())

    def chunk(self, upload):
        body = self.some_bytes()
        if self.often(0.15):
            body += b"x"
            if self.ask_unheard("PATCH", upload.place, body, placed(upload, body)):
                upload.perhaps = body
            return
        reply = self.ask("PATCH", upload.place, body, placed(upload, body) if body and self.often(0.7) else [])
        if reply:
            self.took(upload, body, reply)

    def misplaced_chunk(self, upload):
        """A chunk that overlaps, leaves a gap, or comes again."""
        held = len(upload.held)
        first = self.chance.choice([place for place in (0, held - 1, held + 1) if place not in (-1, held)])
        body = self.some_bytes() + b"x"
        reply = self.ask("PATCH", upload.place, body, [("Content-Range", f"{first}-{first + len(body) - 1}")])
        if reply:
            demand((reply.status, reply.held()) == (416, held), "a misplaced chunk is answered", reply)

    def status(self, upload):
        reply = self.ask("GET", upload.place)
        if reply:
            is_right = (reply.status, reply.held()) == (204, len(upload.held))
            demand(is_right, "the status of", len(upload.held), "bytes is", reply)

    def closing(self, upload, content):
        return f"{upload.place}?digest={sha256(content)}"

    def close(self, upload):
        body = self.some_bytes() if self.often(0.5) else b""
        if self.often(0.15):
            upload.perhaps_closed = self.ask_unheard("PUT", self.closing(upload, upload.held))
            return
        reply = self.ask("PUT", self.closing(upload, upload.held + body), body)
        if reply:
            demand(reply.status == 201, "a close is answered", reply)
            upload.held += body
            self.commit(upload)

    def wrong_close(self, upload):
        body = self.some_bytes()
        reply = self.ask("PUT", self.closing(upload, upload.held + body + b"x"), body)
        if reply:
            demand(reply.status == 400, "a close with another digest is answered", reply)

    def raced_closes(self, upload):
        close = ("PUT", self.closing(upload, upload.held), b"", [])
        replies = self.ask_at_once(*[close] * self.chance.choice([2, 2, 3]))
        statuses = sorted(reply.status for reply in replies if reply)
        demand(statuses.count(201) <= 1 and set(statuses) <= {201, 404}, "raced closes are answered", statuses)
        if 201 in statuses:
            self.commit(upload)
        else:
            demand(self.is_refused and 404 not in statuses, "raced closes are answered", statuses)

    def raced_chunks(self, upload):
        bodies = [self.some_bytes() + bytes([which]) for which in range(2)]
        replies = self.ask_at_once(*[("PATCH", upload.place, body, placed(upload, body)) for body in bodies])
        taken = [(body, reply) for body, reply in zip(bodies, replies) if reply and reply.status == 202]
        demand(len(taken) <= 1, "two chunks are taken at one place")
        for body, reply in taken:
            self.took(upload, body, reply)
        for reply in replies:
            demand(not reply or reply.status in (202, 416), "raced chunks are answered", reply)
            is_right = not reply or reply.status == 202 or (taken and reply.held() == len(upload.held))
            demand(is_right, "a raced chunk is refused", reply)
        demand(taken or self.is_refused, "no raced chunk is taken")

    def raced_chunk_and_close(self, upload):
        body, before = self.some_bytes() + b"x", upload.held
        close = ("PUT", self.closing(upload, before), b"", [])
        chunked, closed = self.ask_at_once(("PATCH", upload.place, body, []), close)
        if chunked and chunked.status == 202:
            self.took(upload, body, chunked)
        if closed and closed.status == 201:
            demand(upload.held == before, "a chunk is taken, and a close without it")
            demand(not chunked or chunked.status == 404, "a chunk after a close is answered", chunked)
            self.commit(upload)
        elif closed:
            demand(closed.status == 400 and upload.held != before, "a close beside a chunk is answered", closed)
        else:
            demand(upload.held != before or not chunked, "a chunk before a close is answered", chunked)

    def commit(self, upload):
        """Pulls what was committed, and sees that it is what was taken."""
        self.uploads.remove(upload)
        blob = (upload.name, sha256(upload.held), len(upload.held))
        self.committed.append(blob)
        self.seen["committed"] += 1
        reply = self.pull(blob)
        demand(reply.body == upload.held, "a committed blob has other bytes than its chunks")

    def pull(self, blob):
        name, digest, length = blob
        reply = self.ask_until_heard("GET", f"/v2/{name}/blobs/{digest}")
        is_right = reply.status == 200 and sha256(reply.body) == digest and len(reply.body) == length
        demand(is_right, "a pull of", digest, "is answered", reply.status)
        return reply

    def pull_again(self, _):
        if self.committed:
            blob = self.chance.choice(self.committed)
            if self.often(0.2):
                self.ask_unheard("GET", f"/v2/{blob[0]}/blobs/{blob[1]}")
            else:
                self.pull(blob)

    def unknown_upload(self, upload):
        """A request with the number of an upload and another secret."""
        place = upload.place[:-1] + ("0" if upload.place[-1] != "0" else "1")
        reply = self.ask(self.chance.choice(["GET", "PATCH", "PUT"]), place)
        if reply:
            demand(reply.status == 404, "an unknown upload is answered", reply)

    def step(self):
        if not self.uploads or (len(self.uploads) < 4 and self.often(0.1)):
            self.open()
            return
        upload = self.chance.choice(self.uploads)
        if upload.perhaps or upload.perhaps_closed:
            settle = self.settle_chunk if upload.perhaps else self.settle_close
            settle(upload)
            return
        steps = [self.chunk] * 10 + [
            self.misplaced_chunk, self.status, self.close, self.close, self.wrong_close, self.unknown_upload
        ]
        steps += [self.raced_closes, self.raced_chunks, self.raced_chunk_and_close, self.pull_again]
        step = self.chance.choice(steps)
        if step != self.misplaced_chunk or upload.held:
            step(upload)
        if self.often(0.3):
            self.leave()

    def run(self, until, least):
        """What is wrong, or nothing. It goes on until then, and for so many steps at least."""
        try:
            steps = 0
            while steps < least or time.monotonic() < until:
                self.step()
                steps += 1
            for blob in self.committed:
                self.pull(blob)
            self.leave()
        except Complaint as wrong:
            return f"{wrong}; before: " + "; ".join(self.past)
        return None
