"""The client of the tests: connections over sockets, requests as they are written, and replies as they are read."""
import contextlib
import hashlib
import http.client
import select
import socket
import ssl
import struct
import typing

from .suite import check

# Seconds after which what is waited for is taken to hang. No test tells speed by it: a machine that is slow for a while
# passes.
PATIENCE = 300


def sha256(content):
    return "sha256:" + hashlib.sha256(content).hexdigest()


def sha512(content):
    return "sha512:" + hashlib.sha512(content).hexdigest()


class Complaint(Exception):
    """What a client was told that can't be."""


def demand(holds, *told):
    if not holds:
        raise Complaint(" ".join(map(str, told)))


class Reply(typing.NamedTuple):
    status: int
    fields: http.client.HTTPMessage
    body: bytes

    def __str__(self):
        return f"{self.status} {dict(self.fields)} {self.body[:100]!r}"

    def held(self):
        """How many bytes the session has, by the Range."""
        text = self.fields["Range"]
        demand(text is None or text.startswith("0-"), "a Range", text)
        return int(text[2:]) + 1 if text else 0


def named(fields):
    """Fields whose names are words of Python: each `_` of them stands for a `-`."""
    return [(name.replace("_", "-"), value) for name, value in fields.items()]


def head_text(method, target, fields):
    """The head of a request with these fields and no others."""
    lines = [f"{method} {target} HTTP/1.1", *(f"{name}: {value}" for name, value in fields)]
    return "\r\n".join([*lines, "", ""]).encode()


def chunk_text(part):
    """A part of a chunked body. The empty one is its end."""
    return b"%x\r\n%s\r\n" % (len(part), part)


def request_text(method, target, body=b"", fields=(), is_chunked=False):
    fields = [("Host", "h"), *fields]
    if is_chunked:
        body = b"".join(map(chunk_text, [body, b""] if body else [b""]))
        fields.append(("Transfer-Encoding", "chunked"))
    elif body or method != "GET":
        fields.append(("Content-Length", len(body)))
    return head_text(method, target, fields) + body


def connected(place):
    return socket.create_connection(place, timeout=PATIENCE)


def address_of(listener):
    return "%s:%d" % listener.getsockname()[:2]


def is_silent(connection, seconds):
    """Whether nothing comes within this time, nor an end."""
    return not select.select([connection], [], [], seconds)[0]


def begun_reply(connection, method):
    """The next reply over a socket, its body not yet read."""
    response = http.client.HTTPResponse(connection, method=method)
    response.begin()
    return response


def rest_of(connection):
    """All that comes until the other side closes; a reset raises."""
    parts = []
    while part := connection.recv(65536):
        parts.append(part)
    return b"".join(parts)


def vanish(connection):
    """Closes so that the other side is reset."""
    connection.setsockopt(socket.SOL_SOCKET, socket.SO_LINGER, struct.pack("ii", 1, 0))
    connection.close()


class Client:
    """A client that keeps its connection for as long as the other side does, and makes a new one for the request behind
    that. Where a connection ends without a reply, an error is raised."""

    # what each request has beside its own fields
    fields = ()
    # whether each request has a connection of its own
    is_fresh = False

    def __init__(self, place):
        self.place, self.socket = place, None

    def __enter__(self):
        return self

    def __exit__(self, *_):
        self.close()

    @property
    def is_open(self):
        return self.socket is not None

    def connect(self):
        self.socket = connected(self.place)
        self.socket.setsockopt(socket.IPPROTO_TCP, socket.TCP_NODELAY, 1)

    def send(self, text):
        if not self.is_open:
            self.connect()
        self.socket.sendall(text)

    def send_head(self, method, target, **fields):
        self.send(head_text(method, target, [("Host", "h"), *self.fields, *named(fields)]))

    def reply(self, method):
        """The next reply."""
        try:
            response = begun_reply(self.socket, method)
            reply = Reply(response.status, response.headers, response.read())
        except (OSError, http.client.HTTPException):
            self.close()
            raise
        if response.will_close or self.is_fresh:
            self.close()
        return reply

    def ask(self, method, target, body=b"", **fields):
        """The reply to a request. One that is refused inside its body has its reply too."""
        # one that can't be made is an error
        if not self.is_open:
            self.connect()
        with contextlib.suppress(BrokenPipeError, ConnectionResetError, ssl.SSLEOFError):
            self.send(request_text(method, target, body, [*self.fields, *named(fields)]))
        return self.reply(method)

    def opened(self, name):
        """Where the upload is that an opening in a repository begins."""
        reply = self.ask("POST", f"/v2/{name}/blobs/uploads/")
        check(f"an opening of {name}", reply.status == 202, reply)
        return reply.fields["Location"]

    def send_chunks(self, place, content, size=None):
        """Sends a content in chunks of this size, or in one. Gives the statuses, up to the first that isn't right."""
        statuses, size = [], size or len(content)
        for first in range(0, len(content), size):
            chunk = content[first : first + size]
            last = first + len(chunk) - 1
            reply = self.ask("PATCH", place, chunk, Content_Range=f"{first}-{last}")
            statuses.append(reply.status)
            if reply.status != 202 or reply.fields["Range"] != f"0-{last}":
                break
        return statuses

    def push(self, name, content, size=None):
        """Pushes a blob in chunks of this size, or in one. Gives the statuses, up to the first that doesn't go well."""
        opening = self.ask("POST", f"/v2/{name}/blobs/uploads/")
        if opening.status != 202:
            return [opening.status]
        place = opening.fields["Location"]
        statuses = [202, *self.send_chunks(place, content, size)]
        if statuses[-1] == 202:
            statuses.append(self.ask("PUT", f"{place}?digest={sha256(content)}").status)
        return statuses

    def close(self, with_reset=False):
        if self.is_open and with_reset:
            vanish(self.socket)
        elif self.is_open:
            self.socket.close()
        self.socket = None


class Connection(Client):
    """One connection of a client that takes it as it is if the connection ends at any time."""

    def __init__(self, place):
        super().__init__(place)
        self.connect()

    def send(self, text):
        if not self.is_open:
            return
        try:
            super().send(text)
        except TimeoutError:
            raise Complaint(f"a request isn't read for {PATIENCE} seconds") from None
        except OSError:
            self.close()

    def hear(self, method):
        """The reply, or nothing if the connection ended first."""
        if not self.is_open:
            return None
        try:
            return self.reply(method)
        except TimeoutError:
            raise Complaint(f"no reply for {PATIENCE} seconds") from None
        except (OSError, http.client.HTTPException):
            return None
