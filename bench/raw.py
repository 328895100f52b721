"""The client of the measurements: it writes whole requests from memory to a raw socket. It reads replies itself, since
the tests' client takes much longer for one, and would be what is measured."""
import collections
import os
import socket
import sys

sys.path.insert(0, os.path.join(os.path.dirname(os.path.dirname(os.path.abspath(__file__))), "tests"))
from harness.wire import connected, head_text, named  # noqa: E402

Reply = collections.namedtuple("Reply", "status fields body")


class Connection:
    """A kept connection: one request, one reply. The fields of a reply are named in lower case. Where it ends too
    early, ConnectionError is raised."""

    def __init__(self, place, **always):
        self.always = {"Host": f"{place[0]}:{place[1]}", **always}
        self.socket = connected(place)
        # A timeout would make each call of the socket two.
        self.socket.setblocking(True)
        self.socket.setsockopt(socket.IPPROTO_TCP, socket.TCP_NODELAY, 1)
        self.unread = b""

    def __enter__(self):
        return self

    def __exit__(self, *_):
        self.close()

    def close(self):
        self.socket.close()

    def head(self, method, target, **fields):
        """A request's head, with the fields of all requests and its own; of their names, each `_` stands for a `-`."""
        return head_text(method, target, named(self.always | fields))

    def ask(self, method, target, **fields):
        self.socket.sendall(self.head(method, target, **fields))
        return self.reply()

    def send_part(self, head, file, first, length):
        """A head, and a part of a file that goes out as it lies in memory."""
        self.socket.sendall(head, socket.MSG_MORE)
        sent = 0
        while sent < length:
            sent += os.sendfile(self.socket.fileno(), file.fileno(), first + sent, length - sent)

    def read_more(self):
        part = self.socket.recv(65536)
        if not part:
            raise ConnectionError(f"the server closed behind {self.unread!r}")
        self.unread += part

    def reply_head(self):
        while b"\r\n\r\n" not in self.unread:
            self.read_more()
        head, self.unread = self.unread.split(b"\r\n\r\n", 1)
        lines = head.decode().split("\r\n")
        pairs = (line.split(":", 1) for line in lines[1:])
        return int(lines[0].split()[1]), {name.lower(): value.strip() for name, value in pairs}

    def reply(self):
        """A reply that isn't one to a HEAD, with its body."""
        status, fields = self.reply_head()
        length = int(fields.get("content-length", 0))
        while len(self.unread) < length:
            self.read_more()
        body, self.unread = self.unread[:length], self.unread[length:]
        return Reply(status, fields, body)

    def body_into(self, room, length):
        """Reads a body of so many bytes into the start of a buffer."""
        begun, self.unread = self.unread[:length], self.unread[length:]
        room[: len(begun)] = begun
        at = len(begun)
        with memoryview(room) as left:
            while at < length:
                at += received(self.socket, left[at:length])

    def body_over(self, room, length, take=None):
        """Reads a body of so many bytes into the same buffer again and again, and hands each part on if that is asked
        for."""
        begun, self.unread = self.unread[:length], self.unread[length:]
        if take:
            take(begun)
        receive(self.socket, length - len(begun), room, take)


def received(connection, room):
    """How many bytes came into the room."""
    count = connection.recv_into(room)
    if not count:
        raise ConnectionError("the server closed inside a body")
    return count


def receive(connection, length, room, take=None):
    """Takes so many bytes of a socket into the same buffer again and again, and hands each part on if that is asked
    for."""
    while length:
        count = received(connection, room)
        if take:
            take(memoryview(room)[:count])
        length -= count


def target_of(fields):
    """The path and query of a reply's Location, which may name the server too."""
    location = fields["location"]
    return "/" + location.split("://", 1)[1].split("/", 1)[1] if "://" in location else location


def closing_target(place, digest):
    """Where an upload is closed with this digest."""
    return f"{place}{'&' if '?' in place else '?'}digest={digest}"


def print_table(heads, lines):
    """A table in Markdown, whose first two columns are words."""
    widths = [max(map(len, cells)) for cells in zip(heads, *lines)]
    rules = ["-" * width if place < 2 else "-" * (width - 1) + ":" for place, width in enumerate(widths)]
    for line in (heads, rules, *lines):
        texts = (
            text.ljust(width) if place < 2 else text.rjust(width)
            for place, (text, width) in enumerate(zip(line, widths))
        )
        print(f"| {' | '.join(texts)} |")
