"""What the tests let others connect to: servers that reply by a script, and a proxy that cuts connections."""
import contextlib
import socket
import threading
import time

import servers

from .wire import PATIENCE, address_of


class Listener:
    """Listens on a free port, and hands each connection to `take`, one after another."""

    def __init__(self, take):
        self.listener = socket.create_server(("127.0.0.1", 0))
        self.addr, self.take = address_of(self.listener), take
        self.thread = threading.Thread(target=self.serve, daemon=True)
        self.thread.start()

    def __enter__(self):
        return self

    def __exit__(self, *_):
        self.close()

    def serve(self):
        while True:
            try:
                connection, _ = self.listener.accept()
            except OSError:
                return
            with contextlib.suppress(OSError):
                self.take(connection)

    def close(self):
        with contextlib.suppress(OSError):
            # who waits for a connection hears of it
            self.listener.shutdown(socket.SHUT_RDWR)
        self.listener.close()


def reply_of(status, body=b"", fields=b""):
    """A whole reply, after which its server closes."""
    head = b"HTTP/1.1 %b\r\n%bContent-Length: %d\r\nConnection: close\r\n\r\n"
    return head % (status.encode(), fields, len(body)) + body


def head_of(length, fields=b""):
    """A reply to a HEAD that tells this length, after which its server closes."""
    return b"HTTP/1.1 200 OK\r\n%bContent-Length: %d\r\nConnection: close\r\n\r\n" % (fields, length)


class Early(bytes):
    """A reply that is sent behind the head of its request, and then the connection is closed as it is."""


class Deaf(Early):
    """A reply that is sent behind the head of its request. Then the connection stays, and no more of it is read."""


def method_of(line):
    """The method of a request, by its first line."""
    return line.partition(" ")[0]


class Scripted(Listener):
    """Serves each connection by a list of replies, and all behind the last list by that. A reply is sent once its
    request is there whole, after some seconds; one that is a table is that of the request's method. Behind the last
    reply of a list the client's close is awaited. `asked` has the first lines of each connection's requests, and
    `heard` is when the last head had come."""

    def __init__(self, *scripts, delay=0):
        self.scripts, self.delay, self.asked, self.kept = scripts, delay, [], contextlib.ExitStack()
        self.heard = None
        super().__init__(self.converse)

    def close(self):
        super().close()
        self.kept.close()

    def converse(self, connection):
        connection.settimeout(PATIENCE)
        script = self.scripts[min(len(self.asked), len(self.scripts) - 1)]
        self.asked.append([])
        with connection, connection.makefile("rb", buffering=0) as source:
            for reply in script:
                length = self.read_head(source)
                if length is None:
                    return
                while not isinstance(reply, Early) and length > 0 and (piece := source.read(min(length, 65536))):
                    length -= len(piece)
                time.sleep(self.delay)
                connection.sendall(reply[method_of(self.asked[-1][-1])] if isinstance(reply, dict) else reply)
                if isinstance(reply, Deaf):
                    self.kept.enter_context(connection.dup())
                if isinstance(reply, Early):
                    return
            connection.shutdown(socket.SHUT_WR)
            self.read_head(source)

    def read_head(self, source):
        """Notes a request's first line, and says how long its body is; nothing at the end."""
        head = b""
        while not head.endswith(b"\r\n\r\n"):
            byte = source.read(1)
            if not byte:
                return None
            head += byte
        first, *fields = head.decode("latin-1").split("\r\n")
        self.asked[-1].append(first)
        self.heard = time.monotonic()
        lengths = [line.partition(":")[2] for line in fields if line.lower().startswith("content-length:")]
        return int(lengths[0]) if lengths else 0

    def methods(self):
        """Those of each connection's requests."""
        return [list(map(method_of, lines)) for lines in self.asked]


class Proxy(Listener):
    """Forwards connections to a server and cuts each where `judge`, of its number, says: after so many bytes from the
    client, or from the server, or before the first reply that has a text."""

    def __init__(self, addr, judge):
        self.place, self.judge, self.number = servers.place(addr), judge, 0
        super().__init__(self.connect)

    def connect(self, client):
        server = socket.create_connection(self.place)
        upward, downward, text = self.judge(self.number)
        self.number += 1
        for words in ((client, server, upward, b""), (server, client, downward, text)):
            threading.Thread(target=self.forward, args=words, daemon=True).start()

    @staticmethod
    def forward(source, sink, left, text):
        with contextlib.suppress(OSError):
            while left > 0 and (data := source.recv(min(65536, left))) and not (text and text in data):
                sink.sendall(data)
                left -= len(data)
        for end in (source, sink):
            with contextlib.suppress(OSError):
                end.shutdown(socket.SHUT_RDWR)
