"""Streams of requests for one connection, made from a seed.

A maker keeps a model of the service beside what it makes, so that most requests fit: chunks at the right offset,
digests of what is there. Now and then it makes each request that PROTOCOL.md refuses, and writes a request in each way
that is allowed. Then a stream may be cut or changed.
"""
import random

import model

NAMES = ["a", "lib/a", "lib/blobs/uploads", "b-c/d.e__f", "a/blobs/a", "0" * model.MAX_NAME]
ODD_NAMES = [*"A a..b a___b a---b -a a- a//b".split(), "", "a%2Fb", "é", "0" * 256, "a/" * 127 + "b"]
ODD_NAMES += ["blobs", "a/uploads", "blobs/uploads"]
ODD_TARGETS = "/ * /v2 /v2// /v2/?x /v2/a /v3/ //v2/ h:80".split()
ODD_TARGETS += "/v2/a/manifests/latest /v2/a/blobs /v2/a/blobs/ /v2/<a>".split()
ODD_TARGETS += "/v2/é/ /v2/blobs/uploads/ /v2/a/blobs/uploads /v2/%61/blobs/uploads/ http://h http://h?x=/v2/".split()
ODD_TARGETS += 'http://h#/v2/ /v2/# /v2/?a#b /v2/" /v2/?" /v2/?` /v2/` http:/v2/ http:///v2/'.split()
ODD_TARGETS += ['/v2/a/blobs/uploads/?digest="', "/v2/a/blobs/uploads/?mount=a<b"]
HOSTS = "http://h HTTP://h:80 s+3.~-://u:p@h:1 ://h http://[::1]:2 http://[::1".split()
HOSTS += "http://h:1:2 http://@ http://a%41".split()
HOSTS += ["http://%41@h", "x y://h"]
HOSTS += "http://%[::1] http://a:::::::::@h http://h` http://u@ http://[::1]] http://[a][b] http://]h[".split()
HOSTS += "http://[::1]h:1 http://%@h http://a::::::::@h".split()
ODD_RANGES = ["x-1", "1-", "-1", "", "0-1-2", "bytes 0-1/3", "0 - 1", "+0-1", "0x0-1", "0–1"]
METHODS = ["GET", "HEAD", "POST", "PATCH", "PUT", "DELETE", "OPTIONS", "get", "M-SEARCH", "PU"]
SOME_FIELDS = [
    "X:",
    "x: \x80\xff",
    "Accept: */*",
    "Expect: 100-continue",
    "Content-Type: application/octet-stream",
    "Host: other",
    "!#$%&'*+-.^_`|~: \t,",
    "User-Agent:a\tb ",
]
KEEPS = [
    "Connection: keep-alive",
    "Connection:",
    "connection: closed, ,x",
    "Proxy-Connection: close",
    "Connection: \"close\"",
]
CLOSES = ["Connection: close", "CONNECTION:\t Keep-Alive ,\tCLOSE ", "connection: close,", "Connection: ,close"]

BAD_LINES = [
    b"GET /v2/ HTTP/9.9",
    b"GET /v2/ HTTP/1.2",
    b"GET /v2/",
    b"GET  /v2/ HTTP/1.1",
    b"GET /v2/ HTTP/1.1 ",
    b" GET /v2/ HTTP/1.1",
    b"G(T /v2/ HTTP/1.1",
    b"GET /v2/\x7f HTTP/1.1",
]
BAD_LINES += [b"GET /\xff HTTP/1.1", b"GET /v2/ http/1.1", b"\r", b"\x16\x03\x01", b"GET /v2/ HTTP/1.1\r\r"]
BAD_FIELDS = [b"Host : h", b" folded", b": x", b"X", b"X: a\x00b", b"X: a\rb", b"X\xff: a", b"X: \x7f", b"X: a\r\r"]
BAD_LENGTHS = [
    b"Content-Length:",
    b"Content-Length: -1",
    b"Content-Length: +1",
    b"Content-Length: 1 1",
    b"Content-Length: 0x1",
    b"Content-Length: 1,1",
]
BAD_LENGTHS += [
    b"Content-Length: 1\r\ncontent-length: 1",
    b"Content-Length: 0\r\nTransfer-Encoding: chunked",
    b"Transfer-Encoding: gzip\r\nContent-Length: 3",
    b"Content-Length: x\r\nContent-Length: 1",
]
# the first of each is just within the limit, so that its body is waited for
LARGE_LENGTHS = [
    b"2147483648", b"2147483649", b"00002147483649", b"9" * 19, b"9" * 30, b"18446744073709551617", b"9" * 5000
]
BAD_CODINGS = [
    b"chunked\r\ntransfer-encoding: chunked",
    b"gzip",
    b"",
    b"chunked, chunked",
    b"gzip, chunked",
    b"\"chunked\"",
    b"chunked;q=1",
    b"chunked\r\nTransfer-Encoding: chunked",
    b"identity",
]
BAD_CHUNKS = [
    b"000000003\r\nabc\r\n0\r\n\r\n",
    b"3;x=1\r\nabc\r\n0\r\n\r\n",
    b"3\r\nabc\r\n0\r\nX: y\r\n\r\n",
    b"3\nabc\n0\n\n",
    b"\r\n",
    b"3 \r\nabc",
    b"3\r\nabcd",
    b"g",
    b"0x3\r\nabc",
]
BAD_CHUNKS += [
    b"3\r\nabc0\r\n\r\n", b"3\r\nabc\r0", b"0\r\n\n", b"000000000\r\n\r\n", b"-1\r\n", b"1\r\na\r\n\r\n", b"1\rx"
]
LARGE_CHUNKS = [
    b"80000000\r\n", b"80000001\r\n", b"FFFFFFFF\r\n", b"1\r\na\r\n80000000\r\n", b"3\r\nabc\r\n7ffffffe\r\n"
]


class Maker:
    """Makes requests, and knows what they lead to."""

    def __init__(self, seed):
        self.chance = random.Random(seed)
        self.service = model.Service()
        self.is_over = False
        self.kinds = [self.opening] * 4 + [self.chunk] * 9 + [self.close] * 4 + [self.status] * 2 + [self.single] * 2
        self.kinds += [self.look] * 3 + [self.mount] * 2 + [self.odd_target, self.odd_method, self.base]

    def often(self, part):
        return self.chance.random() < part

    def pick(self, choices):
        return self.chance.choice(choices)

    def requests(self):
        """The texts of some requests, none behind one that ends the connection."""
        texts = []
        for place in range(self.chance.randint(1, 24)):
            kind = self.opening if place == 0 and self.often(0.9) else self.pick(self.kinds)
            texts.append(self.unreadable() if self.often(0.02) else kind())
            self.follow(texts[-1])
            if self.is_over:
                # what stands behind it is never answered
                if self.often(0.5):
                    texts.append(self.base())
                break
        return texts

    def follow(self, text):
        """Lets the model take a request."""
        try:
            head, at = model.read_head(text, 0)
            body, at = model.read_body(head, text, at)
            self.service.answer(head, body)
            self.is_over = not head.keeps_the_connection()
        except (model.Bad, model.Truncated):
            self.is_over = True

    # --- what is asked ---

    def some_bytes(self):
        if self.often(0.01):
            return bytes([self.chance.randrange(256)]) * self.pick([65_535, 65_536, 65_537, 70_000, 200_000])
        return self.chance.randbytes(self.pick([0, 1, 1, 2, 3, 3, 10, 200]))

    def name(self):
        return self.pick(NAMES[:4]) if self.often(0.93) else self.pick(NAMES + ODD_NAMES)

    def session(self):
        """The name and the reference of a session, most often of one that is open, and the bytes that it has."""
        if self.service.open and self.often(0.9):
            reference = self.pick(list(self.service.open))
            name, held = self.service.open[reference]
        else:
            reference, name, held = model.reference_of(self.chance.randint(0, 9)), self.name(), b""
        return name if self.often(0.97) else self.name(), self.written_reference(reference), held

    def written_reference(self, reference):
        """A reference in one of its forms, or in none."""
        if self.often(0.8):
            return reference
        if self.often(0.3):
            wrong = [
                reference[:-1],
                reference + "0",
                reference.replace("-", "", 1),
                "x" + reference[1:],
                f"{{{reference}",
                f"urn:uuid:{{{reference}}}",
                "urn:uuid:",
                "1",
            ]
            return self.pick(
                [
                    *wrong,
                    reference[:-1] + "1",
                    f"{{{reference.replace('-', '')}}}",
                    reference.replace("8", "9", 1),
                    reference.replace("-", "%2D"),
                ]
            )
        form = self.pick([reference, reference.replace("-", ""), f"urn:uuid:{reference}", f"{{{reference}}}"])
        return form if self.often(0.5) else form.upper()

    def digest(self, content):
        """The query's digest of a content, or another."""
        right = model.digest_of(content, self.pick(["sha256", "sha256", "sha512"]))
        if self.often(0.75):
            return right
        other = model.digest_of(content + b"x", "sha256")
        wrong = [
            "",
            "sha256:ab",
            "md5:" + "0" * 32,
            "sha256:" + right[7:].upper(),
            right + "0",
            "sha512:" + other[7:],
            right.replace(":", "-"),
            right.replace("a", "A"),
            right[1:],
        ]
        return self.pick([other, *wrong])

    def query(self, **parameters):
        """The parameters as a form, in some of the ways in which one is written."""
        pairs = [
            (name, value.replace(":", "%3A") if self.often(0.1) else value)
            for name, value in parameters.items()
            if value is not None
        ]
        if self.often(0.05):
            self.chance.shuffle(pairs)
        if pairs and self.often(0.03):
            pairs.insert(self.chance.randint(0, 1), (pairs[0][0], self.pick(["", "x", model.digest_of(b"", "sha256")])))
        if self.often(0.05):
            pairs.insert(
                self.chance.randint(0, len(pairs)),
                self.pick(
                    [
                        ("", ""),
                        ("x", "1"),
                        ("Digest", "x"),
                        ("", "=&&"),
                        ("%64igest", "x+y"),
                        ("%zz", "%"),
                        ("\u00e9", "%ff"),
                    ]
                ),
            )
        text = "&".join(f"{name}={value}" for name, value in pairs)
        return f"?{text}" if text or self.often(0.02) else ""

    def ranges(self, held, body):
        """The fields of a Content-Range: none, the right one, or a wrong one."""
        first, last, choice = len(held), len(held) + len(body) - 1, self.chance.random()
        if choice < 0.3:
            return []
        if choice < 0.7 and body:
            pad = "0" * self.pick([0, 0, 0, 2, 30])
            return [f"Content-Range: {pad}{first}-{pad}{last}"]
        if choice < 0.8:
            return [f"Content-Range: {self.pick(ODD_RANGES)}"]
        if choice < 0.83:
            return [f"Content-Range: {first}-{last}"] * 2
        low = max(0, first + self.chance.randint(-2, 2))
        high = self.pick(
            [low + len(body) - 1, low + self.chance.randint(0, 9), max(0, first - 1), 10**18, 10**19, 10**30]
        )
        return [f"Content-Range: {self.pick([low, low, low, first, 10**18, 10**40])}-{max(0, high)}"]

    def opening(self):
        return self.request(
            "POST", f"/v2/{self.name()}/blobs/uploads/{self.query()}", body=b"x" if self.often(0.03) else b""
        )

    def chunk(self):
        name, at, held = self.session()
        body = self.some_bytes()
        return self.request("PATCH", f"/v2/{name}/blobs/uploads/{at}", self.ranges(held, body), body)

    def close(self):
        name, at, held = self.session()
        body = self.some_bytes() if self.often(0.5) else b""
        query = self.query(digest=self.digest(held + body) if self.often(0.95) else None)
        return self.request("PUT", f"/v2/{name}/blobs/uploads/{at}{query}", self.ranges(held, body), body)

    def status(self):
        name, at, _ = self.session()
        return self.request(
            self.pick(["GET", "HEAD"]), f"/v2/{name}/blobs/uploads/{at}", body=b"xy" if self.often(0.05) else b""
        )

    def single(self):
        body = self.some_bytes()
        return self.request(
            "POST", f"/v2/{self.name()}/blobs/uploads/{self.query(digest=self.digest(body))}", body=body
        )

    def some_blob(self):
        """A name and a digest that it most often has."""
        if self.service.holds and self.often(0.9):
            # a set's order isn't the same in each run
            name, digest = self.pick(sorted(self.service.holds))
            return name if self.often(0.9) else self.name(), digest
        return self.name(), self.digest(b"abc")

    def look(self):
        name, digest = self.some_blob()
        return self.request(
            self.pick(["GET", "GET", "HEAD"]), f"/v2/{name}/blobs/{digest}", body=b"xy" if self.often(0.05) else b""
        )

    def mount(self):
        source, digest = self.some_blob()
        other = self.digest(b"") if self.often(0.1) else None
        query = self.query(
            **{"mount": digest, "from": source if self.often(0.9) else self.pick([None, "", "A"]), "digest": other}
        )
        return self.request("POST", f"/v2/{self.name()}/blobs/uploads/{query}", body=b"x" if self.often(0.05) else b"")

    def base(self):
        return self.request(self.pick(["GET", "HEAD"]), "/v2/", body=b"xy" if self.often(0.05) else b"")

    def odd_target(self):
        return self.request(self.pick(METHODS), self.pick(ODD_TARGETS), body=self.some_bytes())

    def odd_method(self):
        name, at, _ = self.session()
        target = self.pick(
            [
                "/v2/",
                f"/v2/{name}/blobs/uploads/",
                f"/v2/{name}/blobs/uploads/{at}",
                f"/v2/{name}/blobs/{model.digest_of(b'', 'sha256')}",
            ]
        )
        return self.request(self.pick(METHODS), target, body=self.some_bytes())

    # --- how it is written ---

    def request(self, method, target, fields=(), body=b""):
        """The text of a request, in one of the ways in which it can be written."""
        if self.often(0.03):
            target = self.pick(HOSTS) + target
        if self.often(0.02):
            target += "#" + self.pick(["", "fragment", "<>?"])
        version = "HTTP/1.0" if self.often(0.01) else "HTTP/1.1"
        lines = ["Host: h"] * (not self.often(0.1)) + list(fields) + self.chance.choices(
            SOME_FIELDS, k=self.pick([0, 0, 0, 1, 3])
        )
        lines += [self.pick(KEEPS)] * self.often(0.05) + [self.pick(CLOSES)] * self.often(0.01)
        if version == "HTTP/1.1" and self.often(0.25):
            lines.append(
                self.pick(["Transfer-Encoding: chunked", "transfer-encoding:CHUNKED", "Transfer-Encoding: \tChunked\t"])
            )
            body = self.chunked(body)
        elif body or self.often(0.7):
            name, space = self.pick(["Content-Length", "content-length"]), self.pick([" ", "", "  "])
            lines.append(f"{name}:{space}{self.pick(['', '', '', '000'])}{len(body)}")
        if self.often(0.1):
            self.chance.shuffle(lines)
        blank = self.pick([[""], ["", ""]]) if self.often(0.03) else []
        line_end = "\n" if self.often(0.03) else "\r\n"
        return line_end.join(
            [*blank, f"{method} {target} {version}", *(line.strip("\r\n") for line in lines), "", ""]
        ).encode("utf-8") + body

    def chunked(self, body):
        text, at = b"", 0
        while at < len(body):
            size = self.chance.randint(1, len(body) - at)
            text += self.pick([b"%x", b"%X", b"%05x", b"%08X"]) % size + b"\r\n" + body[at : at + size] + b"\r\n"
            at += size
        return text + b"0" * self.pick([1, 1, 1, 5, 8]) + b"\r\n\r\n"

    def unreadable(self):
        """A request that can't be read, or one that is just within a limit."""
        line = b"POST /v2/a/blobs/uploads/ HTTP/1.1\r\n"
        field = self.pick(BAD_FIELDS)
        texts = [
            self.pick(BAD_LINES) + b"\r\n\r\n",
            line + b"Host: h\r\n" + field + b"\r\n\r\n",
            line + self.pick(BAD_LENGTHS) + b"\r\n\r\nabc",
            line + b"Content-Length: " + self.pick(LARGE_LENGTHS) + b"\r\n\r\n",
            line + b"Transfer-Encoding: " + self.pick(BAD_CODINGS) + b"\r\n\r\n3\r\nabc\r\n0\r\n\r\n",
            line.replace(b"1.1", b"1.0") + b"Transfer-Encoding: chunked\r\n\r\n0\r\n\r\n",
            line + b"Transfer-Encoding: chunked\r\n\r\n" + self.pick(BAD_CHUNKS),
            line + b"Transfer-Encoding: chunked\r\n\r\n" + self.pick(LARGE_CHUNKS),
            self.at_the_most_bytes(line),
            line + b"X: " + b"a" * (model.MAX_HEAD - len(line) - 3 + self.pick([-1, 0, 0, 1])),
            self.at_the_most_fields(line),
        ]
        return self.pick(texts)

    def at_the_most_bytes(self, line):
        """A head of about as many bytes as one may have."""
        room = model.MAX_HEAD - len(line) - len(b"X: \r\n\r\n")
        return line + b"X: " + b"a" * (room + self.pick([0, 0, 1, 2, 100])) + b"\r\n\r\n"

    def at_the_most_fields(self, line):
        """A head of about as many fields as one may have, each empty line before it counted as one."""
        blank = self.pick([0, 0, 1, 5, 64, 66])
        return b"\r\n" * blank + line + b"A: b\r\n" * max(0, model.MAX_FIELDS - blank + self.pick([0, 0, 1])) + b"\r\n"

    # --- what becomes of it ---

    def cut(self, sent):
        return sent[: self.chance.randrange(len(sent) + 1)]

    def changed(self, sent):
        """A few bytes changed, taken away, put in, or said again."""
        text = bytearray(sent)
        for _ in range(self.chance.randint(1, 4)):
            at, end = self.chance.randrange(len(text) + 1), self.chance.randint(1, 20)
            text[at : at + self.pick([0, 0, 1, 1, end])] = self.pick(
                [
                    b"",
                    bytes(
                        [
                            self.pick(
                                [0, 9, 10, 13, 32, 34, 35, 44, 45, 47, 58, 63, 0x7F, 0xFF, self.chance.randrange(256)]
                            )
                        ]
                    ),
                    self.chance.randbytes(self.chance.randint(1, 5)),
                    bytes(text[at : at + end]) * 2,
                    self.pick([b"\r\n", b"\r\n\r\n", b"0", b"close", b"HTTP/1.0", b"HEAD"]),
                ]
            )
        return bytes(text)


def stream(seed):
    """What a client sends over one connection."""
    maker = Maker(seed)
    sent = b"".join(maker.requests())
    how = maker.chance.random()
    if how < 0.5:
        return sent
    return maker.cut(sent) if how < 0.65 else maker.changed(sent)
