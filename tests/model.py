"""A plain model of `blobd once`: what comes back over one connection, byte for byte, and how the connection ends.

It is written from docs/PROTOCOL.md, and shares no code with the program: `conversation` gives each request's reply, and
where each request ends in what was sent, which is what the tests of whole connections compare with. The service is in
its first state, the secret is zero, and no time passes.
"""
import dataclasses
import enum
import hashlib
import re
import urllib.parse

MAX_HEAD = 16_384
MAX_FIELDS = 64
MAX_BODY = 1 << 31
MAX_BLOB = 1 << 34
MAX_NAME = 255
MAX_OPEN = 1_024
MAX_REQUESTS = 10_000
# Numbers of a Content-Range are read no higher, and no Content-Length above this matters.
HIGHEST = 10**18

REASONS = {
    200: "OK",
    201: "Created",
    202: "Accepted",
    204: "No Content",
    400: "Bad Request",
    404: "Not Found",
    405: "Method Not Allowed",
    411: "Length Required",
    413: "Content Too Large",
    416: "Range Not Satisfiable",
    429: "Too Many Requests",
    431: "Request Header Fields Too Large",
}
MESSAGES = {
    "BLOB_UNKNOWN": "blob unknown to registry",
    "BLOB_UPLOAD_INVALID": "blob upload invalid",
    "BLOB_UPLOAD_UNKNOWN": "blob upload unknown to registry",
    "DIGEST_INVALID": "provided digest did not match uploaded content",
    "NAME_INVALID": "invalid repository name",
    "SIZE_INVALID": "provided length did not match content length",
    "UNSUPPORTED": "the operation is unsupported",
    "TOOMANYREQUESTS": "too many requests",
}


class End(enum.Enum):
    """How a connection ends, with the program's exit status."""

    CLEAN = ("the client ended it", 0)
    AFTER_CLOSE = ("the client asked for the end", 0)
    AFTER_BAD = ("a request couldn't be read", 1)
    TOO_MANY = ("the service answered as many requests as it does", 1)
    TRUNCATED = ("the input ended inside a request", 3)

    @property
    def status(self):
        return self.value[1]


class Truncated(Exception):
    """The input ends inside a request."""


class Bad(Exception):
    """A request that can't be read: its status, and where the byte ends at which that is known."""

    def __init__(self, status, at):
        super().__init__(status, at)
        self.status, self.at = status, at


# --- Heads (RFC 9112, sections 2 to 5) ---

TOKEN = rb"[!#$%&'*+\-.^_`|~0-9A-Za-z]+"
REQUEST_LINE = re.compile(rb"(" + TOKEN + rb") ([^\x00-\x20\x7f]+) HTTP/1\.([01])")
FIELD_LINE = re.compile(rb"(" + TOKEN + rb"):([\t\x20-\x7e\x80-\xff]*)")


@dataclasses.dataclass
class Head:
    method: bytes
    target: str
    minor: int
    fields: list

    def values(self, name):
        return [value for field, value in self.fields if field == name]

    def keeps_the_connection(self):
        elements = [
            element.strip(b" \t").lower() for value in self.values(b"connection") for element in value.split(b",")
        ]
        return self.minor == 1 and b"close" not in elements


def request_line(line, end):
    found = REQUEST_LINE.fullmatch(line)
    try:
        return Head(found[1], found[2].decode(), int(found[3]), [])
    except (TypeError, UnicodeDecodeError):
        raise Bad(400, end) from None


def field_line(line, end):
    found = FIELD_LINE.fullmatch(line)
    if not found:
        raise Bad(400, end)
    return found[1].lower(), found[2].strip(b" \t")


def read_head(text, begin):
    """The head that begins there, and where it ends. It is judged at the end of each line."""
    head, at = None, begin
    for _ in range(MAX_FIELDS + 2):
        end = text.find(b"\n", at, begin + MAX_HEAD) + 1
        if not end:
            break
        line, at = text[at : end - 1].removesuffix(b"\r"), end
        if head and not line:
            return head, end
        if head:
            head.fields.append(field_line(line, end))
        elif line:
            head = request_line(line, end)
    else:
        raise Bad(400, at)
    if len(text) - begin < MAX_HEAD:
        raise Truncated
    raise Bad(431, begin + MAX_HEAD)


# --- Bodies ---


def number(digits):
    """The number that digits write, or HIGHEST where it is above that."""
    digits = digits.lstrip(b"0") or b"0"
    return min(int(digits), HIGHEST) if len(digits) <= 19 else HIGHEST


def expect(text, at, wanted):
    """Where the wanted bytes end. The first other byte is judged at once."""
    for byte in wanted:
        if at == len(text):
            raise Truncated
        at += 1
        if text[at - 1] != byte:
            raise Bad(400, at)
    return at


def read_size(text, at):
    """The size that stands on a line, and where the line ends."""
    begin = at
    while text[at : at + 1] and text[at] in b"0123456789abcdefABCDEF":
        at += 1
        if at - begin > 8:
            raise Bad(400, at)
    if at == begin and at < len(text):
        raise Bad(400, at + 1)
    size = int(text[begin:at] or b"0", 16)
    return size, expect(text, at, b"\r\n")


def read_chunks(text, at):
    """A chunked body, and where it ends."""
    body = b""
    while True:
        size, at = read_size(text, at)
        if size == 0:
            return body, expect(text, at, b"\r\n")
        if len(body) + size > MAX_BODY:
            raise Bad(413, at)
        if at + size > len(text):
            raise Truncated
        body += text[at : at + size]
        at = expect(text, at + size, b"\r\n")


def read_body(head, text, at):
    """The body behind a head, and where it ends."""
    lengths, codings = head.values(b"content-length"), head.values(b"transfer-encoding")
    if lengths and (codings or len(lengths) > 1 or not lengths[0].isdigit()):
        raise Bad(400, at)
    if codings:
        if len(codings) > 1 or codings[0].lower() != b"chunked" or head.minor == 0:
            raise Bad(411, at)
        return read_chunks(text, at)
    length = number(lengths[0]) if lengths else 0
    if length > MAX_BODY:
        raise Bad(413, at)
    if at + length > len(text):
        raise Truncated
    return text[at : at + length], at + length


# --- Targets ---

NAME = re.compile(r"[a-z0-9]+((\.|_|__|-+)[a-z0-9]+)*(\/[a-z0-9]+((\.|_|__|-+)[a-z0-9]+)*)*")
DIGEST = re.compile(r"(sha256):[0-9a-f]{64}|(sha512):[0-9a-f]{128}")
RANGE = re.compile(rb"([0-9]+)-([0-9]+)")
# As `uuid` reads them: 32 digits, or with hyphens, and then also in braces or behind `urn:uuid:` in any case.
HYPHENATED = r"[0-9A-Fa-f]{8}-[0-9A-Fa-f]{4}-[0-9A-Fa-f]{4}-[0-9A-Fa-f]{4}-[0-9A-Fa-f]{12}"
REFERENCE = re.compile(rf"[0-9A-Fa-f]{{32}}|{HYPHENATED}|\{{{HYPHENATED}\}}|(?i:urn:uuid:){HYPHENATED}")
# As `http_uri` reads them, which is wider than RFC 3986. A fragment may hold anything, and counts for nothing.
ABSOLUTE = re.compile(r"[A-Za-z0-9+.~-]{0,64}://([^/?#]+)(.*)", re.DOTALL)
PATH_AND_QUERY = re.compile(r"(/[^\x00-\x20#<>?`\x7f]*)(?:\?([^\x00-\x20\"#<>\x7f]*))?(?:#.*)?", re.DOTALL)
AUTHORITY_BYTES = re.compile(r"[!$-.0-;=@-\[\]_a-z~]+")


def is_authority(text):
    """Whether it is userinfo, a host and a port, as `http_uri` reads them."""
    if not AUTHORITY_BYTES.fullmatch(text) or text.endswith("@") or text.count("[") != text.count("]") or text.count(
        "["
    ) > 1:
        return False
    piece = ""
    for byte in text:
        if (byte == ":" and piece.count(":") == 8) or (byte == "[" and "%" in piece):
            return False
        piece = "" if byte in "@]" else piece + byte
    return text.find("[") <= text.find("]") and piece.count(":") <= 1 and "%" not in piece


def path_and_query(target):
    """The path and the query of a target in origin or absolute form, or nothing. Without a query it is empty."""
    absolute = ABSOLUTE.fullmatch(target)
    if absolute and not is_authority(absolute[1]):
        return None
    target = absolute[2] if absolute else target
    found = PATH_AND_QUERY.fullmatch(target)
    return (found[1], found[2] or "") if found else None


def parameter(query, name):
    """The first value of a name in a query, decoded as a form."""
    for pair in query.split("&"):
        key, _, value = pair.partition("=")
        if pair and form_text(key) == name:
            return form_text(value)
    return None


def form_text(text):
    return urllib.parse.unquote_to_bytes(text.replace("+", " ")).decode(errors="replace")


def is_name(text):
    return bool(NAME.fullmatch(text)) and len(text) <= MAX_NAME


def digest_of(content, algorithm):
    return f"{algorithm}:{hashlib.new(algorithm, content).hexdigest()}"


def reference_read(text):
    """The reference as it is written, whichever of its forms was read; or nothing."""
    if not REFERENCE.fullmatch(text):
        return None
    digits = text.lower().removeprefix("urn:uuid:").strip("{}").replace("-", "")
    return "-".join((digits[:8], digits[8:12], digits[12:16], digits[16:20], digits[20:]))


def reference_of(session):
    """The reference of a session's number, under the zero secret."""
    return f"{session:08x}-0000-8000-8000-000000000000"


# --- Replies ---


@dataclasses.dataclass
class Reply:
    status: int
    code: str = ""
    location: str = ""
    # How many bytes the session has; nothing is no Range.
    held: int = 0
    digest: str = ""
    allow: str = ""
    content_type: str = ""
    body: bytes = b""

    def text(self, is_head, closes):
        fields = [
            ("Location", self.location),
            ("Range", f"0-{self.held - 1}" if self.held else ""),
            ("Docker-Content-Digest", self.digest),
            ("Allow", self.allow),
            ("Content-Type", self.content_type),
            ("Content-Length", "" if self.status == 204 else str(len(self.body))),
            ("Connection", "close" if closes else ""),
        ]
        lines = [
            f"HTTP/1.1 {self.status} {REASONS[self.status]}",
            *(f"{name}: {value}" for name, value in fields if value),
            "",
            "",
        ]
        return "\r\n".join(lines).encode() + (b"" if is_head else self.body)


def refused(status, code, **fields):
    body = f'{{"errors":[{{"code":"{code}","message":"{MESSAGES[code]}"}}]}}'.encode()
    return Reply(status, code, content_type="application/json", body=body, **fields)


# --- The service ---


class Service:
    """The sessions that are open and the blobs, from the first state on."""

    def __init__(self):
        self.issued = 0
        self.open = {}  # a reference: the name of its session, and the bytes that it took
        self.blobs = {}
        self.holds = set()  # names of repositories, each with a digest that it has

    def answer(self, head, body):
        """The reply to a request."""
        path, query = path_and_query(head.target) or ("", "")
        if path == "/v2/":
            return Reply(200) if head.method in (b"GET", b"HEAD") else refused(405, "UNSUPPORTED", allow="GET, HEAD")
        if not path.startswith("/v2/"):
            return refused(404, "UNSUPPORTED")
        prefix, _, tail = path.removeprefix("/v2/").rpartition("/")
        if prefix.endswith("/blobs/uploads"):
            name, form = prefix.removesuffix("/blobs/uploads"), self.upload if tail else self.uploads
        elif prefix.endswith("/blobs"):
            name, form = prefix.removesuffix("/blobs"), self.blob
        else:
            return refused(404, "UNSUPPORTED")
        if not is_name(name):
            return refused(404, "NAME_INVALID")
        return form(head, name, tail, query, body)

    def blob(self, head, name, digest, _query, _body):
        if head.method not in (b"GET", b"HEAD"):
            return refused(405, "UNSUPPORTED", allow="GET, HEAD")
        if not DIGEST.fullmatch(digest):
            return refused(400, "DIGEST_INVALID")
        if (name, digest) not in self.holds:
            return refused(404, "BLOB_UNKNOWN")
        return Reply(200, digest=digest, content_type="application/octet-stream", body=self.blobs[digest])

    def uploads(self, head, name, _tail, query, body):
        if head.method != b"POST":
            return refused(405, "UNSUPPORTED", allow="POST")
        mount, digest = parameter(query, "mount"), parameter(query, "digest")
        if mount is None and digest is not None:
            return self.store(name, digest, body) or self.stored(name, digest)
        if body:
            return refused(400, "SIZE_INVALID")
        source = parameter(query, "from")
        if mount is not None and source is not None and is_name(source) and DIGEST.fullmatch(mount) and (
            source, mount
        ) in self.holds:
            self.holds.add((name, mount))
            return self.stored(name, mount)
        return self.begin(name)

    def begin(self, name):
        if len(self.open) == MAX_OPEN:
            return refused(429, "TOOMANYREQUESTS")
        self.issued += 1
        self.open[reference_of(self.issued)] = (name, b"")
        return Reply(202, location=f"/v2/{name}/blobs/uploads/{reference_of(self.issued)}")

    def store(self, name, digest, content):
        """Stores a content under the digest that it has, or gives the refusal."""
        found = DIGEST.fullmatch(digest or "")
        if len(content) > MAX_BLOB:
            return refused(413, "SIZE_INVALID")
        if not found or digest_of(content, found[1] or found[2]) != digest:
            return refused(400, "DIGEST_INVALID")
        self.blobs[digest] = content
        self.holds.add((name, digest))
        return None

    @staticmethod
    def stored(name, digest):
        return Reply(201, location=f"/v2/{name}/blobs/{digest}")

    def upload(self, head, name, tail, query, body):
        if head.method not in (b"GET", b"HEAD", b"PATCH", b"PUT"):
            return refused(405, "UNSUPPORTED", allow="GET, HEAD, PATCH, PUT")
        at = reference_read(tail)
        of, held = self.open.get(at, (None, b""))
        if of != name:
            return refused(404, "BLOB_UPLOAD_UNKNOWN")
        location = f"/v2/{name}/blobs/uploads/{at}"
        if head.method in (b"GET", b"HEAD"):
            return Reply(204, location=location, held=len(held))
        wrong = self.misfit(head.values(b"content-range"), len(held), len(body), location)
        if wrong:
            return wrong
        if head.method == b"PUT":
            wrong = self.store(name, parameter(query, "digest"), held + body)
            if not wrong:
                del self.open[at]
            return wrong or self.stored(name, parameter(query, "digest"))
        self.open[at] = (name, held + body)
        return Reply(202, location=location, held=len(held + body))

    @staticmethod
    def misfit(ranges, held, length, location):
        """What is wrong with where a chunk wants to stand, and with its length."""
        found = RANGE.fullmatch(ranges[0]) if len(ranges) == 1 else None
        if ranges and not found:
            return refused(400, "BLOB_UPLOAD_INVALID")
        if found:
            first, last = number(found[1]), number(found[2])
            if first != held:
                return refused(416, "BLOB_UPLOAD_INVALID", location=location, held=held)
            if last - first + 1 != length or last < first:
                return refused(400, "SIZE_INVALID")
        if held + length > MAX_BLOB:
            return refused(413, "SIZE_INVALID")
        return None


# --- Connections ---


@dataclasses.dataclass
class Turn:
    """A request that is answered: where it ends in what was sent, the reply, and its text."""

    end: int
    reply: Reply
    text: bytes


def conversation(sent):
    """The turns of a connection over a new service, and how it ends. A request that can't be read ends where that is
    known."""
    service, turns, at = Service(), [], 0
    while len(turns) < MAX_REQUESTS:
        if at == len(sent):
            return turns, End.CLEAN
        try:
            head, at = read_head(sent, at)
            body, at = read_body(head, sent, at)
        except Truncated:
            return turns, End.TRUNCATED
        except Bad as bad:
            reply = Reply(bad.status)
            turns.append(Turn(bad.at, reply, reply.text(False, True)))
            return turns, End.AFTER_BAD
        keeps = head.keeps_the_connection()
        reply = service.answer(head, body)
        closes = not keeps or len(turns) + 1 == MAX_REQUESTS
        turns.append(Turn(at, reply, reply.text(head.method == b"HEAD", closes)))
        if not keeps:
            return turns, End.AFTER_CLOSE
    return turns, End.TOO_MANY


def once(sent):
    """What the program writes, and its exit status."""
    turns, end = conversation(sent)
    return b"".join(turn.text for turn in turns), end.status
