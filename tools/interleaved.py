"""What stands on one RTSP connection, messages and frames, read strictly and written; for players and servers over sockets.

What a careful peer writes is taken and nothing else is: a line ends with CR LF, a header is `Name: value` on one line
and comes once, and Content-Length says how long a body is. The gateway writes no other form, though both versions of
RTSP know some. tools/items.py reads them; here is looked whether they are so.
"""
import re
from dataclasses import dataclass, field

from items import NAME, Items

FIRST_LINE = re.compile(rb"%s [^ ]+ RTSP/[0-9]\.[0-9]|RTSP/[0-9]\.[0-9] [1-9][0-9]{2} .*" % NAME.pattern)
# What is wrong with what is no item.
WRONG = {"Head": "a head without an end", "Control": "a CR or NUL in a head", "Start": "no first line of a message",
         "Colon": "no header", "Name": "no header", "Length": "a Content-Length that is no number"}


class Fault(Exception):
    """What a peer sent and should not have sent."""


@dataclass
class Frame:
    """An interleaved frame."""
    channel: int
    payload: bytes


@dataclass
class Message:
    """A request, with a method and a URI, or a response, with a code; the names of its headers in lower case."""
    version: str
    method: str = None
    uri: str = None
    code: int = None
    headers: dict = field(default_factory=dict)
    body: bytes = b""

    def __str__(self):
        return "%s with the CSeq %s" % (self.method or "a reply %d of %s" % (self.code, self.version), self.get("CSeq"))

    def get(self, name):
        """The value of a header, or None."""
        return self.headers.get(name.lower())

    def needs(self, name, source):
        """The value of a header that has to be there by this source."""
        if self.get(name) is None:
            raise Fault("%s without %s (%s)" % (self.method or "a response", name, source))
        return self.get(name)


class StrictItems(Items):
    """A stream that comes in pieces, cut into frames and messages of which each is as a careful peer writes it."""
    longest_head = 65_536

    def __init__(self):
        super().__init__()
        self.longest_body = self.most_headers = None

    def feed(self, piece):
        """The items that are whole now; raises Fault behind them at what is none."""
        for item in super().feed(piece):
            yield item if isinstance(item, Frame) else strict(item)

    def skip(self, data, at):
        """No line is empty."""
        return at

    def frame(self, data, at, end):
        return Frame(data[at + 1], data[at + 4:end])


def strict(item):
    """An item as a message."""
    head = item.raw[:item.head]
    if item.kind == "bad":
        raise Fault("%s: %r" % (WRONG[item.why], head[:80]))
    first, *lines = head.split(b"\r\n")[:-2] or [b""]
    if not FIRST_LINE.fullmatch(first):
        raise Fault("no first line of a message: %r" % first.decode("utf-8", "replace"))
    if len(lines) != len(item.headers) or head.count(b"\n") != len(lines) + 2:
        raise Fault("a line that goes on in the next one, or that ends without CR LF: %r" % head)
    try:
        headers = {name.decode().lower(): value.decode() for name, value in item.headers}
        message = Message(item.version.decode(), item.method.decode() or None, item.uri.decode() or None, item.code or None,
                          headers, item.raw[item.head:])
    except UnicodeDecodeError:
        raise Fault("a head that is not UTF-8: %r" % head)
    if len(headers) < len(item.headers):
        raise Fault("a header twice: %r" % head)
    return message


def written(first, headers, body=b""):
    """The bytes of a message; headers without a value are left out."""
    lines = [first] + ["%s: %s" % pair for pair in headers if pair[1] is not None]
    lines += ["Content-Length: %d" % len(body)] if body else []
    return ("\r\n".join(lines) + "\r\n\r\n").encode("utf-8") + body


def framed(frame):
    """The bytes of a frame."""
    return b"$" + bytes([frame.channel]) + len(frame.payload).to_bytes(2, "big") + frame.payload
