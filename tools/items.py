"""The items of one stream: requests, replies, frames, and what is none. It is the reader of RTSP of all tools but one.

It prints nothing and has no exit status: watch, report and chart of tools/transcript import it, and tools/interleaved.py, which
is stricter. How they are read, and the limits, stand in docs/FORMATS.md (Items of a stream, Heads); what the gateway hands out
is read without limits. tools/second_reading.py with tools/second_bytes.py is the other reader, and shares nothing with this one.
"""
import re
from dataclasses import dataclass

LONGEST_HEAD, LONGEST_BODY, MOST_HEADERS = 8192, 65_536, 64
FRAME_HEAD, DOLLAR = 4, ord("$")
EMPTY_LINES = re.compile(rb"(?:\r?\n)*")
HEAD_END = re.compile(rb"\n\r?\n")
NAME = re.compile(rb"[A-Za-z0-9!#$%&'*+\-.^_`|~]+")
CODE = re.compile(rb"[1-9][0-9]{2}")
LENGTH = re.compile(rb"[0-9]{1,10}")


class Fault(Exception):
    """Why a head can't be read."""


@dataclass(slots=True)
class Item:
    """An item: "request", "reply", "frame" or "bad", its bytes, how many of them are its head, and the parts that its kind has."""
    kind: str
    raw: bytes
    head: int = 0
    method: bytes = b""
    uri: bytes = b""
    code: int = 0
    version: bytes = b""
    headers: tuple = ()
    why: str = ""

    @property
    def channel(self):
        """The channel of a frame."""
        return self.raw[1]

    def field(self, wanted):
        """The value of the first header of a name in lower case, or None."""
        return next((value for name, value in self.headers if name.lower() == wanted), None)

    def number(self):
        """CSeq, or None where it is not a number."""
        value = self.field(b"cseq") or b""
        return int(value) if re.fullmatch(rb"[0-9]{1,19}", value) else None


class Items:
    """Takes the bytes of a stream as they come, and gives the items that are whole."""
    longest_head, longest_body, most_headers = LONGEST_HEAD, LONGEST_BODY, MOST_HEADERS

    def __init__(self, has_limits=True):
        self.left, self.needed, self.is_over = bytearray(), 1, False
        if not has_limits:
            self.longest_head = self.longest_body = self.most_headers = None

    def feed(self, piece):
        """The items that are whole now. Behind a bad one comes none."""
        if self.is_over:
            return []
        data = piece
        if self.left:
            self.left += piece
            if len(self.left) < self.needed:
                return []
            data = bytes(self.left)
        at, items = 0, []
        while not self.is_over:
            at = self.skip(data, at)
            found, end = self.frames(data, at) if data[at:at + 1] == b"$" else self.first(data, at)
            items += found
            if end == at:
                break
            at = end
        self.needed -= at
        self.left = bytearray(data[at:])
        return items

    def skip(self, data, at):
        """The place behind empty lines."""
        return EMPTY_LINES.match(data, at).end()

    def frames(self, data, at):
        """The frames at a place that are whole, and where they end; `needed` says how far the next one could be."""
        found, size = [], len(data)
        while size - at >= FRAME_HEAD and data[at] == DOLLAR:
            end = at + FRAME_HEAD + (data[at + 2] << 8 | data[at + 3])
            if end > size:
                self.needed = end
                break
            frame = self.frame(data, at, end)
            if frame:
                found.append(frame)
            at = end
        else:
            self.needed = at + FRAME_HEAD
        return found, at

    def frame(self, data, at, end):
        """The frame between two places; None where it is left out."""
        return Item("frame", data[at:end])

    def first(self, data, at):
        """The message at a place, or what is none, and where it ends; nothing where it is not whole."""
        self.needed = at + 1 if at == len(data) else len(data) + 1
        found, most = HEAD_END.search(data, at), self.longest_head
        if most and (found is None or found.end() - at > most):
            return self.bad("Head", data, at, at + most) if len(data) - at >= most else ([], at)
        if found is None:
            return [], at
        end = found.end()
        try:
            item = read_head(data[at:end], self.most_headers)
        except Fault as fault:
            return self.bad(str(fault), data, at, end)
        length = item.field(b"content-length")
        if length is not None and not LENGTH.fullmatch(length):
            return self.bad("Length", data, at, end)
        size = int(length or 0)
        if self.longest_body is not None and size > self.longest_body:
            return self.bad("Body", data, at, end)
        self.needed = end + size
        if len(data) < self.needed:
            return [], at
        item.raw, item.head = data[at:end + size], end - at
        return [item], end + size

    def bad(self, why, data, at, end):
        """What is no item, and why; it ends the stream."""
        self.is_over = True
        return [Item("bad", data[at:end], end - at, why=why)], len(data)


def read_head(raw, most_headers):
    """An item with all that its head says; raises Fault with the first that is wrong."""
    text = raw.replace(b"\r\n", b"\n")
    has_control = b"\r" in text or b"\0" in text
    lines, headers = text.split(b"\n")[:-2], []
    item = first_line(lines[0], raw)
    for line in lines[1:]:
        if has_control and (b"\r" in line or b"\0" in line):
            raise Fault("Control")
        name, colon, value = line.partition(b":")
        if line[:1] in (b" ", b"\t"):
            if not headers:
                raise Fault("Colon")
            name, above = headers[-1]
            headers[-1] = name, above + b" " + line.strip(b" \t")
        elif not colon:
            raise Fault("Colon")
        elif not NAME.fullmatch(name):
            raise Fault("Name")
        elif most_headers and len(headers) >= most_headers:
            raise Fault("Many")
        else:
            headers.append((name, value.strip(b" \t")))
    item.headers = [(name, value.strip(b" \t")) for name, value in headers]
    return item


def first_line(line, raw):
    """An item with what its first line says."""
    if b"\r" in line or b"\0" in line:
        raise Fault("Control")
    if line.startswith(b"RTSP/"):
        parts = line.split(b" ", 2)
        if len(parts) < 2 or not CODE.fullmatch(parts[1]):
            raise Fault("Start")
        return Item("reply", raw, code=int(parts[1]), version=parts[0])
    parts = line.split(b" ")
    if len(parts) != 3 or not all(parts) or not parts[2].startswith(b"RTSP/"):
        raise Fault("Start")
    return Item("request", raw, method=parts[0], uri=parts[1], version=parts[2])
