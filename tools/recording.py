"""The format of transcripts and records: entries written and read, and the first thing that is wrong with a recording.

It prints nothing and has no exit status: tools/transcript and whatever makes or reads a transcript import it. The entries and
their faults are those of docs/FORMATS.md (Transcript, Records).
"""
from dataclasses import dataclass

MAGIC = b"RTSPGW1\n"
ENTRY_HEAD, LONGEST_BODY = 9, 131_072
READ_SIZE = 1 << 20
# By the kind of an entry, whether a body has this length.
HAS_LENGTH = {
    b"O": lambda size: size == 0, b"E": lambda size: size == 0, b"S": lambda size: size == 0,
    b"A": lambda size: size <= LONGEST_BODY, b"U": lambda size: size <= LONGEST_BODY, b"Z": lambda size: size == 1}
ENDS = (b"E", b"R", b"W", b"Q")
WHY = {
    "Magic": "a recording begins with the eight bytes RTSPGW1 and LF, and this does not",
    "Cut": "the last entry is not whole",
    "Kind": "no entry is of this kind",
    "Conn": "this entry can't have this connection here",
    "Length": "an entry of this kind can't have this body"}


def spelled(kind, connection, body=b""):
    """The bytes of an entry or a record."""
    return kind + connection.to_bytes(4, "big") + len(body).to_bytes(4, "big") + body


def pieces(data, at=0):
    """Kind, connection and body of each whole entry or record from a place on; what is left comes with the kind None."""
    while at < len(data):
        end = at + ENTRY_HEAD + int.from_bytes(data[at + 5:at + ENTRY_HEAD], "big")
        if len(data) < max(end, at + ENTRY_HEAD):
            yield None, 0, data[at:]
            return
        yield data[at:at + 1], int.from_bytes(data[at + 1:at + 5], "big"), data[at + ENTRY_HEAD:end]
        at = end


class Broken(Exception):
    """What is wrong with a recording, and where: the place of the entry's first byte, and its number from 1."""

    def __init__(self, kind, place, number):
        super().__init__("broken at byte %d, entry %d (%s): %s" % (place, number, kind, WHY[kind]))


@dataclass(slots=True)
class Entry:
    """An entry: its number from 1, its kind, its connection and its body."""
    number: int
    kind: bytes
    connection: int
    body: bytes


class Entries:
    """Takes a recording's bytes as they come, and gives the entries that are whole."""

    def __init__(self):
        self.left, self.place, self.number = b"", 0, 0
        self.entered, self.has_magic = set(), False

    def feed(self, piece):
        """The entries that are whole now; raises Broken at the first that is none."""
        data, at = self.left + piece, 0
        self.left = b""
        if not self.has_magic:
            if data[:len(MAGIC)] != MAGIC[:len(data)]:
                raise Broken("Magic", 0, 0)
            if len(data) < len(MAGIC):
                self.left = data
                return
            self.has_magic, at = True, len(MAGIC)
            self.place = at
        while len(data) - at >= ENTRY_HEAD:
            entry = self.first(data, at)
            if entry is None:
                break
            size = ENTRY_HEAD + len(entry.body)
            at, self.place, self.number = at + size, self.place + size, entry.number
            yield entry
        self.left = data[at:]

    def first(self, data, at):
        """The entry that begins at a place of these bytes, or None where its body is not whole."""
        kind, connection = data[at:at + 1], int.from_bytes(data[at + 1:at + 5], "big")
        size = int.from_bytes(data[at + 5:at + ENTRY_HEAD], "big")
        body = data[at + ENTRY_HEAD:at + ENTRY_HEAD + size]
        fault = self.fault_of(kind, connection, size, body)
        if fault:
            raise Broken(fault, self.place, self.number + 1)
        if len(body) < size:
            return None
        if kind == b"O":
            self.entered.add(connection)
        return Entry(self.number + 1, kind, connection, body)

    def fault_of(self, kind, connection, size, body):
        """The first fault of an entry, but for one that is cut."""
        if kind not in HAS_LENGTH:
            return "Kind"
        if kind in (b"U", b"Z"):
            is_right = connection == 0
        else:
            is_right = (connection in self.entered) != (kind == b"O")
        if not is_right:
            return "Conn"
        is_other_end = kind == b"Z" and body and body not in ENDS
        return "Length" if not HAS_LENGTH[kind](size) or is_other_end else None

    def end(self):
        """Raises Broken where the recording ends within an entry, or before it began."""
        if not self.has_magic:
            raise Broken("Magic", 0, 0)
        if self.left:
            raise Broken("Cut", self.place, self.number + 1)


def entries_of(source):
    """The entries of a file to its end; raises Broken behind all that is whole."""
    entries = Entries()
    for piece in iter(lambda: source.read(READ_SIZE), b""):
        yield from entries.feed(piece)
    entries.end()
