"""A recording's events, each with what the gateway handed out for it, from one run of `PROGRAM replay`.

It prints nothing and has no exit status: report and chart of tools/transcript import it.

How an event finds its records. Records don't say which entry they are of, so the program is given the recording with
marks. What it is given differs from the recording in four ways, each of which leaves all other records as they are:

- A player enters first that the recording does not know, and behind each event it sends `A B RTSP/`, a request of
  another version. By docs/FORMATS.md (Messages of RTSP 1.0, rule 2) it gets 505 at once, whatever the others do, and
  nothing goes up. Its reply is the mark: all records before it, and behind the last one, are those of the event.
  Once the connection to the server has ended, which the record F says, nothing is handed out any more.
- The bytes of a stream are cut into an entry for each item, as however they are cut the items are the same.
- A frame keeps its channel and loses its payload, since nothing in a frame is changed but its channel.
- Connections are numbered in the order in which they enter, behind the player that marks. Their numbers are told in
  records alone, where the recording's are put back.

So a frame of any length takes 33 bytes of the 67,108,864 that `replay` takes. Where a recording has more than that even
so, what is behind the last event that fits is not given to the program, and `cut_at` has the number of its entry.
"""
import collections
import subprocess
import threading
from dataclasses import dataclass, field

from items import Items
from recording import LONGEST_BODY, MAGIC, READ_SIZE, Broken, entries_of, pieces, spelled

MARKER = 0
MARK = b"A B RTSP/\n\n"
LONGEST_TRANSCRIPT = 67_108_864


class Failed(Exception):
    """Why the program could not be run, or how it ended."""


@dataclass(slots=True)
class Event:
    """What happened: an entry without bytes of a stream (`item` is None), or an item that an entry completed.

    `records` has what was handed out: (kind, connection, items) of T and Y, (kind, connection, cause) of C and F.
    """
    entry: int
    kind: bytes
    connection: int
    item: object = None
    body: bytes = b""
    records: list = field(default_factory=list)


class Streams:
    """The streams of a recording: its entries become events."""

    def __init__(self):
        self.streams = {}

    def events(self, entry):
        """The events of an entry, in their order."""
        if entry.kind not in (b"A", b"U"):
            yield Event(entry.number, entry.kind, entry.connection, body=entry.body)
            return
        key = entry.kind, entry.connection
        for item in self.streams.setdefault(key, Items()).feed(entry.body):
            yield Event(entry.number, entry.kind, entry.connection, item)


class Sender(threading.Thread):
    """Gives the program the recording with its marks, and notes the events in their order."""

    def __init__(self, source, sink):
        super().__init__(daemon=True)
        self.source, self.sink, self.events = source, sink, collections.deque()
        self.numbers, self.originals = {}, [None]
        self.broken = self.cut_at = None

    def run(self):
        """Sends all of it; where the program ends sooner there is nobody to send to."""
        try:
            self.send_events()
        except BrokenPipeError:
            pass
        except Broken as broken:
            self.broken = broken
        try:
            self.sink.close()
        except BrokenPipeError:
            pass

    def send_events(self):
        """Sends each event, which is noted before its records can come."""
        begin, streams = MAGIC + spelled(b"O", MARKER), Streams()
        self.sink.write(begin)
        left = LONGEST_TRANSCRIPT - len(begin)
        for entry in entries_of(self.source):
            if entry.kind == b"O":
                self.numbers[entry.connection] = len(self.originals)
                self.originals.append(entry.connection)
            for event in streams.events(entry):
                data = self.bytes_of(event)
                left -= len(data)
                if left < 0:
                    self.cut_at = entry.number
                    return
                self.events.append(event)
                self.sink.write(data)

    def bytes_of(self, event):
        """The entry of an event, and the mark behind it."""
        number, body = 0, event.body
        if event.kind not in (b"U", b"Z"):
            number = self.numbers[event.connection]
        if event.item:
            body = event.item.raw
            body = body[:2] + b"\0\0" if event.item.kind == "frame" else body
        bodies = [body[at:at + LONGEST_BODY] for at in range(0, len(body), LONGEST_BODY)] or [b""]
        return b"".join(spelled(event.kind, number, one) for one in bodies) + spelled(b"A", MARKER, MARK)


class Replay:
    """One run of the program over a recording; `events` gives its events, each with its records."""

    def __init__(self, program, front, up, source):
        try:
            self.process = subprocess.Popen([program, "replay", front, up], stdin=subprocess.PIPE,
                                            stdout=subprocess.PIPE, stderr=subprocess.PIPE)
        except OSError as error:
            raise Failed("%s can't be run: %s" % (program, error.strerror))
        self.program = program
        self.sender = Sender(source, self.process.stdin)
        self.sender.start()

    def events(self):
        """Each event with its records; raises Failed where the program ended otherwise than it should."""
        held = []
        is_over = False
        for kind, number, body in self.records():
            if kind == b"T" and number == MARKER:
                yield self.next_event(held)
                held = []
            elif kind == b"F":
                held.append((kind, 0, body))
                yield self.next_event(held)
                is_over = True
            elif number != MARKER or kind == b"Y":
                held.append((kind, 0 if kind == b"Y" else self.sender.originals[number], self.said(kind, body)))
        self.end()
        while self.sender.events:
            if not is_over:
                raise Failed("%s handed out too little" % self.program)
            yield self.next_event([])

    def said(self, kind, body):
        """What a record says: its items, or its cause."""
        return Items(has_limits=False).feed(body) if kind in (b"T", b"Y") else body

    def next_event(self, records):
        """The next event, with these records. Closes that come of one event stand by rising numbers."""
        event = self.sender.events.popleft()
        event.records = records
        if records and records[-1][0] == b"F":
            event.records = sorted(records[:-1], key=lambda record: record[1]) + records[-1:]
        return event

    def records(self):
        """Kind, connection and body of each record that the program writes."""
        left = b""
        for read in iter(lambda: self.process.stdout.read1(READ_SIZE), b""):
            data, left = left + read, b""
            for kind, connection, body in pieces(data):
                if kind is None:
                    left = body
                else:
                    yield kind, connection, body

    def end(self):
        """Waits for the program; raises Failed where it ended otherwise than it should."""
        self.sender.join()
        said = self.process.stderr.read().decode("utf-8", "replace").partition("\n")[0]
        if self.process.wait():
            raise Failed("%s ended with status %d: %s" % (self.program, self.process.returncode, said))

    def faults(self):
        """What was wrong with the recording, once all events came: none, or one text."""
        if self.sender.broken:
            return [str(self.sender.broken)]
        if self.sender.cut_at:
            return ["`replay` takes %d bytes: entry %d and what follows was left out" % (
                LONGEST_TRANSCRIPT, self.sender.cut_at)]
        return []
