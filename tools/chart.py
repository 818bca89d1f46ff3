"""A recording as a sequence chart: what each player and the server said, and what each was handed for it.

It prints nothing and has no exit status: tools/transcript does. The program is run once. How the records of an event
are found among all that it hands out stands at the head of tools/replayed.py, and whose an event is at that of
tools/accounts.py. Here events become rows; tools/chart_picture.py draws them, and tools/chart_page.py makes a page.

An event has one row, or more where an arrow's place is taken: what comes in stands first, and what is handed out for it
beside it or below. All frames between two other events are one bar.
"""
import re
from dataclasses import dataclass, field
from http import HTTPStatus

import chart_page
import chart_picture
from accounts import Accounts, Frames
from notation import line_text, lines_text
from replayed import Failed, Replay

LONGEST_LABEL, LONGEST_DETAIL = 40, 24
CHANNELS = re.compile(r"(?i)interleaved *= *([0-9]+(?:-[0-9]+)?)")
CAUSES = {b"E": "left", b"B": "closed: it sent what is no message", b"S": "closed: it was too slow",
          b"U": "closed: no server"}
ENDS = {b"E": "it ends", b"R": "reading fails", b"W": "writing fails", b"Q": "it is too slow"}
LEFT, RIGHT, REFUSALS = "left", "right", range(400, 600)


@dataclass(slots=True)
class Part:
    """An arrow between a player or the server and the gateway, or a note at one of them."""
    side: str
    owner: object
    label: str
    whole: str
    is_note: bool = False
    is_inward: bool = False
    is_refusal: bool = False


@dataclass(slots=True)
class Row:
    """Parts that stand side by side, or the frames of a bar by owner and way; with the first entry they are of."""
    entry: int
    parts: list = field(default_factory=list)
    frames: dict = None


def shortened(text, longest):
    """A text of at most so many signs."""
    return text if len(text) <= longest else text[:longest - 1] + "…"


def path_of(uri):
    """What stands behind the authority of a URI."""
    if not uri.lower().startswith(b"rtsp://"):
        return line_text(uri)
    return line_text(b"/" + uri[7:].partition(b"/")[2])


def details_of(item):
    """The fields that are told beside a message's first words."""
    details = []
    for name, before in ((b"cseq", "CSeq "), (b"transport", ""), (b"range", ""), (b"notify-reason", "")):
        value = item.field(name)
        if value is None:
            continue
        text = line_text(value)
        if name == b"transport":
            found = CHANNELS.search(text)
            text = "channels " + found[1] if found else "no channels"
        details.append(shortened(before + text, LONGEST_DETAIL))
    return details


def reason_of(item):
    """The reason of a reply, or that which its code has where it says none."""
    said = item.raw.partition(b"\n")[0].strip().split(b" ", 2)
    if len(said) == 3:
        return line_text(said[2])
    return HTTPStatus(item.code).phrase if item.code in set(HTTPStatus) else ""


def arrow(side, owner, item, is_inward):
    """A message as an arrow."""
    words = [str(item.code), reason_of(item)] if item.kind == "reply" else [line_text(item.method), path_of(item.uri)]
    label = shortened(" ".join(words).strip(), LONGEST_LABEL)
    return Part(side, owner, ", ".join([label] + details_of(item)), lines_text(item.raw), is_inward=is_inward,
                is_refusal=item.code in REFUSALS)


def note(side, owner, text, whole=""):
    """A note at a player or at the server."""
    return Part(side, owner, text, whole or text, is_note=True)


def incoming(event, owner):
    """What came, as a part; None where what it led to says as much."""
    side = RIGHT if event.kind in (b"U", b"Z") else LEFT
    if event.item:
        if event.item.kind == "bad":
            text = "no message (%s)" % event.item.why
            return note(side, owner, text, text + ":\n" + lines_text(event.item.raw))
        return arrow(side, owner, event.item, True)
    if event.kind == b"O":
        return note(LEFT, owner, "enters")
    if event.kind == b"Z":
        return None if event.records else note(RIGHT, None, ENDS[event.body])
    return None if event.records else note(LEFT, owner, CAUSES[event.kind])


def outgoing(record, owner):
    """What a record says, as parts."""
    kind, connection, said = record
    if kind == b"C":
        return [note(LEFT, connection, CAUSES[said])]
    if kind == b"F":
        return [note(RIGHT, None, "the server's connection ends: " + line_text(said))]
    side, whose = (LEFT, connection) if kind == b"T" else (RIGHT, owner)
    return [arrow(side, whose, item, False) for item in said]


class Rows:
    """The rows of a chart, in their order, and what was seen of the recording."""

    def __init__(self, options):
        self.options, self.rows, self.accounts = options, [], Accounts()
        self.last_entry = 0

    def take(self, event):
        """Takes an event, and draws it where it was asked for."""
        owner, options = self.accounts.take(event), self.options
        self.last_entry = event.entry
        is_within = options.first <= event.entry and (options.last is None or event.entry <= options.last)
        is_wanted = options.conn is None or owner == options.conn or self.is_end(event)
        if not is_within or not is_wanted:
            return
        if event.item and event.item.kind == "frame":
            self.add_frame(event, owner)
        else:
            self.add_event(event, owner)

    def is_end(self, event):
        """Whether the server's connection ends."""
        return event.kind == b"Z" or any(kind == b"F" for kind, _, _ in event.records)

    def add_frame(self, event, owner):
        """A frame; it joins the bar that stands last."""
        if not self.rows or self.rows[-1].frames is None:
            self.rows.append(Row(event.entry, frames={}))
        way = "dropped" if not event.records else "up" if event.kind == b"A" else "down"
        frames = self.rows[-1].frames.setdefault(owner, {}).setdefault(way, Frames())
        frames.add(1, len(event.item.raw))

    def add_event(self, event, owner):
        """Each part goes into the event's last row, or into a new one where its side is taken there."""
        came = incoming(event, owner)
        parts = [came] if came else []
        for record in event.records:
            parts += outgoing(record, owner)
        row = None
        for part in parts:
            if self.options.conn is not None and part.side == LEFT and part.owner != self.options.conn:
                continue
            if row is None or any(self.is_taken(other, part) for other in row.parts):
                row = Row(event.entry)
                self.rows.append(row)
            row.parts.append(part)

    def is_taken(self, other, part):
        """Whether a part can't stand beside another. Notes of several players can."""
        are_notes = part.is_note and other.is_note and part.side == LEFT
        return other.side == part.side and not (are_notes and part.owner != other.owner)


def chart(options, source, sink):
    """Writes the chart of a recording; what was wrong with it or with the run, as lines."""
    rows, faults = Rows(options), []
    try:
        replay = Replay(options.program, options.front, options.up, source)
        for event in replay.events():
            rows.take(event)
        faults = replay.faults()
    except Failed as failed:
        faults = [str(failed)]
    if options.conn is not None and options.conn not in rows.accounts.of:
        faults.insert(0, "it has no connection %d" % options.conn)
    elif options.first > max(rows.last_entry, 1):
        faults.insert(0, "it has no entry %d: the last is %d" % (options.first, rows.last_entry))
    picture = chart_picture.drawn(rows.rows)
    text = chart_page.page(picture) if options.html else picture.svg()
    sink.write(text.encode("utf-8"))
    return faults
