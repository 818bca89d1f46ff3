"""Follows a recording that grows, and prints what happens in it.

It prints a line for each event but frames, with the time at which it was seen here, since a recording has no times:

    12:03:07 conn 3 DESCRIBE rtsp://gate.example/live CSeq 2
    12:03:07 server 200 CSeq 5
    12:03:08 conn 3: 48 frames, 57,984 bytes down; 2 frames, 72 bytes up
    12:03:09 conn 3 closed: player left

and once a second the frames of each connection that had some. tools/transcript has the exit status.

Nothing is replayed. A frame of the server is counted for the connection that was the first to name the session to which
the server had granted the frame's channel. Players name it in their PLAY, before any frame comes; until one did, the
frame is counted as the server's.
"""
import os
import stat
import time

from accounts import Frames
from items import Items
from notation import line_text
from recording import READ_SIZE, Entries

SECONDS_APART, IDLE_SECONDS = 1, 0.1
CLOSES = {b"E": "closed: player left", b"S": "closed: it took its bytes too slowly"}
ENDS = {b"E": "it closed the connection", b"R": "reading from it failed", b"W": "writing to it failed",
        b"Q": "it took its bytes too slowly"}


def told(item):
    """A message in a line."""
    number = item.field(b"cseq")
    words = [str(item.code)] if item.kind == "reply" else [line_text(item.method), line_text(item.uri)]
    return " ".join(words + (["CSeq " + line_text(number)] if number is not None else []))


def channels_of(transport):
    """The two channels that a Transport names, or none."""
    for part in (transport or b"").split(b";"):
        name, _, value = part.strip().partition(b"=")
        if name.lower() == b"interleaved":
            return [int(one) for one in value.split(b"-") if one.isdigit()]
    return []


class Watch:
    """Takes a recording's bytes as they come, and prints what they say to a sink."""

    def __init__(self, sink):
        self.sink, self.entries, self.streams = sink, Entries(), {}
        self.frames, self.sessions, self.channels, self.closed = {}, {}, {}, set()
        self.shown_at, self.clock = time.monotonic(), time.strftime("%H:%M:%S")

    def say(self, text):
        """Prints a line with the time at which it was seen."""
        self.sink.write("%s %s\n" % (self.clock, text))

    def take(self, piece):
        """Takes some bytes, all seen at one time; raises Broken behind the lines of all that is whole."""
        self.clock = time.strftime("%H:%M:%S")
        for entry in self.entries.feed(piece):
            self.take_entry(entry)
            if time.monotonic() - self.shown_at >= SECONDS_APART:
                self.show_frames()

    def take_entry(self, entry):
        """Says what an entry tells."""
        who = "conn %d" % entry.connection
        if entry.kind in (b"A", b"U"):
            stream = self.streams.setdefault((entry.kind, entry.connection), Items())
            for item in stream.feed(entry.body):
                self.take_item(who if entry.kind == b"A" else "server", entry, item)
        elif entry.kind == b"O":
            self.say(who + " entered")
        elif entry.kind == b"Z":
            self.say("server ended: " + ENDS[entry.body])
        elif entry.connection in self.closed:
            self.closed.discard(entry.connection)
        else:
            self.say("%s %s" % (who, CLOSES[entry.kind]))
            self.streams.pop((b"A", entry.connection), None)

    def take_item(self, who, entry, item):
        """An item of a player or of the server."""
        if item.kind == "frame":
            owner = who
            if entry.kind == b"U":
                owner = self.sessions.get(self.channels.get(item.channel), who)
            self.frames.setdefault(owner, {}).setdefault(entry.kind, Frames()).add(1, len(item.raw))
        elif item.kind == "bad":
            how = "closed" if entry.kind == b"A" else "ended"
            self.say("%s %s: it sent what is no message (%s)" % (who, how, item.why))
            self.closed.add(entry.connection)
        else:
            self.say("%s %s" % (who, told(item)))
            self.learn(who, entry, item)

    def learn(self, who, entry, item):
        """Which channels are whose."""
        name = (item.field(b"session") or b"").partition(b";")[0]
        if not name:
            return
        if entry.kind == b"A":
            self.sessions.setdefault(name, who)
        elif item.kind == "reply" and item.field(b"transport"):
            self.sessions.pop(name, None)
            for channel in channels_of(item.field(b"transport")):
                self.channels[channel] = name

    def show_frames(self):
        """A line for each connection that had frames since the last time."""
        self.clock = time.strftime("%H:%M:%S")
        for who, ways in sorted(self.frames.items()):
            parts = ["%s frame%s, %s bytes %s" % (format(ways[kind].count, ","), "" if ways[kind].count == 1 else "s",
                                                 format(ways[kind].size, ","), way)
                     for kind, way in ((b"U", "down"), (b"A", "up")) if kind in ways]
            self.say("%s: %s" % (who, "; ".join(parts)))
        self.frames, self.shown_at = {}, time.monotonic()
        self.sink.flush()


def is_new(source, size):
    """Whether a file was begun anew since so many of its bytes were read."""
    return os.fstat(source.fileno()).st_size < size


def watch(name, sink, is_once):
    """Prints what a recording says, and what is added to it until an interrupt comes; or once, as a pipe is read.

    Raises Broken or OSError. A file that became shorter was begun anew by a new run of `serve`.
    """
    with open(name, "rb", buffering=0) as source:
        follows = not is_once and stat.S_ISREG(os.fstat(source.fileno()).st_mode)
        one, size = Watch(sink), 0
        try:
            while True:
                piece = source.read(READ_SIZE)
                size += len(piece)
                one.take(piece)
                if not piece and not follows:
                    break
                if not piece and is_new(source, size):
                    one.show_frames()
                    one.say("the recording begins anew")
                    source.seek(0)
                    one, size = Watch(sink), 0
                elif not piece:
                    time.sleep(IDLE_SECONDS)
                    one.show_frames() if time.monotonic() - one.shown_at >= SECONDS_APART else sink.flush()
        finally:
            one.show_frames()
        one.entries.end()
