"""The second reading of docs/FORMATS.md, its part on what is kept of a player.

`second_reading.py` says how it changes. Nothing of it is shared with the program.
"""
from dataclasses import dataclass, field

from second_bytes import Stream

MOST_SESSIONS = 4


@dataclass
class Track:
    """A track: the URI that went up, the player's pair, and the number of the shared pair."""
    uri: bytes
    pair: tuple
    shared: int


@dataclass
class Play:
    """A PLAY that waits, as it goes up."""
    uri: bytes
    range: bytes
    scale: bytes


@dataclass
class Open:
    """The open request: a player's with its own number, a released PLAY, or a closing TEARDOWN; and its session's place."""
    why: str
    method: bytes
    uri: bytes
    place: int = None
    number: int = 0
    cseq: int = None
    track: Track = None


@dataclass
class Session:
    """A session, which begins with its id and its control URI."""
    id: bytes
    control: bytes
    state: str = "Init"
    tracks: list = field(default_factory=list)
    running: int = None
    plays: list = field(default_factory=list)

    def stopped(self):
        """No PLAY runs, and none waits."""
        self.running, self.plays, self.state = None, [], "Ready"


@dataclass
class Connection:
    """What the gateway keeps of a player; a place has a session or none."""
    is_alive: bool
    stream: Stream = field(default_factory=Stream)
    places: list = field(default_factory=lambda: [None] * MOST_SESSIONS)
    described: bytes = None
    asked: Open = None
    waiting: list = field(default_factory=list)

    @property
    def sessions(self):
        return [session for session in self.places if session]

    @property
    def tracks(self):
        """The tracks of all sessions."""
        return [track for session in self.sessions for track in session.tracks]

    def at(self, place):
        """The session at a place, where one is given."""
        return None if place is None else self.places[place]

    def lowest(self, fits):
        """The lowest place that fits."""
        return next((place for place, session in enumerate(self.places) if fits(session)), None)

    def find(self, name):
        """The place of the session with an id."""
        return self.lowest(lambda session: session and session.id == name)

    def pair_for(self, want):
        """The pair that a player gets: what it wants, or the lowest that is free."""
        taken = {channel for track in self.tracks for channel in track.pair}
        if want == "any":
            return next((a, a + 1) for a in range(0, 255, 2) if not {a, a + 1} & taken)
        return None if want is None or set(want) & taken else want

    def ended(self, place):
        """The session at a place ends."""
        self.places[place] = None
        if not self.sessions:
            self.described = None
