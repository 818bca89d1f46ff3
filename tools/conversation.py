"""What players and the server say in a transcript that is drawn from a number; for tools/compare.

Most of it is a sensible conversation, so that sessions play, PLAYs wait and pairs run out; some of it is noise. What is
sensible now is seen in the second reading of docs/FORMATS.md, which takes each entry as it is drawn.
"""
from drawing import (BAD_GRANTS, BAD_IDS, BAD_RANGES, BAD_TRANSPORTS, CODES, FRONTS, GRANTS, IDS, INFOS, NOISE_DOWN,
                     NOISE_UP, RANGES, REASONS, SCALES, STATUSES, TIMEOUTS, TRANSPORTS, URIS, Words)
from recording import LONGEST_BODY, MAGIC, spelled
from second_bytes import METHODS
from second_reading import MOST_PAIRS, Gateway

WISHES = {
    "Init": dict(SETUP=8, DESCRIBE=4, OPTIONS=1, GET_PARAMETER=1, SET_PARAMETER=0.5, PLAY=0.2, PAUSE=0.2, TEARDOWN=0.2),
    "Ready": dict(SETUP=2, PLAY=4, TEARDOWN=0.5, GET_PARAMETER=1, SET_PARAMETER=0.5, OPTIONS=1, DESCRIBE=0.5,
                  PAUSE=0.2),
    "Playing": dict(PLAY=6, PAUSE=1.5, TEARDOWN=0.7, GET_PARAMETER=1, SET_PARAMETER=0.5, OPTIONS=1, DESCRIBE=0.3,
                    SETUP=0.3)}


def filled_in(text, numbers):
    """A text with as many of the numbers as it has places."""
    return text % tuple(numbers[:text.count(b"%")])


class Conversation(Words):
    """Draws a transcript; `gateway` is the second reading, which has taken all of it."""

    def __init__(self, number):
        super().__init__(number)
        self.gateway, self.transcript, self.left = Gateway(), MAGIC, {}
        self.cseqs, self.ids, self.ends = {}, list(IDS), self.one((0.05, 0.15, 0.15, 0.3))
        self.most, self.eager = self.one((1, 1, 2, 2, 3, 5, 12)), self.one((1, 1, 4, 30))
        self.sessions = self.one((1, 1, 2, 3, 4, 4, 5))
        self.errors, self.cuts, self.spoils = self.one((0.02, 0.1, 0.1, 0.4)), self.one((0, 0.2, 0.5)), 0

    def add(self, kind, connection, said=b""):
        """Adds an entry, or some where the bytes are many."""
        while True:
            piece, said = said[:LONGEST_BODY], said[LONGEST_BODY:]
            self.transcript += spelled(kind, connection, piece)
            self.gateway.take(kind, connection, piece)
            if not said:
                return

    def say(self, kind, connection, said):
        """Adds bytes of a stream in some pieces; the last may be kept until the stream says more."""
        while self.seldom(self.cuts) and said:
            at = self.random.randrange(len(said) + 1)
            self.add(kind, connection, said[:at])
            said = said[at:]
            if self.seldom(0.5):
                self.left[kind, connection] = said
                return
        self.add(kind, connection, said)

    def say_left(self, kind, connection):
        """Adds what was kept of a stream."""
        if (kind, connection) in self.left:
            self.add(kind, connection, self.left.pop((kind, connection)))

    def enter(self):
        number = self.random.randrange(400)
        if number not in self.gateway.connections:
            self.add(b"O", number)
        return number

    def draw(self):
        """Draws the whole transcript."""
        if self.seldom(0.04):
            self.fill()
        steps, is_spoiled = self.random.randrange(10, 160), self.seldom(0.25)
        for at in range(steps):
            self.spoils = 0.4 if is_spoiled and at > 0.7 * steps else 0.003
            self.step()
        if self.seldom(0.25):
            self.add(b"Z", 0, self.one((b"E", b"R", b"W", b"Q")))
            for _ in range(self.random.randrange(8)):
                self.step()
        for kind, connection in list(self.left) if self.seldom(0.7) else []:
            self.say_left(kind, connection)
        return self.transcript, b"".join(spelled(*record) for record in self.gateway.records)

    def fill(self):
        """Players set up tracks until almost all shared pairs are held."""
        self.most, self.eager, self.errors, self.noise = 40, 30, 0.02, self.noise / 10
        tracks, number = self.random.randrange(1, 9), None
        while len(self.gateway.held) < MOST_PAIRS - self.one((0, 0, 0, 0, 1)) and not self.gateway.is_over:
            player = self.gateway.connections.get(number)
            if player is None or len(player.tracks) >= tracks or player.asked or not player.is_alive:
                number = self.enter()
                continue
            self.add(b"A", number, self.request(number, b"SETUP", self.subject(player)))
            if player.asked and self.seldom(0.95):
                self.add(b"U", 0, self.reply(player))

    def step(self):
        """Draws what happens next."""
        connections = self.gateway.connections
        alive = [number for number, player in connections.items() if player.is_alive]
        number = self.one(alive if alive and not self.odd(0.03) else list(connections) or [self.enter()])
        has_sessions = any(player.sessions for player in connections.values())
        what = self.pick({
            "enter": 1 if len(alive) < self.most else 0.01, "end": self.ends, "bad": 0.03 * self.noise,
            "request": 3 if connections[number].asked else 9, "reply": 9 if self.gateway.loans else 0,
            "notify": 3 if has_sessions else 0.2, "frame": 2, "frame down": 2, "noise": 0.02 * self.noise})
        if what == "enter":
            self.enter()
        elif what == "end":
            self.add(self.one((b"E", b"S")), number)
        elif what in ("request", "frame", "bad"):
            self.say_left(b"A", number)
            self.say(b"A", number, self.of_client(what, number))
        else:
            self.say_left(b"U", 0)
            self.say(b"U", 0, self.of_server(what))

    def of_client(self, what, number):
        """What a client sends at once."""
        player = self.gateway.connections[number]
        if what == "bad":
            return self.one(NOISE_UP)
        if what == "frame":
            own = [channel for track in player.tracks for channel in track.pair]
            return self.frame(self.one(own) if own and self.seldom(0.8) else self.random.randrange(256))
        session = self.subject(player)
        method = self.wish(session)
        if method == b"TEARDOWN" and self.seldom(0.3):
            return self.request(number, method, session) + self.request(number, b"SETUP", None)
        more = self.one((0, 1, 2, 9)) if method == b"PLAY" and self.seldom(0.3) else 0
        if more:
            return self.request(number, method, session) + b"".join(
                self.request(number, b"PLAY", session) for _ in range(more))
        other = self.subject(player)
        return self.request(number, method, session) + (
            self.request(number, self.wish(other), other) if self.seldom(0.1) else b"")

    def subject(self, player):
        """The session that a request of a player is for, or none where it may bring a new one."""
        may_come = len(player.sessions) < self.sessions and self.seldom(0.15)
        return self.one(player.sessions) if player.sessions and not may_come else None

    def wish(self, session):
        """A method that suits a session's state."""
        state, tracks = (session.state, session.tracks) if session else ("Init", [])
        is_eager = state == "Ready" and len(tracks) < self.random.randrange(8, 10)
        return self.pick({**WISHES[state], "SETUP": self.eager} if is_eager else WISHES[state]).encode()

    def request(self, number, method, session):
        """A request of a player for a session, or for none."""
        player = self.gateway.connections[number]
        cseq = self.cseqs[number] = self.cseqs.get(number, 0) + 1
        cseq = self.one((b"0", b"007", b"9" * 19, b"1" * 20, b"x")) if self.odd(0.01) else b"%d" % cseq
        fields = self.fields(player, method, session)
        body = self.body() if method.endswith(b"PARAMETER") and self.seldom(0.5) or self.odd(0.02) else b""
        uri = self.uri(session, method)
        method = self.one((b"FLY", b"describe", b"A@", b"A/B") + METHODS) if self.odd(0.005) else method
        version = self.one((b"RTSP/2.0", b"RTSP/1.0x", b"HTTP/1.1")) if self.odd(0.005) else b"RTSP/1.0"
        return self.message((b"  " if self.odd(0.001) else b" ").join((method, uri, version)), cseq, fields, body)

    def uri(self, session, method):
        """A URI that suits a method for a session."""
        if self.odd(0.04):
            return self.one(URIS)
        if method in (b"OPTIONS", b"GET_PARAMETER", b"SET_PARAMETER") and self.seldom(0.4):
            return b"*"
        place = self.random.randrange(1, 10) if self.odd(0.05) else len(session.tracks if session else ()) + 1
        if method != b"SETUP":
            place = self.random.randrange(1, 4) if self.seldom(0.1) else 0
        if self.odd(0.002):
            return self.one(FRONTS) + b"/" + b"m" * self.random.randrange(7900, 8192)
        return self.one(FRONTS) + (b"/m/%d" % place if place else self.one((b"/m", b"/m", b"/m", b"/m/", b"/n?x=1")))

    def named(self, method, session):
        """The Session field of a request for a session."""
        name = session.id if session else None
        if self.odd(0.03):
            return self.one((None, self.one(self.ids), self.one(BAD_IDS), (name or b"aB").swapcase()))
        seldom = {b"DESCRIBE": 0.1, b"OPTIONS": 0.6, b"GET_PARAMETER": 0.6, b"SET_PARAMETER": 0.6}.get(method, 1)
        if name is None or not self.seldom(seldom):
            return None
        return name + self.one((b"",) * 8 + (b";timeout=60", b"; x;"))

    def fields(self, player, method, session):
        """The fields of a request that suit a method."""
        fields = [(b"Session", self.named(method, session))]
        if method == b"SETUP":
            fields.append((b"Transport", self.transport(player)))
        if method == b"PLAY" and self.seldom(0.8) or method == b"PAUSE" and self.odd(0.05):
            fields.append((b"Range", self.span()))
        if method == b"PLAY" and self.seldom(0.2):
            fields.append((b"Scale", self.one(SCALES)))
        if method.endswith(b"PARAMETER") and self.seldom(0.1):
            fields.append((b"Content-Encoding", b"gzip"))
        if method == b"DESCRIBE" and self.seldom(0.5):
            fields.append((b"Accept", self.one((b"application/sdp", b"application/sdp, x/y", b""))))
        return fields

    def span(self):
        return self.one(BAD_RANGES) if self.odd(0.04) else self.one(RANGES)

    def transport(self, player):
        """The Transport that a player asks for."""
        if self.odd(0.03):
            return self.one(BAD_TRANSPORTS + (None,))
        taken = {channel for track in player.tracks for channel in track.pair}
        first = next(channel for channel in range(0, 254, 2) if channel not in taken)
        first = self.random.randrange(12) if self.seldom(0.1) else first
        pair = (first + 1, first) if self.seldom(0.1) else (first, first + 1)
        text = self.one(TRANSPORTS) if self.seldom(0.3) else b"RTP/AVP/TCP;unicast;interleaved=%d-%d"
        return filled_in(text, pair)

    def of_server(self, what):
        """What the server sends at once."""
        players = list(self.gateway.connections.values())
        if what == "frame down":
            own = [2 * track.shared + half for player in players for track in player.tracks for half in (0, 1)]
            return self.frame(self.one(own) if own and self.seldom(0.8) else self.random.randrange(256))
        if what == "reply" and self.gateway.loans:
            number = self.one(sorted(self.gateway.loans))
            return self.reply(self.gateway.connections[self.gateway.loans[number]])
        return self.one(NOISE_DOWN) if what == "noise" else self.notify(players)

    def reply(self, player):
        """A reply to the open request of a player."""
        asked, fields, session = player.asked, [], player.at(player.asked.place)
        code = self.one(CODES) if self.seldom(self.errors) else 200
        if asked.track:
            fields = self.grant(player)
        elif self.seldom(0.4):
            fields = [(b"Session", (session.id if session else b"a") + self.one(TIMEOUTS))]
        if asked.method in (b"PLAY", b"PAUSE") and self.seldom(0.6):
            fields.append((b"Range", self.one(BAD_RANGES) if self.seldom(0.1) else self.one(RANGES)))
        if asked.method in (b"PLAY", b"PAUSE") and self.seldom(0.5):
            fields += [(b"RTP-Info", self.one(INFOS)), (b"Scale", self.one(SCALES))]
        if asked.method == b"DESCRIBE" and self.seldom(0.5):
            fields.append((b"Content-Base", b"rtsp://media.example/m/"))
        if asked.method in (b"DESCRIBE", b"GET_PARAMETER") and self.seldom(0.1):
            fields.append((b"Content-Encoding", b"gzip"))
        if code == 551 and self.seldom(0.8):
            fields.append((b"Unsupported", self.one((b"x, y", b""))))
        body = self.body() if asked.method in (b"DESCRIBE", b"GET_PARAMETER") or self.odd(0.02) else b""
        first = b"RTSP/2.0 %d" % code + self.one((b"", b" ", b" OK", b" OK", b"  x y"))
        return self.message(first, b"%d" % asked.number, fields, body)

    def grant(self, player):
        """Session and Transport of a reply to SETUP."""
        channels = 2 * player.asked.track.shared, 2 * player.asked.track.shared + 1
        named = player.at(player.asked.place)
        text, session = self.one(GRANTS), named.id if named else self.new_id()
        is_wrong = self.seldom(self.spoils if player.is_alive else 0.2)
        wrong = self.one(("transport", "pair", "id", "id", "both")) if is_wrong else ""
        if wrong == "pair":
            first, second = channels
            channels = self.one(((second, first), (first, first + 2), (first, second + 2), (first + 2, second),
                                 (first + 2, second + 2)))
        if wrong in ("transport", "both"):
            text = self.one(BAD_GRANTS + (None,))
        if wrong in ("id", "both"):
            session = self.one((b"other", *self.taken()) if self.seldom(0.8) else BAD_IDS + (None, *self.ids[-3:]))
        return [(b"Transport", filled_in(text, channels) if text else text),
                (b"Session", session + self.one(TIMEOUTS) if session else session)]

    def taken(self):
        """The ids of sessions."""
        return [session.id for player in self.gateway.connections.values() for session in player.sessions]

    def new_id(self):
        """The id of a new session, which may have been another's before, and seldom still is."""
        if self.taken() and self.seldom(self.spoils):
            return self.one(self.taken())
        free = [one for one in self.ids if self.gateway.holder(one) is None]
        if free and self.seldom(0.3):
            return self.one(free)
        self.ids.append(b"s%07d" % len(self.ids))
        return self.ids[-1]

    def notify(self, players):
        """A request of the server, most often the end of the PLAY that runs."""
        sessions = [session for player in players for session in player.sessions]
        running = [session for session in sessions if session.running]
        session = self.one(running if running and self.seldom(0.8) else sessions or [None])
        name = session.id if session and self.seldom(0.9) else self.one(BAD_IDS + (None, *self.ids[-3:]))
        number = session.running if session and session.running and self.seldom(0.8) else \
            self.random.randrange(self.gateway.issued + 2)
        method = self.one((b"REDIRECT", b"play_notify", b"TEARDOWN")) if self.seldom(0.03) else b"PLAY_NOTIFY"
        status = self.one(STATUSES[:3] if self.seldom(0.8) else STATUSES) % number if self.seldom(0.8) else None
        first = method + self.one((b" rtsp://media.example/m", b" *")) + b" RTSP/2.0"
        reason = None if self.seldom(0.03) else self.one(REASONS)
        return self.message(first, self.one((b"1", b"007", b"42")), [
            (b"Session", name), (b"Notify-Reason", reason), (b"Request-Status", status)])
