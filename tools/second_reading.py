"""A second reading of docs/FORMATS.md: the records that a transcript's events must give.

It shares nothing with the program, so `tools/compare` can hold the two against each other. It is no part of the
program and nothing is proved of it; where the two differ, one of them reads the document wrongly.
"""
from second_bytes import (FRONT, METHODS, NOTIFY_REASONS, PUBLIC, REASONS, TOKEN, UP, Stream, granted, info_of, message,
                          named_number, parts_of, range_of, reply, rewrite, scale_of, session_of, swap, told_code,
                          transport, trim, wanted)
from second_state import Connection, Open, Play, Session, Track

MOST_PAIRS, MOST_TRACKS, MOST_PLAYS, MOST_NUMBERS = 128, 8, 8, 999_999_999

ACCEPT_RANGES = b"npt, smpte, smpte-30-drop, smpte-25, clock"
ANSWERS = {**REASONS, 465: b"Notification Reason Unknown"}
UPWARD_BODIES = (b"GET_PARAMETER", b"SET_PARAMETER")
ANYWHERE = (b"OPTIONS", b"DESCRIBE", b"GET_PARAMETER", b"SET_PARAMETER")
NEXT = {("Init", b"SETUP"): "Ready", ("Ready", b"SETUP"): "Ready", ("Ready", b"PLAY"): "Playing",
        ("Playing", b"PLAY"): "Playing", ("Playing", b"PAUSE"): "Ready", ("Ready", b"TEARDOWN"): "Init",
        ("Playing", b"TEARDOWN"): "Init"}
WHY_ENDED = {b"E": b"Ended", b"R": b"ReadFault", b"W": b"WriteFault", b"Q": b"UpFull"}


class Breach(Exception):
    """Why the connection to the server ends."""


class Gateway:
    """A gateway between FRONT and UP; `records` has what it hands out, as (kind, connection, body)."""

    def __init__(self):
        self.connections, self.server, self.loans = {}, Stream(), {}
        self.held, self.issued, self.is_over, self.records = set(), 0, False, []

    def take(self, kind, number, body=b""):
        """Takes an entry of a transcript."""
        if kind == b"O":
            self.connections[number] = Connection(not self.is_over)
        elif kind == b"A":
            for item in self.connections[number].stream.feed(body):
                self.event(self.take_item, number, item)
        elif kind == b"U":
            for item in self.server.feed(body):
                self.event(self.hear, item)
        elif kind == b"Z":
            self.event(self.fail, WHY_ENDED[body])
        else:
            self.event(self.close, number, kind)

    def event(self, what, *of):
        """Takes an event, and records what it hands out."""
        if self.is_over:
            return
        alive = [number for number, player in sorted(self.connections.items()) if player.is_alive]
        try:
            number, hand, up, closed = what(*of)
        except Breach as breach:
            self.is_over = True
            for number in alive:
                self.connections[number].is_alive = False
            self.records += [(b"C", number, b"U") for number in alive] + [(b"F", 0, breach.args[0])]
            return
        told = [(b"T", number, hand), (b"Y", 0, up), (b"C", number, closed)]
        self.records += [record for record in told if record[2]]

    def fail(self, cause):
        raise Breach(cause)

    def take_item(self, number, item):
        """An item of a client: the connection, bytes for it, bytes for the server, and why it is closed."""
        player = self.connections[number]
        if not player.is_alive:
            return number, b"", b"", b""
        if item[0] == "bad":
            return self.close(number, b"B")
        if item[0] == "frame":
            return number, b"", frame_up(player, item[1]), b""
        if not item[1].is_request:
            return number, b"", b"", b""
        player.waiting.append(item)
        return number, *self.go_on(number), b""

    def close(self, number, why):
        player = self.connections[number]
        if not player.is_alive:
            return number, b"", b"", b""
        player.is_alive, player.waiting = False, []
        for session in player.sessions:
            session.plays = []
        return number, *self.go_on(number), why

    def go_on(self, number):
        """What comes next, where no request is open: bytes for the player, and bytes for the server."""
        player, hand = self.connections[number], b""
        while player.asked is None:
            if not player.is_alive:
                place = player.lowest(lambda session: session is not None)
                return hand, b"" if place is None else self.tear_down(number, place)
            place = player.lowest(lambda session: session and session.plays and session.running is None)
            if place is not None:
                return hand, self.release(number, place)
            if not player.waiting:
                break
            answer, up = self.treat(number, *player.waiting.pop(0)[1:])
            hand += answer
            if up:
                return hand, up
        return hand, b""

    def send(self, number, asked, headers=(), body=b""):
        """Sends a request up, with the shared number and the headers that it has besides Session."""
        if self.issued == MOST_NUMBERS:
            raise Breach(b"CseqSpent")
        player = self.connections[number]
        self.issued += 1
        self.loans[self.issued] = number
        asked.number, player.asked = self.issued, asked
        session = player.at(asked.place)
        method = b"SET_PARAMETER" if asked.method == b"OPTIONS" else asked.method
        named = (b"Session", session.id if session else None)
        return message(method + b" " + asked.uri + b" RTSP/2.0", self.issued, [named, *headers], body)

    def tear_down(self, number, place):
        """Sends the closing TEARDOWN of a session."""
        session = self.connections[number].at(place)
        return self.send(number, Open("closing", b"TEARDOWN", session.control, place))

    def release(self, number, place):
        """Sends the first PLAY that waits in a session."""
        play = self.connections[number].at(place).plays.pop(0)
        asked = Open("released", b"PLAY", play.uri, place)
        return self.send(number, asked, [(b"Range", play.range), (b"Scale", play.scale)])

    def treat(self, number, head, body):
        """A request: an answer, or what goes up."""
        player, cseq = self.connections[number], head.number(19)
        read = session_of(head.field(b"Session"))
        place = player.find(read[0]) if read else None
        session = player.at(place)
        about = session.control if session else player.described
        uri = about or b"*" if head.uri == b"*" else swap(FRONT, UP, head.uri)
        code, headers = refusal_of(head, cseq, player, session, uri, len(self.held))
        if code is None:
            code, headers = answer_of(head, session, uri)
        if code is not None:
            return reply(code, cseq, headers), b""
        asked = Open("player", head.method, uri, place, cseq=cseq)
        if head.method == b"SETUP":
            shared = min(set(range(MOST_PAIRS)) - self.held)
            self.held.add(shared)
            asked.track = Track(uri, player.pair_for(wanted(head.field(b"Transport"))), shared)
        body = body if head.method in UPWARD_BODIES else b""
        return b"", self.send(number, asked, headers_up(head, asked, body), body)

    def hear(self, item):
        """An item of the server."""
        if item[0] == "frame":
            return self.frame_down(item[1])
        if item[0] == "bad":
            raise Breach(b"Framing " + item[1].encode())
        _, head, body = item
        number = head.number(9)
        if head.version != b"RTSP/2.0":
            raise Breach(b"Framing Version")
        if number is None:
            raise Breach(b"Framing Cseq")
        if head.is_request:
            return self.notice(head, number)
        if number not in self.loans:
            raise Breach(b"UnknownReply %d" % number)
        if head.code < 200:
            return 0, b"", b"", b""
        return self.settle(self.loans[number], head, body)

    def frame_down(self, frame):
        """A frame of the server, under the player's channel."""
        shared, half = divmod(frame[1], 2)
        for number, player in self.connections.items():
            for track in player.tracks:
                if track.shared == shared and player.is_alive:
                    return number, frame[:1] + bytes([track.pair[half]]) + frame[2:], b"", b""
        return 0, b"", b"", b""

    def holder(self, name):
        """The connection of a session, and the session; or nothing."""
        return next(((number, session) for number, player in self.connections.items()
                     for session in player.sessions if session.id == name), None)

    def notice(self, head, number):
        """A request of the server: its answer, and what it leads to."""
        read, reason = session_of(head.field(b"Session")), head.field(b"Notify-Reason")
        holder = self.holder(read[0]) if read else None
        rules = ((head.method != b"PLAY_NOTIFY", 501), (holder is None, 454), (reason is None, 400),
                 (reason is not None and reason.lower() not in NOTIFY_REASONS, 465))
        code = next((code for applies, code in rules if applies), 200)
        answer = message(b"RTSP/2.0 %d %s" % (code, ANSWERS[code]), number,
                         [(b"Session", read[0] if code == 200 else None)])
        if code != 200 or reason.lower() != b"end-of-stream":
            return 0, b"", answer, b""
        (number, session), named = holder, named_number(head.field(b"Request-Status"))
        if session.running is None or named not in (None, session.running):
            return 0, b"", answer, b""
        session.running = None
        session.state = session.state if session.plays else "Ready"
        hand, up = self.go_on(number)
        return number, hand, answer + up, b""

    def settle(self, number, head, body):
        """A final reply to the open request of a connection."""
        player = self.connections[number]
        asked, is_success = player.asked, 200 <= head.code <= 299
        grant = self.grant_of(number, head) if asked.track and is_success else None
        is_told = player.is_alive and asked.why == "player"
        hand = reply_down(asked, player.at(asked.place), grant, head, body) if is_told else b""
        del self.loans[asked.number]
        player.asked = None
        self.change(player, asked, is_success, grant)
        more, up = self.go_on(number)
        return number, hand + more, up, b""

    def grant_of(self, number, head):
        """The session's id, its timeout and the source that a success of SETUP grants."""
        asked = self.connections[number].asked
        named, shared = self.connections[number].at(asked.place), asked.track.shared
        session, grant = session_of(head.field(b"Session")), granted(head.field(b"Transport"))
        if not session or not grant or grant[0] != (2 * shared, 2 * shared + 1) or (named and named.id != session[0]):
            raise Breach(b"BadGrant %d" % asked.number)
        if named is None and self.holder(session[0]) is not None:
            raise Breach(b"SessionTaken %d" % asked.number)
        return session[0], session[1], grant[1]

    def change(self, player, asked, is_success, grant):
        """What a final reply changes."""
        session = player.at(asked.place)
        if grant and session is None:
            session = Session(grant[0], player.described or asked.uri)
            player.places[player.lowest(lambda one: one is None)] = session
        if is_success and session:
            session.state = NEXT.get((session.state, asked.method), session.state)
        if asked.why == "closing" or (asked.method == b"TEARDOWN" and is_success):
            self.held -= {track.shared for track in session.tracks}
            player.ended(asked.place)
        elif asked.method == b"SETUP" and is_success:
            session.tracks.append(asked.track)
        elif asked.method == b"SETUP":
            self.held.remove(asked.track.shared)
        elif asked.method == b"DESCRIBE" and is_success:
            player.described = asked.uri
        elif asked.method == b"PLAY" and is_success:
            session.running, session.control = asked.number, asked.uri
        elif asked.method == b"PAUSE" and is_success:
            session.running, session.plays = None, []
        elif asked.why == "released":
            session.stopped()


def frame_up(player, frame):
    """A client's frame under the shared channel, or nothing."""
    for track in player.tracks:
        if frame[1] in track.pair:
            return frame[:1] + bytes([2 * track.shared + track.pair.index(frame[1])]) + frame[2:]
    return b""


def refusal_of(head, cseq, player, session, uri, held):
    """The code of the first rule that refuses a request for a session or none, and the headers of the refusal."""
    method, named, said = head.method, head.field(b"Session"), head.field(b"Range")
    required = head.field(b"Require") or head.field(b"Proxy-Require")
    may_ask_all = method in (b"OPTIONS", b"GET_PARAMETER", b"SET_PARAMETER")
    of_streams, is_setup = method in (b"PLAY", b"PAUSE", b"TEARDOWN"), method == b"SETUP"
    state, tracks = (session.state, session.tracks) if session else ("Init", [])
    is_track = any(track.uri == uri for track in tracks)
    is_full = session is None and None not in player.places
    pair = player.pair_for(wanted(head.field(b"Transport")))
    rules = (
        (not TOKEN.fullmatch(method), 400), (head.version != b"RTSP/1.0", 505), (cseq is None, 400),
        (method not in METHODS, 501), (bool(required), 551),
        (parts_of(head.uri) is None and not (head.uri == b"*" and may_ask_all), 400),
        (session is None and (named is not None or of_streams), 454),
        (method not in ANYWHERE and (state, method) not in NEXT, 455), (is_setup and (is_full or is_track), 455),
        (of_streams and is_track and len(tracks) >= 2, 460), (is_setup and pair is None, 461),
        (method == b"PLAY" and said is not None and range_of(said) is None, 457),
        (method == b"PAUSE" and said is not None, 457), (is_setup and held == MOST_PAIRS, 453),
        (is_setup and len(tracks) == MOST_TRACKS, 503),
        (method == b"PLAY" and said is not None and state == "Playing" and len(session.plays) == MOST_PLAYS, 503),
    )
    code = next((code for applies, code in rules if applies), None)
    return code, [(b"Unsupported", required)] if code == 551 else []


def answer_of(head, session, uri):
    """The gateway's own answer to a request that passes, or nothing where it goes up. A PLAY may wait then."""
    if head.method == b"OPTIONS" and head.field(b"Session") is None:
        return 200, [(b"Public", PUBLIC)]
    if head.method != b"PLAY" or session.state != "Playing":
        return None, []
    span = range_of(head.field(b"Range"))
    if span is not None:
        session.plays.append(Play(uri, span, scale_of(head.field(b"Scale"))))
    return 200, [(b"Session", session.id), (b"Range", span)]


def headers_up(head, asked, body):
    """The headers of a player's request as it goes up, behind Session."""
    is_described, is_play, track = asked.method == b"DESCRIBE", asked.method == b"PLAY", asked.track
    return [
        (b"Accept", head.field(b"Accept") if is_described else None),
        (b"Transport", transport((2 * track.shared, 2 * track.shared + 1)) if track else None),
        (b"Accept-Ranges", ACCEPT_RANGES if track else None),
        (b"Range", range_of(head.field(b"Range")) if is_play else None),
        (b"Scale", scale_of(head.field(b"Scale")) if is_play else None),
        (b"Content-Type", head.field(b"Content-Type") if body else None),
        (b"Content-Encoding", head.field(b"Content-Encoding") if body else None),
    ]


def session_down(asked, session, grant):
    """The Session field of a success."""
    if grant:
        return grant[0] + (b"" if grant[1] is None else b";timeout=%d" % grant[1])
    return session.id if session and asked.method != b"TEARDOWN" else None


def reply_down(asked, session, grant, head, body):
    """The server's reply as its player gets it."""
    if not 200 <= head.code <= 299:
        return reply(told_code(head.code), asked.cseq,
                     [(b"Unsupported", head.field(b"Unsupported") if head.code == 551 else None)])
    method, is_described = asked.method, asked.method == b"DESCRIBE"
    body = body if is_described or method == b"GET_PARAMETER" else b""
    base, kind, encoding = (head.field(name) if body else None
                            for name in (b"Content-Base", b"Content-Type", b"Content-Encoding"))
    if is_described and encoding is None and trim((kind or b"").split(b";")[0]).lower() == b"application/sdp":
        body = rewrite(body)
    is_play = method == b"PLAY"
    return reply(200, asked.cseq, [
        (b"Session", session_down(asked, session, grant)),
        (b"Transport", transport(asked.track.pair, grant[2]) if grant else None),
        (b"Range", range_of(head.field(b"Range")) if method in (b"PLAY", b"PAUSE") else None),
        (b"Scale", scale_of(head.field(b"Scale")) if is_play else None),
        (b"RTP-Info", info_of(head.field(b"RTP-Info")) if is_play else None),
        (b"Public", PUBLIC if method == b"OPTIONS" else None),
        (b"Content-Base", swap(UP, FRONT, base) if base is not None and is_described else None),
        (b"Content-Type", kind), (b"Content-Encoding", encoding),
    ], body)
