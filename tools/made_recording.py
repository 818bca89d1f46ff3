"""A recording with known counts, for tools/check_tools: players that set up, play two ranges, get frames and leave.

It prints nothing and has no exit status. What `report` must say of it is reckoned here and not read from the recording.
"""
from recording import MAGIC, spelled

PAYLOAD = bytes(36)
FRAME_SIZE = 4 + len(PAYLOAD)
BEFORE, BEHIND = 9, 3
METHODS = {"PLAY": 2, "SETUP": 1, "TEARDOWN": 1}


def request(method, cseq, more=""):
    """The bytes of a player's request."""
    uri = "rtsp://gate.example/live" + ("/1" if method == "SETUP" else "")
    return ("%s %s RTSP/1.0\r\nCSeq: %d\r\n%s\r\n" % (method, uri, cseq, more)).encode()


def reply(number, more=""):
    """The bytes of a success of the server."""
    return ("RTSP/2.0 200 OK\r\nCSeq: %d\r\n%s\r\n" % (number, more)).encode()


class Made:
    """A recording that is made of so many entries, with so many players side by side; and what was put into it."""

    def __init__(self, players, entries):
        self.players, self.parts, self.number = players, [MAGIC], 0
        self.frames = [0] * players
        for player in range(players):
            self.begin(player)
        left = entries - players * (BEFORE + BEHIND)
        for at in range(left):
            self.frame(at % players)
        for player in range(players):
            self.end(player)
        self.data = b"".join(self.parts)

    def add(self, kind, connection, body=b""):
        """Adds an entry."""
        self.parts.append(spelled(kind, connection, body))

    def answer(self, more=""):
        """The server answers the next request that went up."""
        self.number += 1
        self.add(b"U", 0, reply(self.number, more))

    def begin(self, player):
        """A player enters, sets up, plays a range, and a second one that waits for the first."""
        session = "Session: session%d\r\n" % player
        transport = "Transport: RTP/AVP/TCP;unicast;interleaved=%d-%d\r\n"
        self.add(b"O", player)
        self.add(b"A", player, request("SETUP", 1, transport % (0, 1)))
        self.answer(session + transport % (2 * player, 2 * player + 1))
        self.add(b"A", player, request("PLAY", 2, session + "Range: npt=0-10\r\n"))
        self.answer(session)
        self.add(b"A", player, request("PLAY", 3, session + "Range: npt=10-20\r\n"))
        self.add(b"U", 0, b"PLAY_NOTIFY rtsp://media.example/live RTSP/2.0\r\nCSeq: 1\r\n" + session.encode()
                 + b"Notify-Reason: end-of-stream\r\n\r\n")
        self.answer(session)
        self.add(b"A", player, b"$\1\0\0")

    def frame(self, player):
        """The server sends a frame to a player."""
        self.frames[player] += 1
        self.add(b"U", 0, b"$" + bytes([2 * player]) + len(PAYLOAD).to_bytes(2, "big") + PAYLOAD)

    def end(self, player):
        """A player tears its session down, and leaves."""
        self.add(b"A", player, request("TEARDOWN", 4, "Session: session%d\r\n" % player))
        self.answer()
        self.add(b"E", player)

    def report(self):
        """What `report` must say, by title and line."""
        said = {"conn %d" % player: {
            "requests": "PLAY 2, SETUP 1, TEARDOWN 1", "replies": "200 4", "waited": "PLAYs 1", "ended": "player left",
            "frames": frames_line(self.frames[player], 1)} for player in range(self.players)}
        said["server"] = {"requests": "PLAY_NOTIFY %d" % self.players, "ended": "still connected"}
        sums = {"requests": ", ".join("%s %d" % (name, count * self.players) for name, count in METHODS.items()),
                "replies": "200 %d" % (4 * self.players), "waited": "PLAYs %d" % self.players,
                "frames": frames_line(sum(self.frames), self.players), "ended": "player left %d" % self.players}
        return {**said, "all": sums}


def frames_line(down, up):
    """What a report says of so many frames each way."""
    return "down %s (%s bytes), up %s (%s bytes)" % tuple(
        format(count, ",") for count in (down, down * FRAME_SIZE, up, up * 4))
