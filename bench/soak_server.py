"""A server of RTSP 2.0 for bench/soak: strict with what it is asked, and quick, late or slow by its mood.

It prints nothing and has no exit status. A stream's path says what is to come, `/NAME.FRAMES.SIZE`: so many frames of so
many bytes on each track, each of which carries its stream's name, its track and its number.
"""
import asyncio
import errno
import pathlib
import re
import socket
import sys
from dataclasses import dataclass, field

TOP = pathlib.Path(__file__).resolve().parent.parent
sys.path.insert(0, str(TOP / "tools"))
from interleaved import Frame, StrictItems, framed, written  # noqa: E402
from sockets import HOST  # noqa: E402

MOODS = ("quick", "late", "slow", "late and slow")
LATEST_SECONDS, SLOW_RATE, RECEIVE_ROOM = 0.3, 4_000_000, 131_072
BATCH_BYTES, BATCH_SECONDS = 30_000, 0.005
PATH = re.compile(r"rtsp://[^/]+/(?P<name>[a-z0-9]+)\.(?P<frames>\d+)\.(?P<size>\d+)(/track(?P<track>\d))?/?")
PAIR = re.compile(r"interleaved=(\d+)-(\d+)")


class Wrong(Exception):
    """What a player or the server should not have got."""


def payload(name, track, number, size):
    """What a frame carries."""
    return (b"%s %d %06d " % (name.encode(), track, number)).ljust(size - 4, b".")


@dataclass
class Session:
    """A session: its stream, its tracks with their channels, what plays them, and how many frames its player sent."""
    name: str
    frames: int
    size: int
    channels: list = field(default_factory=list)
    tasks: list = field(default_factory=list)
    reports: int = 0


class Server:
    """Serves one connection. `wrong` has what it was asked and should not have been."""

    def __init__(self, random, mood):
        self.random, self.is_late, self.is_slow = random, "late" in mood, "slow" in mood
        self.sessions, self.of_channel, self.last, self.made = {}, {}, 0, 0
        self.requests, self.strays, self.frames, self.wrong = 0, 0, 0, []
        self.writer, self.came, self.is_closed = None, asyncio.Event(), False

    async def start(self):
        """Listens; its URL."""
        door = socket.socket()
        door.setsockopt(socket.SOL_SOCKET, socket.SO_RCVBUF, RECEIVE_ROOM)
        door.bind((HOST, 0))
        self.listener = await asyncio.start_server(self.serve, sock=door)
        return "rtsp://%s:%d" % door.getsockname()

    async def serve(self, reader, writer):
        """Serves the gateway until its end."""
        self.writer, items = writer, StrictItems()
        self.came.set()
        try:
            while piece := await reader.read(65_536):
                for item in items.feed(piece):
                    self.take(item)
                if self.is_slow:
                    await asyncio.sleep(len(piece) / SLOW_RATE)
        except (ConnectionError, asyncio.CancelledError):
            pass
        except Exception as fault:
            self.wrong.append("the server was sent what it can't read: %r" % fault)
        self.is_closed = True
        self.stop_all()
        writer.close()

    def take(self, item):
        """Takes a frame, a request or an answer."""
        if isinstance(item, Frame):
            session = self.of_channel.get(item.channel - 1)
            self.strays += session is None
            if session:
                session.reports += 1
        elif item.method:
            self.take_request(item)

    def take_request(self, request):
        """Looks whether a request may come, and answers it now or later."""
        self.requests += 1
        number = int(request.get("CSeq"))
        if number != self.last + 1:
            self.wrong.append("the server was asked CSeq %d behind %d" % (number, self.last))
        self.last = number
        if self.is_late:
            delay = self.random.uniform(0, LATEST_SECONDS)
            asyncio.get_running_loop().call_later(delay, self.answer, request)
        else:
            self.answer(request)

    def answer(self, request):
        """Answers a request, unless the connection is over."""
        treat = {"SETUP": self.setup, "PLAY": self.play, "TEARDOWN": self.teardown, "DESCRIBE": self.describe,
                 "GET_PARAMETER": self.count}.get(request.method)
        code, headers, body = 200, [("Session", request.get("Session"))], b""
        try:
            if request.get("Session") and request.get("Session") not in self.sessions:
                code = 454
            elif treat:
                more, body = treat(request)
                headers = headers[:not more] + more
        except Wrong as wrong:
            self.wrong.append(str(wrong))
            code = 400
        if not self.is_closed:
            self.writer.write(written("RTSP/2.0 %d So" % code, [("CSeq", request.get("CSeq")), *headers], body))

    def stream_of(self, request):
        """What a request's address says."""
        found = PATH.fullmatch(request.uri)
        if not found:
            raise Wrong("the server was asked for %s" % request.uri)
        return found

    def describe(self, request):
        """A description with the stream's name."""
        return [("Content-Type", "application/sdp")], b"v=0\r\ns=%s\r\n" % self.stream_of(request)["name"].encode()

    def setup(self, request):
        """Grants the channels that are asked for."""
        stream, pair = self.stream_of(request), PAIR.search(request.get("Transport"))
        channel, name = int(pair[1]), request.get("Session")
        if channel in self.of_channel:
            raise Wrong("the server was asked for channel %d, which is taken" % channel)
        if name is None:
            self.made += 1
            name = "soak%d" % self.made
            self.sessions[name] = Session(stream["name"], int(stream["frames"]), int(stream["size"]))
        session = self.sessions[name]
        session.channels.append(channel)
        self.of_channel[channel] = session
        return [("Session", name), ("Transport", request.get("Transport"))], b""

    def play(self, request):
        """Begins to play all tracks, behind the answer."""
        session = self.sessions[request.get("Session")]
        for track, channel in enumerate(session.channels):
            session.tasks.append(asyncio.get_running_loop().create_task(self.send(session, track, channel)))
        return [], b""

    async def send(self, session, track, channel):
        """Sends the frames of a track, as the connection takes them."""
        for number in range(session.frames):
            if self.is_closed:
                return
            self.writer.write(framed(Frame(channel, payload(session.name, track, number, session.size))))
            self.frames += 1
            if number % max(1, BATCH_BYTES // session.size) == 0:
                try:
                    await self.writer.drain()
                except ConnectionError:
                    return
                await asyncio.sleep(BATCH_SECONDS)

    def teardown(self, request):
        """Ends a session."""
        session = self.sessions.pop(request.get("Session"))
        for task in session.tasks:
            task.cancel()
        for channel in session.channels:
            del self.of_channel[channel]
        return [], b""

    def count(self, request):
        """How many frames came from a session's player."""
        session = self.sessions.get(request.get("Session"))
        if not session:
            return [], b""
        return [("Session", request.get("Session")), ("Content-Type", "text/parameters")], b"reports: %d\r\n" % session.reports

    def stop_all(self):
        """Plays no more."""
        for session in self.sessions.values():
            for task in session.tasks:
                task.cancel()

    def close(self, at_once):
        """Ends the connection; at once, as a server does that is killed, or behind all that was sent."""
        self.is_closed = True
        self.listener.close()
        self.stop_all()
        if at_once and self.writer:
            self.writer.transport.abort()
        elif self.writer and not self.writer.is_closing():
            try:
                self.writer.write_eof()
            except OSError as error:
                if error.errno != errno.ENOTCONN:
                    raise
