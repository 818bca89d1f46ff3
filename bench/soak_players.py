"""Players of RTSP 1.0 for bench/soak, drawn from a seed: ordinary ones, which check all that they get, and others.

It prints nothing and has no exit status.
"""
import asyncio
import errno
import random
import socket
import time

from soak_server import Frame, StrictItems, Wrong, framed, payload, written
from sockets import HOST, RESETS

FRONT = "rtsp://gate.example"
# A reply and the next frame come within these seconds; the first reply waits for a station.
REPLY_SECONDS, STATION_SECONDS, END_SECONDS = 30, 90, 15
SILENT_SECONDS = 30
SIZES = (100, 1_400, 1_400, 8_000)
# What a player that takes nothing is sent, far more than the gateway and the sockets hold for it.
NOTHING_FRAMES, NOTHING_SIZE = 20_000, 1_400
# What one that reads slowly is sent, which the gateway holds for it.
SLOW_FRAMES, SLOW_RATE = 1_500, 2_000_000
MOST_POINTS, PIPELINED = 60, 40
BROKEN = (b"\0\1\2 no message\r\n\r\n", b"OPTIONS * RTSP/1.0\r\n\r\n", b"OPTIONS * RTSP/2.0\r\nCSeq: 1\r\n\r\n",
          b"OPTIONS * RTSP/1.0\r\nCSeq: 1\r\nX: " + b"x" * 9_000 + b"\r\n\r\n", b"OPTIONS * RTSP/1.0\r\nCSeq: x\r\n\r\n",
          b"SET_PARAMETER * RTSP/1.0\r\nCSeq: 1\r\nContent-Length: 99999999\r\n\r\n", b"$\0\xff\xff cut",
          b"RTSP/1.0 200 OK\r\n\r\n", b"OPTIONS", b"\r\n" * 5_000, b"FLY rtsp://gate.example/x RTSP/1.0\r\nCSeq: 1\r\n\r\n")


class Over(Exception):
    """The connection ended."""


class Vanish(Exception):
    """The player goes now."""


class Player:
    """A player; its name, and all that it does, is drawn from a seed and its number."""

    def __init__(self, soak, number):
        self.soak, self.number = soak, number
        self.random = random.Random("%s %d" % (soak.seed, number))
        self.kind = self.random.choices(list(KINDS), [weight for weight, _ in KINDS.values()])[0]
        self.name, self.cseq, self.session = "p%d" % number, self.random.randrange(900_000), None
        self.items, self.arrived, self.tracks, self.came = StrictItems(), [], [], []
        self.points, self.vanish_at, self.rate, self.is_first, self.writer = 0, None, None, True, None
        self.frames, self.size = self.random.randrange(1, 200), self.random.choice(SIZES)

    async def run(self):
        """All that it does."""
        await KINDS[self.kind][1](self)

    async def connect(self, receive_room=None):
        """Connects. From then on the transport owns the socket: it alone closes it, as `close` and `reset` ask it to."""
        one = socket.socket()
        try:
            if receive_room:
                one.setsockopt(socket.SOL_SOCKET, socket.SO_RCVBUF, receive_room)
            one.setblocking(False)
            await asyncio.get_running_loop().sock_connect(one, (HOST, self.soak.port))
        except BaseException:
            one.close()
            raise
        self.reader, self.writer = await asyncio.open_connection(sock=one)

    def point(self):
        """A point at which a player that is to vanish may do so."""
        self.points += 1
        if self.points == self.vanish_at:
            raise Vanish

    async def send(self, data):
        self.writer.write(data)
        await self.writer.drain()

    def request(self, method, more="", headers=(), body=b""):
        """The bytes of its next request."""
        self.cseq += 1
        uri = "%s/%s.%d.%d%s" % (FRONT, self.name, self.frames, self.size, more)
        common = [("CSeq", str(self.cseq)), ("Session", self.session)]
        return written("%s %s RTSP/1.0" % (method, uri), common + list(headers), body)

    async def ask(self, method, *more):
        """The reply to a request, which must be a success."""
        self.point()
        begin = time.monotonic()
        await self.send(self.request(method, *more))
        self.point()
        reply = await self.reply_to(method, self.cseq)
        if not self.is_first:
            self.soak.longest = max(self.soak.longest, time.monotonic() - begin)
        self.is_first = False
        return reply

    async def reply_to(self, method, number, codes=(200, 453)):
        """The next reply, which must have this number."""
        reply = None
        while reply is None:
            reply = await self.next_item(STATION_SECONDS if self.is_first else REPLY_SECONDS)
        if reply.code not in codes or reply.get("CSeq") != str(number) or reply.code == 453 and method != "SETUP":
            raise Wrong("got %s for %s with the CSeq %d" % (reply, method, number))
        return reply

    async def receive(self, seconds):
        """Takes what comes within so many seconds; Over at the end."""
        try:
            piece = await asyncio.wait_for(self.reader.read(65_536), seconds)
        except asyncio.TimeoutError:
            raise Wrong("nothing came for %d seconds, behind %d requests and %s frames" % (seconds, self.cseq, self.came))
        if not piece:
            raise Over
        self.arrived += self.items.feed(piece)
        if self.rate:
            await asyncio.sleep(len(piece) / self.rate)

    async def next_item(self, seconds=REPLY_SECONDS):
        """The next message; None for a frame, which must be the next one of its track."""
        while not self.arrived:
            await self.receive(seconds)
        item = self.arrived.pop(0)
        if not isinstance(item, Frame):
            return item
        if item.channel not in self.tracks:
            raise Wrong("got a frame on channel %d" % item.channel)
        track = self.tracks.index(item.channel)
        if item.payload != payload(self.name, track, self.came[track], self.size):
            raise Wrong("got a frame that begins with %r, where its number %d should be" % (item.payload[:24], self.came[track]))
        self.came[track] += 1
        return None

    async def set_up(self):
        """Sets its tracks up; False where no channels were free."""
        first = 4 * self.random.randrange(60)
        for track in range(1 + (self.random.random() < 0.3)):
            pair = "RTP/AVP/TCP;unicast;interleaved=%d-%d" % (first + 2 * track, first + 2 * track + 1)
            reply = await self.ask("SETUP", "/track%d" % track, [("Transport", pair)])
            if reply.code == 453:
                self.soak.counts["refused for channels"] += 1
                break
            if reply.get("Transport") != pair:
                raise Wrong("got the Transport %s" % reply.get("Transport"))
            self.session = reply.get("Session").partition(";")[0]
            self.tracks.append(first + 2 * track)
            self.came.append(0)
        return bool(self.tracks)

    async def take_frames(self):
        """Takes all frames of its tracks."""
        while min(self.came) < self.frames:
            if await self.next_item():
                raise Wrong("got a message that it did not ask for")
            if sum(self.came) % 10 == 0:
                self.point()

    async def watch(self):
        """An ordinary session, to its end."""
        await self.ask("OPTIONS")
        reply = await self.ask("DESCRIBE")
        if reply.body != b"v=0\r\ns=%s\r\n" % self.name.encode():
            raise Wrong("got the description %r" % reply.body)
        if await self.set_up():
            await self.ask("PLAY")
            reports = self.random.randrange(8)
            for _ in range(reports):
                await self.send(framed(Frame(self.tracks[0] + 1, b"report")))
            await self.take_frames()
            reply = await self.ask("GET_PARAMETER", "", [("Content-Type", "text/parameters")], b"reports\r\n")
            if reply.body != b"reports: %d\r\n" % reports:
                raise Wrong("sent %d reports, and the server has %r" % (reports, reply.body))
            await self.ask("TEARDOWN")
        self.soak.counts["frames"] += sum(self.came)
        await self.leave()

    async def leave(self):
        """Ends its side, behind which only the end may come."""
        self.end_side()
        try:
            while True:
                if await self.next_item(END_SECONDS):
                    raise Wrong("got a message behind the last reply")
        except Over:
            pass

    def end_side(self):
        """Ends its side; Over where the connection is gone, which its transport may not have noticed."""
        try:
            self.writer.write_eof()
        except OSError as error:
            if error.errno != errno.ENOTCONN:
                raise
            raise Over

    def reset(self):
        """Is gone. Where the other side was gone first, the transport has closed the socket, or is about to."""
        if not self.writer.transport.is_closing():
            self.writer.get_extra_info("socket").setsockopt(socket.SOL_SOCKET, socket.SO_LINGER, RESETS)
        self.writer.transport.abort()

    def close(self):
        """Closes its connection, where it has one that is not closed yet."""
        if self.writer:
            self.writer.close()

    async def drop_all(self, seconds):
        """Reads until the end."""
        end = time.monotonic() + seconds
        while await asyncio.wait_for(self.reader.read(65_536), max(0.001, end - time.monotonic())):
            pass


async def ordinary(player):
    """It does all that a player does, and checks all that it gets."""
    await player.connect()
    await player.watch()


async def slow(player):
    """The same, but it reads slowly; what waits for it meanwhile is no reason to close it."""
    player.frames, player.size, player.rate = SLOW_FRAMES, 1_400, SLOW_RATE
    await player.connect()
    await player.watch()


async def pipelining(player):
    """It asks many things in pieces that are cut anywhere, and gets all replies in order."""
    await player.connect()
    methods = [player.random.choice(("OPTIONS", "DESCRIBE", "GET_PARAMETER")) for _ in range(PIPELINED)]
    first, data = player.cseq + 1, b"".join(player.request(method) for method in methods)
    cut = player.random.randrange(len(data))
    await player.send(data[:cut])
    await asyncio.sleep(player.random.uniform(0, 0.1))
    await player.send(data[cut:])
    for place, method in enumerate(methods):
        reply = await player.reply_to(method, first + place)
        player.is_first = False
        if method == "DESCRIBE" and reply.body != b"v=0\r\ns=%s\r\n" % player.name.encode():
            raise Wrong("got the description %r" % reply.body)
    await player.leave()


async def vanishing(player):
    """It goes at any point: it ends its side, it is gone, or it is silent for a time and then gone."""
    player.vanish_at, how = player.random.randrange(1, MOST_POINTS), player.random.choice(("ends", "gone", "silent"))
    await player.connect()
    try:
        await player.watch()
        return
    except Vanish:
        pass
    if player.random.random() < 0.3:
        data = player.request("OPTIONS")
        await player.send(data[:player.random.randrange(len(data))])
    if how == "ends":
        player.end_side()
        await player.drop_all(STATION_SECONDS if player.is_first else END_SECONDS)
        return
    if how == "silent":
        await asyncio.sleep(player.random.uniform(0, 3))
    player.reset()


async def flooding(player):
    """It sends frames as fast as they are taken, and is served to its end all the same."""
    player.frames = 10
    await player.connect()
    if not await player.set_up():
        return player.reset()
    await player.ask("PLAY")
    data = framed(Frame(player.tracks[0] + 1, bytes(1_396))) * 16
    end = time.monotonic() + player.random.uniform(0.5, 3)
    while time.monotonic() < end:
        await player.send(data)
        player.soak.counts["flooded bytes"] += len(data)
    await player.take_frames()
    player.is_first = True
    await player.ask("TEARDOWN")
    await player.leave()


async def taking_nothing(player):
    """It takes nothing of a long stream, and is closed; its session is torn down."""
    player.frames, player.size = NOTHING_FRAMES, NOTHING_SIZE
    await player.connect(4_096)
    if not await player.set_up():
        return player.reset()
    await player.ask("PLAY")
    end = time.monotonic() + STATION_SECONDS
    while any(session.name == player.name for session in player.soak.server.sessions.values()) and not player.soak.is_ending:
        if time.monotonic() > end:
            raise Wrong("took nothing, and was not closed")
        await asyncio.sleep(0.05)
    player.reset()


async def breaking(player):
    """It sends what is no request, or none that it may send."""
    await player.connect()
    if player.random.random() < 0.5:
        await player.ask("OPTIONS")
    await player.send(player.random.choice(BROKEN))
    try:
        await player.drop_all(player.random.uniform(0, 2))
    except asyncio.TimeoutError:
        pass
    player.reset()


async def silent(player):
    """It says nothing, and is let go."""
    await player.connect()
    begin = time.monotonic()
    try:
        await player.drop_all(STATION_SECONDS + SILENT_SECONDS)
    except asyncio.TimeoutError:
        raise Wrong("said nothing, and was not let go")
    if time.monotonic() < begin + SILENT_SECONDS - 5 and not player.soak.is_ending:
        raise Wrong("was let go after %.1f seconds" % (time.monotonic() - begin))


# How often each kind comes, of all these together.
KINDS = {"ordinary": (600, ordinary), "slow": (30, slow), "pipelining": (80, pipelining), "vanishing": (200, vanishing),
         "flooding": (15, flooding), "taking nothing": (15, taking_nothing), "breaking": (80, breaking), "silent": (3, silent)}
