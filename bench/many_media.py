"""A server of RTSP 2.0 for several gateways, and a player of RTSP 1.0 that checks what it gets; for bench/many.

It prints nothing and has no exit status. Each frame carries the name of the stream that its session set up, and its
number in that session; a player asks for a stream of its own name, so it sees whether what comes is its own.
"""
import asyncio
import itertools
import pathlib
import sys

TOP = pathlib.Path(__file__).resolve().parent.parent
sys.path.insert(0, str(TOP / "tools"))
from interleaved import Frame, StrictItems, framed, written  # noqa: E402
from sockets import HOST  # noqa: E402

FRAMES, SIZE = 40, 1_400
SECONDS_BETWEEN_FRAMES = 0.005
WAIT_SECONDS = 30


class Wrong(Exception):
    """What a player or the server should not have got."""


def payload(name, number):
    """What a frame carries."""
    return (b"%s %06d " % (name.encode(), number)).ljust(SIZE, b".")


class Server:
    """Serves as many connections as come; `connections` and `requests` count them."""

    def __init__(self):
        self.connections, self.requests, self.open, self.numbers = 0, 0, {}, itertools.count(1)
        self.writers = []

    async def start(self):
        """Listens; the port."""
        self.listener = await asyncio.start_server(self.serve, HOST, 0)
        return self.listener.sockets[0].getsockname()[1]

    async def serve(self, reader, writer):
        """Serves one gateway."""
        self.connections += 1
        self.writers.append(writer)
        items = StrictItems()
        try:
            while piece := await reader.read(65_536):
                for item in items.feed(piece):
                    if not isinstance(item, Frame) and item.method:
                        self.answer(writer, item)
        except (ConnectionError, asyncio.CancelledError):
            pass
        writer.close()

    def answer(self, writer, request):
        """Answers with success. Behind the reply to PLAY its frames begin."""
        self.requests += 1
        headers = [("CSeq", request.get("CSeq")), ("Session", request.get("Session"))]
        if request.method == "SETUP":
            session = "many%d" % next(self.numbers)
            self.open[session] = request.uri.split("/")[3], int(request.get("Transport").partition("interleaved=")[2]
                                                                .partition("-")[0])
            headers[1:] = [("Session", session), ("Transport", request.get("Transport"))]
        if request.method == "TEARDOWN":
            del self.open[request.get("Session")]
        writer.write(written("RTSP/2.0 200 OK", headers))
        if request.method == "PLAY":
            asyncio.get_running_loop().create_task(self.play(writer, *self.open[request.get("Session")]))

    async def play(self, writer, name, channel):
        """Sends the frames of a session, as long as its gateway is there."""
        for number in range(FRAMES):
            writer.write(framed(Frame(channel, payload(name, number))))
            try:
                await writer.drain()
            except ConnectionError:
                return
            await asyncio.sleep(SECONDS_BETWEEN_FRAMES)

    def stop(self):
        """Closes all connections, with which the gateways end."""
        self.listener.close()
        for writer in self.writers:
            writer.close()


class Player:
    """A player with a stream of its own name; `frames` counts what came of it."""

    def __init__(self, number, front, port):
        self.name, self.front, self.port = "player%d" % number, front, port
        self.channel, self.cseq, self.frames, self.session = 2 * (number % 100), 1_000 * number, 0, None
        self.items, self.arrived = StrictItems(), []

    async def begin(self):
        """Connects, asks for OPTIONS, sets its stream up, and plays until all frames came."""
        self.reader, self.writer = await asyncio.open_connection(HOST, self.port)
        await self.ask("OPTIONS")
        reply = await self.ask("SETUP", "/1", [("Transport", "RTP/AVP/TCP;interleaved=%d-%d" % (
            self.channel, self.channel + 1))])
        self.session = reply.get("Session")
        if reply.get("Transport") != "RTP/AVP/TCP;unicast;interleaved=%d-%d" % (self.channel, self.channel + 1):
            raise Wrong("%s got the Transport %s" % (self.name, reply.get("Transport")))
        await self.ask("PLAY")
        while self.frames < FRAMES:
            item = await self.next_item()
            if item is not None:
                raise Wrong("%s got %s, which it did not ask for" % (self.name, item))

    async def end(self):
        """Asks once more, and leaves."""
        await self.ask("GET_PARAMETER")
        await self.ask("TEARDOWN")
        self.writer.close()
        await self.writer.wait_closed()

    async def ask(self, method, more="", headers=()):
        """The reply to a request, which must be a success with its own number."""
        self.cseq += 1
        uri = "%s/%s%s" % (self.front, self.name, more)
        self.writer.write(written("%s %s RTSP/1.0" % (method, uri), [
            ("CSeq", str(self.cseq)), ("Session", self.session), *headers]))
        reply = None
        while reply is None:
            reply = await self.next_item()
        if reply.code != 200 or reply.get("CSeq") != str(self.cseq):
            raise Wrong("%s got %s for %s with the CSeq %d" % (self.name, reply, method, self.cseq))
        return reply

    async def next_item(self):
        """The next message; None for a frame, which must be its own next one."""
        while not self.arrived:
            piece = await asyncio.wait_for(self.reader.read(65_536), WAIT_SECONDS)
            if not piece:
                raise Wrong("the connection of %s ended" % self.name)
            self.arrived += self.items.feed(piece)
        item = self.arrived.pop(0)
        if not isinstance(item, Frame):
            return item
        if item != Frame(self.channel, payload(self.name, self.frames)):
            raise Wrong("%s got a frame on channel %d that begins with %r" % (
                self.name, item.channel, item.payload[:24]))
        self.frames += 1
        return None
