"""A server, players and a run of `PROGRAM serve` over real sockets, and how a comparison is told; for tools/check_serve and
tools/check_stands."""
import socket
import subprocess
import threading
import time

from interleaved import Frame, StrictItems, written
from recording import pieces
from sockets import HOST, free_port, listener

STREAM = "/live"
WAIT_SECONDS = 20

# The names of comparisons that failed, and all runs.
failed, runs = [], []
# The name of the scene that a thread plays, where it has one.
playing = threading.local()


def check(name, is_right, found=""):
    """Prints how a comparison ended, and remembers it where it failed."""
    name = getattr(playing, "scene", "") + name
    print("%-6s %s%s" % ("ok" if is_right else "FAILED", name, "" if is_right else ": %s" % (found,)), flush=True)
    if not is_right:
        failed.append(name)


def end_runs():
    """Ends all runs that are left."""
    while runs:
        run = runs.pop()
        if run.poll() is None:
            run.kill()
            run.communicate()


class Server:
    """A server that answers each request at once, and grants what is asked for; what it was handed."""

    def __init__(self, port=0):
        self.door, self.heard, self.sessions, self.socket = listener(port), b"", 0, None
        self.url = "rtsp://%s:%d" % self.door.getsockname()
        self.sending, self.thread, self.is_over = threading.Lock(), None, False

    def start(self):
        """Waits for the gateway, and answers it from then on."""
        self.door.settimeout(WAIT_SECONDS)
        self.socket, _ = self.door.accept()
        self.thread = threading.Thread(target=self.serve, daemon=True)
        self.thread.start()

    def serve(self):
        items = StrictItems()
        for piece in iter(lambda: self.receive(), b""):
            self.heard += piece
            for item in items.feed(piece):
                if not isinstance(item, Frame) and item.method:
                    self.send(self.answer(item))

    def receive(self, size=65_536):
        """What came; nothing at the end, which may be this side's."""
        try:
            piece = self.socket.recv(size)
        except OSError:
            return b""
        return b"" if self.is_over else piece

    def send(self, data):
        with self.sending:
            try:
                self.socket.sendall(data)
            except OSError:
                pass

    def answer(self, request):
        """The bytes of a success."""
        headers = [("CSeq", request.get("CSeq")), ("Session", request.get("Session"))]
        if request.method == "SETUP":
            self.sessions += 1
            headers[1:] = [("Session", "session%d" % self.sessions), ("Transport", request.get("Transport"))]
        if request.method == "PLAY":
            headers += [("Range", "npt=0-"), ("RTP-Info", 'url="%s"' % request.uri)]
        return written("RTSP/2.0 200 OK", headers)

    def close(self):
        """Ends the connection, as a server does that is stopped. Its thread is done with the socket before that is closed."""
        self.is_over = True
        try:
            self.socket.shutdown(socket.SHUT_RDWR)
        finally:
            self.thread.join(WAIT_SECONDS)
            self.socket.close()


class Player:
    """A player, and all that it was handed."""

    def __init__(self, port, receive_room=None):
        self.socket = socket.socket()
        if receive_room:
            self.socket.setsockopt(socket.SOL_SOCKET, socket.SO_RCVBUF, receive_room)
        self.socket.settimeout(WAIT_SECONDS)
        self.socket.connect((HOST, port))
        self.number, self.heard, self.items, self.arrived = 0, b"", StrictItems(), []

    def ask(self, method, uri=STREAM, headers=()):
        """Sends a request; its reply, or None where the connection ended."""
        self.number += 1
        self.socket.sendall(written("%s rtsp://gate.example%s RTSP/1.0" % (method, uri),
                                    [("CSeq", str(self.number))] + list(headers)))
        return self.next_item()

    def next_item(self):
        """The next item, or None at the end."""
        while not self.arrived:
            piece = self.socket.recv(65_536)
            if not piece:
                return None
            self.heard += piece
            self.arrived = list(self.items.feed(piece))
        return self.arrived.pop(0)

    def watch(self):
        """Sets a session up and plays; its channel on the server's connection is that of the lowest free pair."""
        reply = self.ask("SETUP", STREAM + "/1", [("Transport", "RTP/AVP/TCP;unicast;interleaved=0-1")])
        self.session = reply.get("Session")
        return self.ask("PLAY", STREAM, [("Session", self.session)])

    def leave(self):
        """Ends its side, and reads what is left."""
        self.socket.shutdown(socket.SHUT_WR)
        while self.next_item() is not None:
            pass
        self.socket.close()


def begun(words):
    """What a run with these words says on standard error once it listens and is connected."""
    _, _, up, listen, stations, _ = words
    return "listening on %s for %s players\nconnected to %s\n" % (listen, stations, up.partition("//")[2])


def fault_lines(said):
    """Those lines of what the program said on standard error that tell of a fault."""
    return "\n".join(line for line in said.splitlines() if line.startswith("rtspgate: "))


class Gateway:
    """A run of the program between a server and the players of a port; `before` are words that stand before its own."""

    def __init__(self, program, server, stations, folder, record=None, before=(), **options):
        self.program, self.recording = program, record or folder / "recording"
        self.bases, self.port = ["rtsp://gate.example", server.url], free_port()
        words = ["serve", *self.bases, "%s:%d" % (HOST, self.port), str(stations), str(self.recording)]
        self.begun, self.said = begun(words), ""
        self.run = subprocess.Popen([*before, program, *words], stdout=subprocess.PIPE, stderr=subprocess.PIPE, **options)
        runs.append(self.run)
        server.start()

    def end(self, seconds=WAIT_SECONDS):
        """Its status, its fault lines and its report, and how long it took to end. `said` is all of standard error then."""
        begin = time.monotonic()
        try:
            report, said = self.run.communicate(timeout=seconds)
        except subprocess.TimeoutExpired:
            self.run.kill()
            report, said = self.run.communicate()
        self.said = said.decode()
        return self.run.returncode, fault_lines(self.said), report, time.monotonic() - begin

    def records(self):
        """What a replay of the recording hands to each connection, and to the server."""
        with open(self.recording, "rb") as recording:
            run = subprocess.run([self.program, "replay", *self.bases], stdin=recording, stdout=subprocess.PIPE)
        check("the recording is replayed", run.returncode == 0, run.returncode)
        players, server = {}, b""
        for kind, conn, body in pieces(run.stdout):
            if kind == b"T":
                players[conn] = players.get(conn, b"") + body
            elif kind == b"Y":
                server += body
        return players, server
