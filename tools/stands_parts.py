"""What the scenes of tools/check_stands are made of: quick readers, servers and players that are slow, late or silent, runs
of which the system refuses something, and what a run holds."""
import collections
import pathlib
import re
import shutil
import socket
import struct
import subprocess
import threading
import time

from interleaved import Frame, StrictItems, framed
from serving import WAIT_SECONDS, Player, Server

FRAME_SIZE = 1_400
READ_SIZE = 262_144
# What a reader that is held to a rate may catch up at most, in seconds.
CATCH_UP_SECONDS = 0.02
STRACE = shutil.which("strace")


class QuickItems(StrictItems):
    """A stream of which messages are read; frames are counted for each channel, and left out."""

    def __init__(self):
        super().__init__()
        self.frame_counts = collections.Counter()

    def frame(self, data, at, end):
        self.frame_counts[data[at + 1]] += 1


class Pace:
    """Holds whoever calls it to so many bytes a second; with None it holds nobody."""

    def __init__(self, rate):
        self.rate, self.next = rate, 0.0

    def took(self, count):
        """Waits as long as so many bytes take."""
        if self.rate:
            now = time.monotonic()
            self.next = max(self.next, now - CATCH_UP_SECONDS) + count / self.rate
            time.sleep(max(0.0, self.next - now))


class QuietServer(Server):
    """A server that keeps nothing of what it was handed but counts; it reads at a rate, and leaves some methods open."""

    def __init__(self, rate=None, leaves=(), receive_room=None):
        super().__init__()
        if receive_room:
            self.door.setsockopt(socket.SOL_SOCKET, socket.SO_RCVBUF, receive_room)
        self.items, self.asked, self.left_open = QuickItems(), collections.Counter(), []
        self.pace, self.leaves = Pace(rate), leaves
        self.read_size = min(READ_SIZE, rate // 50) if rate else READ_SIZE

    def start(self):
        """Waits for the gateway, and answers it from then on. What it sends waits for so long at most."""
        super().start()
        self.socket.setsockopt(socket.SOL_SOCKET, socket.SO_SNDTIMEO, struct.pack("ll", WAIT_SECONDS, 0))

    def serve(self):
        for piece in iter(lambda: self.receive(self.read_size), b""):
            for message in self.items.feed(piece):
                if message.method:
                    self.take(message)
            self.pace.took(len(piece))

    def take(self, request):
        """Answers a request, or leaves it open."""
        self.asked[request.method] += 1
        if request.method in self.leaves:
            self.left_open.append(request)
        else:
            self.send(self.answer(request))

    def answer_open(self):
        """Answers what was left open."""
        for request in self.left_open:
            self.send(self.answer(request))
        self.left_open = []

    def close(self):
        """Ends the connection, which may be over."""
        try:
            super().close()
        except OSError:
            pass

    def await_open(self, count, seconds=2):
        """Waits until so many requests are open; whether they are."""
        return await_true(lambda: len(self.left_open) >= count, seconds)


class QuietPlayer(Player):
    """A player that keeps messages alone, and counts frames; it reads at a rate."""

    def __init__(self, port, rate=None, receive_room=None):
        super().__init__(port, receive_room)
        self.items, self.pace, self.seconds, self.is_over = QuickItems(), Pace(rate), WAIT_SECONDS, False
        self.read_size = min(READ_SIZE, rate // 100) if rate else READ_SIZE

    def receive(self):
        """Takes what came; False at the end."""
        try:
            piece = self.socket.recv(self.read_size)
        except ConnectionError:
            piece = b""
        self.arrived.extend(self.items.feed(piece))
        self.is_over = not piece
        self.pace.took(len(piece))
        return bool(piece)

    def next_item(self):
        """The next message, or None at the end; a fault where none came in time."""
        end = time.monotonic() + self.seconds
        while not self.arrived:
            self.socket.settimeout(max(0.001, end - time.monotonic()))
            if not self.receive():
                return None
        return self.arrived.pop(0)

    def ask_within(self, seconds, method, *more):
        """The code of the reply to a request, or None where none came in time, and the seconds that it took."""
        begin, self.seconds = time.monotonic(), seconds
        try:
            reply = self.ask(method, *more)
        except OSError:
            reply = None
        self.seconds = WAIT_SECONDS
        return reply and reply.code, time.monotonic() - begin

    def read_to_end(self, seconds=WAIT_SECONDS):
        """Reads until the connection ends; whether it did in time."""
        end = time.monotonic() + seconds
        while not self.is_over and time.monotonic() < end:
            self.socket.settimeout(max(0.001, end - time.monotonic()))
            try:
                self.receive()
            except socket.timeout:
                break
        return self.is_over

    def count(self):
        """How many frames came."""
        return sum(self.items.frame_counts.values())

    def read_beside(self):
        """Reads to the end in a thread of its own."""
        thread = threading.Thread(target=self.read_to_end, args=(120,), daemon=True)
        thread.start()
        return thread


def frames(channel, count, size=FRAME_SIZE):
    """The bytes of so many frames, each of which has so many bytes with its head."""
    return framed(Frame(channel, bytes(size - 4))) * count


def await_true(is_so, seconds):
    """Waits until something is so; whether it is."""
    end = time.monotonic() + seconds
    while not is_so():
        if time.monotonic() > end:
            return False
        time.sleep(0.01)
    return True


def can_trace():
    """Whether strace can make calls of the system fail here."""
    words = ["-D", "-f", "-o", "/dev/null", "-e", "inject=getpid:error=EPERM", "true"]
    return bool(STRACE) and subprocess.run([STRACE, *words], capture_output=True).returncode == 0


def traced(calls, *injected):
    """Words that stand before a program's, so that some calls of the system fail or are late for it."""
    said = [word for one in injected for word in ("-e", "inject=" + one)]
    return [STRACE, "-D", "-f", "-qq", "-o", "/dev/null", "-e", "trace=" + calls, *said]


def held(run, name):
    """The bytes of memory, or else the number, that the system tells of a run by this name."""
    found = re.search(r"%s:\s+(\d+)( kB)?" % name, pathlib.Path("/proc/%d/status" % run.pid).read_text())
    return int(found[1]) * (1024 if found[2] else 1)


def descriptors(run):
    """The descriptors that a run holds."""
    return {int(path.name) for path in pathlib.Path("/proc/%d/fd" % run.pid).iterdir()}


def switches(run):
    """How often all threads of a run have waited."""
    texts = [(task / "status").read_text() for task in pathlib.Path("/proc/%d/task" % run.pid).iterdir()]
    return sum(int(re.search(r"\nvoluntary_ctxt_switches:\s+(\d+)", text)[1]) for text in texts)
