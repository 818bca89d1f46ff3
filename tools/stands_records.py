"""Scenes of tools/check_stands: recordings that stall, that nobody reads, and that a kill cut."""
import os
import subprocess
import threading
import time

from recording import MAGIC, Broken, Entries
from serving import Gateway, Player, Server, check, fault_lines
from sockets import HOST, free_port
from stands_parts import QuietPlayer, QuietServer, await_true, frames

# What the kernel keeps of a pipe, and what a run may hold back beside it.
STALLED_BYTES, QUEUE_BYTES = 1_000_000, 16 << 20
MOST_DELAY = 1.0


class Pipe:
    """A pipe as a recording, whose reader doesn't read until it is told to."""

    def __init__(self, folder):
        self.path = folder / "pipe"
        os.mkfifo(self.path)
        self.handle = os.open(self.path, os.O_RDONLY | os.O_NONBLOCK)
        self.data = bytearray()

    def drain(self):
        """Reads to the end from now on, in a thread of its own."""
        os.set_blocking(self.handle, True)
        thread = threading.Thread(target=self.read, daemon=True)
        thread.start()
        return thread

    def read(self):
        for piece in iter(lambda: os.read(self.handle, 1 << 20), b""):
            self.data += piece


def stalled_recording(program, folder):
    """A recording that nobody takes holds up nobody, and is whole once it is taken."""
    pipe, server = Pipe(folder), QuietServer()
    gateway = Gateway(program, server, 4, folder, record=pipe.path)
    player, other = QuietPlayer(gateway.port), QuietPlayer(gateway.port)
    player.watch()
    other.watch()
    reader = player.read_beside()
    count = STALLED_BYTES // 1400
    threading.Thread(target=server.send, args=(frames(0, count),), daemon=True).start()
    is_whole = await_true(lambda: player.count() == count, 3)
    check("it holds up no frames", is_whole, "%d of %d" % (player.count(), count))
    code, lasted = other.ask_within(3, "DESCRIBE")
    check("it holds up no requests", code == 200 and lasted < MOST_DELAY, "%s after %.1f s" % (code, lasted))
    code, lasted = QuietPlayer(gateway.port).ask_within(3, "OPTIONS")
    check("it holds up no players that come", code == 200 and lasted < MOST_DELAY, "%s after %.1f s" % (code, lasted))
    taken = pipe.drain()
    server.close()
    status, fault, _, _ = gateway.end()
    reader.join(5)
    taken.join(5)
    check("it is whole once it is taken", is_right_recording(pipe.data, count), "%d bytes" % len(pipe.data))
    check("the run ends with the server", (status, fault) == (6, "rtspgate: upstream: Ended"), (status, fault))


def is_right_recording(data, count):
    """Whether a recording is whole, with so many items of the server that are frames."""
    entries = Entries()
    try:
        found = sum(entry.kind == b"U" and entry.body[:1] == b"$" for entry in entries.feed(bytes(data)))
        entries.end()
    except Broken:
        return False
    return found == count


def unread_recording(program, folder):
    """A pipe without a reader is told, and not waited for."""
    os.mkfifo(folder / "pipe")
    server = Server()
    words = ["serve", "rtsp://gate.example", server.url, "%s:%d" % (HOST, free_port()), "2", str(folder / "pipe")]
    run = subprocess.Popen([program, *words], stdout=subprocess.PIPE, stderr=subprocess.PIPE)
    try:
        _, fault = run.communicate(timeout=2)
        check("it is told at once", (run.returncode, fault_lines(fault.decode())) == (8, "rtspgate: record failed"),
              (run.returncode, fault))
    except subprocess.TimeoutExpired:
        check("it is told at once", False, "it is waited for")
        run.kill()
        run.communicate()


def kill_of_the_program(program, folder):
    """A kill loses nothing that was noted half a second before."""
    server = Server()
    gateway = Gateway(program, server, 2, folder)
    player = Player(gateway.port)
    player.watch()
    server.send(frames(0, 3, 200))
    came = [player.next_item() for _ in range(3)]
    time.sleep(0.5)
    gateway.run.kill()
    gateway.run.communicate()
    data = gateway.recording.read_bytes()
    check("the recording is there", data[:8] == MAGIC and len(came) == 3, "%d bytes" % len(data))
    handed, asked = gateway.records()
    check("it has all that players were handed", player.heard in handed.values(), {conn: len(of) for conn, of in handed.items()})
    check("it has all that the server was asked", asked.startswith(server.heard) and server.heard, len(asked))


def full_queue(program, folder):
    """A recording that stalls for ten seconds with more than may be held back ends the run, and is told."""
    pipe, server = Pipe(folder), QuietServer()
    gateway = Gateway(program, server, 2, folder, record=pipe.path)
    player = QuietPlayer(gateway.port)
    player.watch()
    player.read_beside()
    begin = time.monotonic()
    sender = threading.Thread(target=server.send, args=(frames(0, 2 * QUEUE_BYTES // 1400),), daemon=True)
    sender.start()
    await_true(lambda: gateway.run.poll() is not None, 45)
    lasted = time.monotonic() - begin
    os.close(pipe.handle)
    status, fault, _, _ = gateway.end(1)
    check("it is told", (status, fault) == (8, "rtspgate: record failed"), (status, fault))
    check("it is told after ten seconds and before forty", 8 < lasted < 40, "%.1f s" % lasted)
    check("the player gets what is held back", player.count() * 1400 > QUEUE_BYTES // 2, player.count())
