"""Scenes of tools/check_stands: threads that are refused or late, players that leave, and the server's end."""
import random
import subprocess
import time

from serving import STREAM, Gateway, check, fault_lines
from sockets import HOST, connected, free_port, reset
from stands_parts import QuietPlayer, QuietServer, await_true, can_trace, descriptors, frames, switches, traced

# Of some 130 threads, that of the server's side, which is the second behind that which writes the recording, and some of the
# first stations and of the server's link.
REFUSED = (2, 4, 6, 10, 12, 14)
CREW_SECONDS, LATE_SECONDS, GIVEN_BACK_SECONDS = 10, 3, 3
EARLY_PLAYERS = 16
# Frames on a channel that nobody has, and how many threads each may wake.
STRAYS, STRAY_CHANNEL, STRAY_SECONDS, MOST_WOKEN = 200, 254, 0.5, 16
# So many players come one after the other, and how long all of them may take: some milliseconds each, where whoever waits is
# woken, and else a tenth or a quarter of a second.
VISITS, VISITS_SECONDS = 100, 4
BREAKS, BREAKS_SECONDS = 30, 2
# More frames than the thread that read them takes itself, and how long behind them a reply comes at most. One that is late was
# taken at its reader's next look, a tenth of a second after it came: one in twenty, where nobody wakes the thread that writes.
BURSTS, BURST_COUNT, MOST_BEHIND = 2_000, 187, 0.0004
BEHIND_SECONDS, LATE_REPLY_SECONDS, MOST_LATE = 2, 0.095, 20
# What no socket holds whose player takes nothing, and how long its writer may take to find that out.
STUCK_COUNT, STUCK_SECONDS = 80, 0.05
# A frame of which a player that reads at this rate takes 250 in 0.75 s.
BIG_FRAME, BIG_COUNT, READ_RATE, READ_ROOM = 60_000, 250, 20_000_000, 65_536


def started_with_players(program, folder, number):
    """A run whose thread of this number is refused, with players that came before its threads began."""
    server, port = QuietServer(), free_port()
    before = traced("clone,clone3,connect", "clone,clone3:error=EAGAIN:when=%d" % number, "connect:delay_enter=300000")
    words = ["serve", "rtsp://gate.example", server.url, "%s:%d" % (HOST, port), "64", str(folder / ("record%d" % number))]
    run = subprocess.Popen([*before, program, *words], stdout=subprocess.PIPE, stderr=subprocess.PIPE)
    players = [connected(port) for _ in range(EARLY_PLAYERS)]
    for player in players:
        player.sendall(b"OPTIONS * RTSP/1.0\r\nCSeq: 1\r\n\r\n")
    server.start()
    return run, players


def refused_threads(program, folder):
    """Whichever thread is refused, the run tells so and ends in time, and none of the players entered."""
    if not can_trace():
        print("skipped: threads that are refused one by one, since strace can't refuse them here")
        return
    runs = [(number, *started_with_players(program, folder, number)) for number in REFUSED]
    end = time.monotonic() + CREW_SECONDS
    for number, run, _ in runs:
        name = "the thread %d, while players wait" % number
        try:
            report, fault = run.communicate(timeout=max(0.1, end - time.monotonic()))
            check(name, (run.returncode, fault_lines(fault.decode())) == (9, "rtspgate: no crew"), (run.returncode, fault))
            check(name + ": none of them entered", report == b"dials 1\n", report)
        except subprocess.TimeoutExpired:
            check(name, False, "it did not end within %d seconds" % CREW_SECONDS)
            run.kill()
            run.communicate()


def late_threads(program, folder):
    """Threads are waited for whose first call of the system is late."""
    if not can_trace():
        print("skipped: threads that are late, since strace can't make them late here")
        return
    server = QuietServer()
    before = traced("set_robust_list", "set_robust_list:delay_enter=%d" % (1_000_000 * LATE_SECONDS))
    gateway = Gateway(program, server, 2, folder, before=before)
    player = QuietPlayer(gateway.port)
    code, _ = player.ask_within(4 * LATE_SECONDS, "OPTIONS")
    check("of %d seconds are waited for" % LATE_SECONDS, code == 200, (code, gateway.run.poll()))
    player.socket.close()
    server.close()
    gateway.end()


def reset_within_request(program, folder):
    """A player that is gone while its request is open frees its station at once, and its session is torn down."""
    server = QuietServer(leaves=("PLAY",))
    gateway = Gateway(program, server, 1, folder)
    gone = QuietPlayer(gateway.port)
    gone.ask("SETUP", "/live/1", [("Transport", "RTP/AVP/TCP;unicast;interleaved=0-1")])
    gone.number += 1
    gone.socket.sendall(b"PLAY rtsp://gate.example/live RTSP/1.0\r\nCSeq: 2\r\nSession: session1\r\n\r\n")
    check("a request is open", server.await_open(1), server.asked)
    reset(gone.socket)
    code, lasted = QuietPlayer(gateway.port).ask_within(2, "DESCRIBE")
    check("its station is free at once", code == 200, "%s after %.1f s" % (code, lasted))
    server.answer_open()
    check("its session is torn down once that is answered", await_true(lambda: server.asked["TEARDOWN"] == 1, 2), server.asked)
    server.close()
    gateway.end()


def half_ended(program, folder):
    """A server that leaves a DESCRIBE open, the gateway, and the player that asked and ended its side."""
    server = QuietServer(leaves=("DESCRIBE",))
    gateway = Gateway(program, server, 1, folder)
    player = QuietPlayer(gateway.port)
    player.socket.sendall(b"DESCRIBE rtsp://gate.example/live RTSP/1.0\r\nCSeq: 1\r\n\r\n")
    player.socket.shutdown(1)
    return server, gateway, player


def half_ended_within_request(program, folder):
    """A player that ended its side gets the reply that comes in time."""
    server, gateway, player = half_ended(program, folder)
    check("a request is open", server.await_open(1), server.asked)
    time.sleep(1)
    server.answer_open()
    reply = player.next_item()
    check("it gets the reply that comes a second later", reply and reply.code == 200, reply)
    check("it gets the end then", player.read_to_end(2))
    server.close()
    gateway.end()


def half_ended_without_reply(program, folder):
    """A player that ended its side is waited for during ten seconds, and not longer."""
    server, gateway, player = half_ended(program, folder)
    begin = time.monotonic()
    code, _ = QuietPlayer(gateway.port).ask_within(13, "OPTIONS")
    lasted = time.monotonic() - begin
    check("its station is free after ten seconds", code == 200, code)
    check("it holds its station for not much less", code is None or lasted > 8, "%.1f s" % lasted)
    check("it is told the end", player.read_to_end(1))
    server.close()
    gateway.end()


def links_given_back(program, folder):
    """64 players leave at once: their connections are closed soon, though no player comes."""
    server = QuietServer()
    gateway = Gateway(program, server, 64, folder)
    at_rest = len(descriptors(gateway.run))
    players = [QuietPlayer(gateway.port) for _ in range(64)]
    are_served = all(player.ask_within(5, "OPTIONS")[0] == 200 for player in players)
    check("64 players are served", are_served)
    for player in players:
        player.socket.close()
    await_true(lambda: len(descriptors(gateway.run)) <= at_rest, GIVEN_BACK_SECONDS)
    left = len(descriptors(gateway.run)) - at_rest
    check("their connections are closed within %d seconds" % GIVEN_BACK_SECONDS, left <= 0, "%d are left" % left)
    server.close()
    gateway.end()


def visits_in_turn(program, folder):
    """Players that come one after the other at one station: whoever waits for its writer is woken once that comes back."""
    server = QuietServer()
    gateway = Gateway(program, server, 1, folder)
    begin = time.monotonic()
    for _ in range(VISITS):
        player = QuietPlayer(gateway.port)
        player.ask("OPTIONS")
        player.leave()
    lasted = time.monotonic() - begin
    check("%d leave within %d seconds" % (VISITS, VISITS_SECONDS), lasted < VISITS_SECONDS, "%.1f s" % lasted)
    server.close()
    gateway.end()


def breaks_within_request(program, folder):
    """Players that take nothing, and are gone while a request is open: whoever reads is woken once writing fails."""
    server = QuietServer(leaves=("PLAY",))
    gateway = Gateway(program, server, 1, folder)
    lasted = 0.0
    for number in range(BREAKS):
        player = QuietPlayer(gateway.port, receive_room=4_096)
        player.ask("SETUP", "/live/1", [("Transport", "RTP/AVP/TCP;unicast;interleaved=0-1")])
        player.socket.sendall(b"PLAY rtsp://gate.example/live RTSP/1.0\r\nCSeq: 2\r\nSession: session%d\r\n\r\n" % (number + 1))
        server.await_open(number + 1)
        server.send(frames(2 * number, STUCK_COUNT, BIG_FRAME))
        time.sleep(STUCK_SECONDS)
        begin = time.monotonic()
        reset(player.socket)
        following = QuietPlayer(gateway.port)
        following.ask("OPTIONS")
        lasted += time.monotonic() - begin
        following.leave()
    check("%d give their station back within %d seconds" % (BREAKS, BREAKS_SECONDS), lasted < BREAKS_SECONDS, "%.1f s" % lasted)
    server.close()
    gateway.end()


def items_for_nobody(program, folder):
    """What the server says to nobody wakes few threads."""
    server = QuietServer()
    gateway = Gateway(program, server, 64, folder)
    players = [QuietPlayer(gateway.port) for _ in range(64)]
    check("64 players are served", all(player.ask_within(5, "OPTIONS")[0] == 200 for player in players))
    before = switches(gateway.run)
    time.sleep(STRAY_SECONDS)
    idle = switches(gateway.run) - before
    for _ in range(STRAYS):
        server.send(frames(STRAY_CHANNEL, 1))
        time.sleep(STRAY_SECONDS / STRAYS)
    each = (switches(gateway.run) - before - 2 * idle) / STRAYS
    check("each item wakes at most %d threads" % MOST_WOKEN, each <= MOST_WOKEN, "%.1f" % each)
    server.close()
    gateway.end()


class BurstServer(QuietServer):
    """A server that answers GET_PARAMETER behind a burst of frames for the first player, a moment after it."""

    def take(self, request):
        if request.method != "GET_PARAMETER":
            super().take(request)
            return
        self.send(frames(0, BURST_COUNT))
        end = time.monotonic() + random.uniform(0, MOST_BEHIND)
        while time.monotonic() < end:
            pass
        self.send(self.answer(request))


def few_behind_many(program, folder):
    """What little comes while a thread takes the last of much that came is taken too, whichever moment it comes at."""
    server = BurstServer()
    gateway = Gateway(program, server, 1, folder)
    player = QuietPlayer(gateway.port)
    player.watch()
    asked = "GET_PARAMETER", STREAM, [("Session", player.session)]
    replies = [player.ask_within(BEHIND_SECONDS, *asked) for _ in range(BURSTS)]
    late = sum(code != 200 or lasted > LATE_REPLY_SECONDS for code, lasted in replies)
    check("of the replies behind %d bursts at most %d wait for the next look" % (BURSTS, MOST_LATE), late <= MOST_LATE, late)
    check("each burst came before its reply", player.count() >= BURSTS * BURST_COUNT, player.count())
    server.close()
    gateway.end()


def clean_end(program, folder):
    """At the server's end healthy players get all that they were handed."""
    server = QuietServer()
    gateway = Gateway(program, server, 4, folder)
    players = [QuietPlayer(gateway.port, READ_RATE, READ_ROOM) for _ in range(2)]
    for player in players:
        player.watch()
    readers = [player.read_beside() for player in players]
    for _ in range(BIG_COUNT // 10):
        for channel in (0, 2):
            server.send(frames(channel, 10, BIG_FRAME))
    server.close()
    status, fault, report, lasted = gateway.end()
    for reader in readers:
        reader.join(10)
    counts = [player.count() for player in players]
    check("players that read 20 MB a second get all frames", counts == [BIG_COUNT] * 2, counts)
    check("the run ends as it should", (status, fault) == (6, "rtspgate: upstream: Ended"), (status, fault))
    check("it ends a moment after", lasted < 5, "%.1f s" % lasted)


def stuck_at_the_end(program, folder):
    """At the server's end one that takes nothing holds up the end for a second or so, and no longer."""
    server = QuietServer()
    gateway = Gateway(program, server, 4, folder)
    stuck = QuietPlayer(gateway.port, receive_room=4_096)
    stuck.watch()
    server.send(frames(0, 200, BIG_FRAME))
    server.close()
    status, fault, _, lasted = gateway.end()
    check("one that takes nothing is let go within three seconds",
          status == 6 and lasted < 3, "%s after %.1f s" % (fault, lasted))
    stuck.socket.close()
