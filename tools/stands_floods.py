"""Scenes of tools/check_stands: players that send too much, that take too little for a moment, and that take nothing."""
import functools
import multiprocessing
import pathlib
import re
import select
import threading
import time

from interleaved import Frame, framed
from serving import Gateway, check
from stands_parts import FRAME_SIZE, QuietPlayer, QuietServer, await_true, frames, held

SLOW_RATE, SLOW_ROOM, SMALL_FRAME = 1_000_000, 65_536, 104
# What the system holds for a socket at most: by its own settings some 4 MB, which a server at the slow rate takes for as long.
SMALL_BUFFER, BUFFERS = 262_144, pathlib.Path("/proc/sys/net/ipv4/tcp_wmem")
MOST_DELAY, MOST_DELAY_BEHIND_BUFFER = 2.0, 6.0
# How a connection may end whose server has not read all.
ENDS = ("Ended", "ReadFault", "WriteFault")
BURST, BATCH = 8_000_000, 64
BURST_COUNT = BURST // FRAME_SIZE // BATCH * BATCH
TICK_SECONDS, TICKS, TICKS_BEFORE = 0.002, 600, 50
QUIET_GAP = 0.12
# What fills all that may wait for a player but some of its port, whatever the system holds for a socket (up to 3.5 MB), and the
# burst after it, to a player that reads at a rate.
FILLING_FRAME, FILLING_COUNT, FILLING_SECONDS = 60_000, 300, 0.5
LATER_COUNT, LATER_RATE = 12_800, 20_000_000
# Gaps of other players up to this are no failure.
longest_gap = 0.2
OTHERS = (2, 4, 6)
# What a player may hold: what its writer gathered, its parcels, and its buffers with what its texts take more.
GATHERED, PARCELS, SLACK = 4 << 20, 256, 700_000
MOST_BYTES = 40_000_000


def flood(player, seconds, size, results):
    """In a process of its own a player sends frames for so long, as fast as they are taken; for how long it could."""
    data, begin, at = frames(0, BATCH, size), time.monotonic(), 0
    player.socket.settimeout(0.1)
    while time.monotonic() < begin + seconds:
        try:
            at = (at + player.socket.send(data[at:])) % len(data)
        except TimeoutError:
            continue
        except OSError:
            break
    results.send(time.monotonic() - begin)


def answers_beside(player, seconds):
    """How often a player is answered for so long, the longest time that took, and the code that was no success."""
    longest, count, code, end = 0.0, 0, 200, time.monotonic() + seconds
    while time.monotonic() < end and code == 200:
        code, lasted = player.ask_within(2 * MOST_DELAY_BEHIND_BUFFER, "DESCRIBE")
        longest, count = max(longest, lasted), count + (code == 200)
        time.sleep(0.05)
    return count, longest, code


def beside_a_flood(program, folder, seconds, rate, size):
    """Another player's requests beside one that floods with frames of a size."""
    server = QuietServer(rate=rate, receive_room=SLOW_ROOM if rate else None)
    gateway = Gateway(program, server, 4, folder, record="/dev/null")
    flooding, other = QuietPlayer(gateway.port), QuietPlayer(gateway.port)
    flooding.watch()
    other.watch()
    process = beside(flood, flooding, seconds, size)
    count, longest, code = answers_beside(other, seconds)
    flooded = result_of(*process, 5) or 0.0
    most = MOST_DELAY_BEHIND_BUFFER if rate and int(BUFFERS.read_text().split()[2]) > SMALL_BUFFER else MOST_DELAY
    check("another player is answered within %d s" % most, code == 200 and longest < most,
          "%s after %.2f s, behind %d answers" % (code, longest, count))
    check("whoever floods is not closed", flooded >= seconds, "it was after %.2f s" % flooded)
    print("       %d answers, the longest after %.2f s; %d frames came through" %
          (count, longest, server.items.frame_counts[0]), flush=True)
    server.close()
    status, fault, _, _ = gateway.end()
    check("the run ends with the server", (status, fault) in [(6, "rtspgate: upstream: " + why) for why in ENDS], (status, fault))


def flood_to_slow(program, folder, seconds):
    """A flood to a server that reads 1 MB a second."""
    beside_a_flood(program, folder, seconds, SLOW_RATE, FRAME_SIZE)


def flood_to_quick(program, folder, seconds):
    """A flood of small frames to a server that reads as fast as it can."""
    beside_a_flood(program, folder, seconds, None, SMALL_FRAME)


def watch_gaps(players, results):
    """Reads for some players in a process of its own: the longest time between two frames, and how many came for each."""
    poll, latest = select.poll(), {}
    by_handle = {player.socket.fileno(): player for player in players}
    for handle in by_handle:
        poll.register(handle, select.POLLIN)
    longest, counts = 0.0, {}
    while by_handle:
        for handle, _ in poll.poll():
            player = by_handle[handle]
            before, is_open = player.count(), player.receive()
            now = time.monotonic()
            if player.count() > before:
                longest = max(longest, now - latest.get(handle, now))
                latest[handle] = now
            if not is_open or player.count() >= TICKS:
                counts[handle] = player.count()
                poll.unregister(handle)
                del by_handle[handle]
    results.send((longest, sorted(counts.values())))


def read_burst(player, idle, results):
    """Reads a burst in a process of its own, so long after it is told to begin: how many frames came."""
    results.recv()
    time.sleep(idle)
    while player.count() < BURST_COUNT and player.receive():
        pass
    results.send(player.count())


def beside(work, *words):
    """A process that works, and where its result comes."""
    ours, theirs = multiprocessing.Pipe()
    process = multiprocessing.Process(target=work, args=(*words, theirs), daemon=True)
    process.start()
    return process, ours


def result_of(process, results, seconds):
    """What a process found, or None where it didn't in time."""
    found = results.recv() if results.poll(seconds) else None
    process.kill()
    process.join()
    return found


def send_ticks_and_burst(server, begin_burst):
    """A frame for each of the others every two milliseconds, and the burst between them after a while."""
    tick, piece = b"".join(framed(Frame(channel, b"tick")) for channel in OTHERS), frames(0, BATCH)
    due, ticks, pieces = time.monotonic(), 0, 0
    while ticks < TICKS or pieces < BURST_COUNT // BATCH:
        if ticks < TICKS and time.monotonic() >= due:
            server.send(tick)
            due, ticks = due + TICK_SECONDS, ticks + 1
        elif ticks >= TICKS_BEFORE and pieces < BURST_COUNT // BATCH:
            if not pieces:
                begin_burst()
            server.send(piece)
            pieces += 1
        else:
            time.sleep(max(0.0, due - time.monotonic()))


def burst(program, folder, name, idle, rate):
    """A burst for one player, beside others that get a frame every two milliseconds."""
    server = QuietServer()
    gateway = Gateway(program, server, 4, folder)
    one = QuietPlayer(gateway.port, rate=rate)
    one.watch()
    others = [QuietPlayer(gateway.port) for _ in OTHERS]
    for player in others:
        player.watch()
    readers = [beside(read_burst, one, idle), beside(watch_gaps, others)]
    begin = functools.partial(readers[0][1].send, "begin")
    threading.Thread(target=send_ticks_and_burst, args=(server, begin), daemon=True).start()
    came = result_of(*readers[0], 20)
    longest, counts = result_of(*readers[1], 20) or (99.0, [])
    check("8 MB to a player that %s come whole" % name, came == BURST_COUNT, "%s of %d" % (came, BURST_COUNT))
    check("the others get all of theirs", counts == [TICKS] * len(OTHERS), counts)
    check("their longest gap is below %d ms" % (1000 * longest_gap), longest < longest_gap, "%d ms" % (1000 * longest))
    print("       the longest gap of the others was %d ms; on a quiet machine it is below %d ms" %
          (1000 * longest, 1000 * QUIET_GAP), flush=True)
    server.close()
    report = gateway.end()[2]
    check("nobody is closed but by the end", re.findall(rb"cause (.)", report) == [b"U"] * 4, report)


def burst_to_idle(program, folder):
    """A burst to a player that reads nothing for 300 ms."""
    burst(program, folder, "reads nothing for 300 ms", 0.3, None)


def burst_to_steady(program, folder):
    """A burst to a player that reads 20 MB a second."""
    burst(program, folder, "reads 20 MB a second", 0.0, 20_000_000)


def burst_after_all_was_taken(program, folder):
    """A player that used its pauses up and then took all has them back, and a burst does not close it."""
    server = QuietServer()
    gateway = Gateway(program, server, 4, folder)
    player = QuietPlayer(gateway.port, LATER_RATE, SLOW_ROOM)
    player.watch()
    server.send(frames(0, FILLING_COUNT, FILLING_FRAME))
    time.sleep(FILLING_SECONDS)
    while player.count() < FILLING_COUNT and player.receive():
        pass
    check("what fills its port comes whole", player.count() == FILLING_COUNT, player.count())
    reader = player.read_beside()
    for _ in range(LATER_COUNT // BATCH):
        server.send(frames(0, BATCH))
    await_true(lambda: player.is_over or player.count() == FILLING_COUNT + LATER_COUNT, 10)
    count = player.count() - FILLING_COUNT
    check("the burst behind it comes whole", count == LATER_COUNT, "%d of %d" % (count, LATER_COUNT))
    server.close()
    gateway.end()
    reader.join(10)


def takers_of_nothing(program, folder):
    """64 players that take nothing are closed, each with what it may hold and no more."""
    server = QuietServer()
    gateway = Gateway(program, server, 64, folder)
    players = [QuietPlayer(gateway.port, receive_room=4_096) for _ in range(64)]
    before = held(gateway.run, "VmRSS")
    are_served = all(player.watch().code == 200 for player in players)
    check("64 are served before", are_served)
    most, sent, data = 0, 0, [frames(channel, BATCH) for channel in range(0, 128, 2)]
    while server.asked["TEARDOWN"] < 64 and sent < MOST_BYTES and gateway.run.poll() is None:
        for piece in data:
            server.send(piece)
        sent += len(data[0])
        most = max(most, held(gateway.run, "VmRSS") - before)
    check("each of 64 is closed", await_true(lambda: server.asked["TEARDOWN"] == 64, 10),
          "%d behind %d bytes each" % (server.asked["TEARDOWN"], sent))
    room = 64 * (GATHERED + PARCELS * FRAME_SIZE + SLACK)
    check("memory grows by no more than they may hold", most <= room, "%d bytes, more than %d" % (most, room))
    print("       behind at most %d bytes each; memory grew by %d bytes" % (sent, most), flush=True)
    server.close()
    report = gateway.end()[2]
    check("they are told as too slow", re.findall(rb"cause (.)", report) == [b"S"] * 64, report[-300:])
