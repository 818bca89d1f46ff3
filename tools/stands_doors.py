"""Scenes of tools/check_stands: accepts that fail, players that say nothing, and a server that can't be reached."""
import resource
import subprocess
import threading
import time

from serving import WAIT_SECONDS, Gateway, check, fault_lines
from sockets import HOST, free_port, full_door
from stands_parts import QuietPlayer, QuietServer, await_true, can_trace, descriptors, traced

SHORT_SECONDS = 2
# Errors of the one connection that came, and of a host that is short for a moment.
OF_ONE = ("EPROTO", "ENETDOWN", "EHOSTUNREACH", "ENOPROTOOPT", "EPERM", "ECONNABORTED")
OF_HOST = ("EMFILE", "ENFILE", "ENOBUFS", "ENOMEM")
ACCEPTS = "accept,accept4"


def answered(port, seconds):
    """The code of the reply to a new player, or what went wrong."""
    try:
        player = QuietPlayer(port)
        code, _ = player.ask_within(seconds, "OPTIONS")
        player.socket.close()
        return code
    except OSError as error:
        return repr(error)


def no_descriptors(program, folder):
    """A run without descriptors for two seconds goes on, and takes players again afterwards."""
    server = QuietServer()
    gateway = Gateway(program, server, 4, folder)
    good = QuietPlayer(gateway.port)
    check("a player is served before", good.watch().code == 200)
    soft, hard = resource.prlimit(gateway.run.pid, resource.RLIMIT_NOFILE)
    own = descriptors(gateway.run)
    lowest_free = next(number for number in range(len(own) + 1) if number not in own)
    resource.prlimit(gateway.run.pid, resource.RLIMIT_NOFILE, (lowest_free, hard))
    waiting = QuietPlayer(gateway.port)
    end, codes = time.monotonic() + SHORT_SECONDS, set()
    while time.monotonic() < end and gateway.run.poll() is None:
        codes.add(good.ask_within(1, "DESCRIBE")[0])
        time.sleep(0.1)
    check("the run and its player go on", gateway.run.poll() is None and codes == {200}, (gateway.run.poll(), codes))
    if gateway.run.poll() is None:
        resource.prlimit(gateway.run.pid, resource.RLIMIT_NOFILE, (soft, hard))
    code, lasted = waiting.ask_within(3, "OPTIONS")
    check("a player that waited is served once there are some", code == 200, "%s after %.1f s" % (code, lasted))
    code = answered(gateway.port, 3)
    check("another player is served", code == 200, code)
    server.close()
    status, fault, _, _ = gateway.end()
    lines = [line for line in gateway.said.splitlines() if line.startswith("accept: ")]
    check("it was told in one line", len(lines) == 1, gateway.said)
    check("the run ends with the server", (status, fault) == (6, "rtspgate: upstream: Ended"), (status, fault))


def failed_accepts(program, folder):
    """Accepts that fail three times, one error for each run: players that come are served."""
    if not can_trace():
        print("skipped: accepts that fail with each error, since strace can't make them fail here")
        return
    found = {}

    def run(error):
        server = QuietServer()
        before = traced(ACCEPTS, "%s:error=%s:when=1..3" % (ACCEPTS, error))
        gateway = Gateway(program, server, 1, folder, record=folder / error, before=before)
        found[error] = answered(gateway.port, 6)
        server.close()
        gateway.end()
    threads = [threading.Thread(target=run, args=(error,)) for error in OF_ONE + OF_HOST]
    for thread in threads:
        thread.start()
    for thread in threads:
        thread.join(WAIT_SECONDS)
    for error in OF_ONE + OF_HOST:
        check("%s ends nothing" % error, found.get(error) == 200, found.get(error))


def accepts_that_fail_on(program, folder):
    """An accept that fails with the same error for a minute ends the run."""
    if not can_trace():
        print("skipped: accepts that fail on, since strace can't make them fail here")
        return
    server = QuietServer()
    begin = time.monotonic()
    gateway = Gateway(program, server, 1, folder, before=traced(ACCEPTS, ACCEPTS + ":error=EMFILE"))
    await_true(lambda: gateway.run.poll() is not None, 75)
    lasted = time.monotonic() - begin
    server.close()
    status, fault, _, _ = gateway.end()
    check("they end the run", (status, fault) == (12, "rtspgate: accept failed"), (status, fault))
    check("neither much earlier nor later", 55 < lasted < 70, "%.1f s" % lasted)


def silent_player(program, folder):
    """One that says nothing for thirty seconds is let go; one that said something stays."""
    server = QuietServer()
    gateway = Gateway(program, server, 2, folder)
    said, silent = QuietPlayer(gateway.port), QuietPlayer(gateway.port)
    said.ask("OPTIONS")
    begin = time.monotonic()
    is_over, lasted = silent.read_to_end(40), time.monotonic() - begin
    check("it is let go after thirty seconds", is_over and lasted > 25, "%s, %.1f s" % (is_over, lasted))
    code, _ = said.ask_within(2, "OPTIONS")
    check("one that said something stays", code == 200, code)
    check("its station is free", answered(gateway.port, 3) == 200)
    server.close()
    gateway.end()


def silent_address(program, folder):
    """A server's address from which nothing comes is given up after ten seconds."""
    with full_door() as address:
        words = ["serve", "rtsp://gate.example", "rtsp://%s:%d" % address, "%s:%d" % (HOST, free_port()), "2", str(folder / "record")]
        begin = time.monotonic()
        run = subprocess.Popen([program, *words], stdout=subprocess.PIPE, stderr=subprocess.PIPE)
        try:
            _, fault = run.communicate(timeout=15)
            lasted = time.monotonic() - begin
            check("it is told", (run.returncode, fault_lines(fault.decode())) == (13, "rtspgate: dial failed"),
                  (run.returncode, fault))
            check("it is told after ten seconds", 8 < lasted < 13, "%.1f s" % lasted)
        except subprocess.TimeoutExpired:
            check("it is told", False, "it is waited for")
            run.kill()
            run.communicate()
