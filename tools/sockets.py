"""Sockets over loopback: listeners, ports that nobody has, connections and their ends; for the tools beside it and those of bench.

It prints nothing and has no exit status.
"""
import contextlib
import os
import socket
import struct
import time

HOST = "127.0.0.1"
# Ports below those that the system picks, so that nobody is given one meanwhile.
ports = iter(range(10_000 + os.getpid() % 1_000 * 10, 32_768))
# The option SO_LINGER by which a connection that is closed is reset.
RESETS = struct.pack("ii", 1, 0)


def listener(port=0, backlog=128):
    """A socket that listens at this port, or at one of its own."""
    one = socket.socket()
    one.setsockopt(socket.SOL_SOCKET, socket.SO_REUSEADDR, 1)
    one.bind((HOST, port))
    one.listen(backlog)
    return one


def free_port():
    """A port that nobody listens at, each time another one."""
    while True:
        with socket.socket() as one:
            one.setsockopt(socket.SOL_SOCKET, socket.SO_REUSEADDR, 1)
            port = next(ports)
            try:
                one.bind((HOST, port))
                return port
            except OSError:
                continue


def listens(port):
    """Whether somebody listens at a port."""
    with socket.socket() as one:
        return one.connect_ex((HOST, port)) == 0


def connected(port, seconds=5):
    """A connection to a port that may not listen yet; what it waits for comes within so many seconds."""
    end = time.monotonic() + seconds
    while True:
        try:
            return socket.create_connection((HOST, port), seconds)
        except ConnectionRefusedError:
            if time.monotonic() > end:
                raise
            time.sleep(0.005)


def reset(connection):
    """Ends a connection at once, as that of a player does whose host goes away."""
    connection.setsockopt(socket.SOL_SOCKET, socket.SO_LINGER, RESETS)
    connection.close()


@contextlib.contextmanager
def full_door():
    """The address of a door at which nobody is answered: somebody listens, and the queue of those who call is full."""
    with contextlib.ExitStack() as opened:
        door = opened.enter_context(socket.socket())
        door.bind((HOST, 0))
        door.listen(0)
        for _ in range(4):
            caller = opened.enter_context(socket.socket())
            caller.setblocking(False)
            caller.connect_ex(door.getsockname())
        yield door.getsockname()
