"""Whose each event of a replayed recording is, and what each connection asked, was told, sent and got.

It prints nothing and has no exit status: report and chart of tools/transcript import it.

By docs/FORMATS.md (Connections, Final replies) requests of a connection are treated in their order, and each gets one
reply. So a reply is that to the first request without one. Only one request of a connection is open at the server: a
reply of the server with its number is to it, and is the first that the event hands to the player. All other replies are
the gateway's own, and one of 200 to a PLAY with a Range says that this PLAY waits: it goes up later, before any other
request, unless a PAUSE or TEARDOWN succeeds, the PLAY before it fails or the connection closes.
"""
import collections
from dataclasses import dataclass, field

METHODS = (b"OPTIONS", b"DESCRIBE", b"SETUP", b"PLAY", b"PAUSE", b"TEARDOWN", b"GET_PARAMETER", b"SET_PARAMETER")
FINAL, SUCCESS = 200, range(200, 300)


@dataclass
class Frames:
    """Frames, with all their bytes."""
    count: int = 0
    size: int = 0

    def add(self, count, size):
        """Counts some more."""
        self.count += count
        self.size += size


def session_of(item):
    """The id of the session that a message names; empty where it names none."""
    return (item.field(b"session") or b"").partition(b";")[0]


@dataclass
class Account:
    """What a connection asked and was told, its frames, its PLAYs that waited, and the cause of its end."""
    requests: collections.Counter = field(default_factory=collections.Counter)
    replies: collections.Counter = field(default_factory=collections.Counter)
    down: Frames = field(default_factory=Frames)
    up: Frames = field(default_factory=Frames)
    dropped: Frames = field(default_factory=Frames)
    waited: int = 0
    ended: bytes = b""
    unanswered: collections.deque = field(default_factory=collections.deque)
    waiting: collections.Counter = field(default_factory=collections.Counter)   # by the session's id


@dataclass
class Asked:
    """A request that is open at the server: whose it is, its method and session, and whether the player gets the reply."""
    connection: int
    method: bytes
    session: bytes
    is_released: bool = False


class Accounts:
    """The accounts of all connections; `take` each event in turn."""

    def __init__(self):
        self.of, self.asked, self.sessions = {}, {}, {}
        self.server_requests, self.dropped, self.cause = collections.Counter(), Frames(), b""

    def take(self, event):
        """Takes an event; the connection whose it is, or None."""
        owner = self.owner_of(event)
        if event.kind == b"O":
            self.of[event.connection] = Account()
        elif event.item:
            self.take_item(event, owner)
        own = self.of.get(owner)
        is_servers = self.settle(event, own)
        for kind, connection, said in event.records:
            if kind == b"T":
                self.hand(self.of[connection], event, said, is_servers)
            elif kind == b"Y":
                self.send(event, owner, said)
            elif kind == b"C":
                self.close(self.of[connection], said)
            else:
                self.cause = said
        return owner

    def owner_of(self, event):
        """Whose an event is: its connection, or that which the server answers, notifies or sends a frame."""
        if event.kind == b"Z" or any(kind == b"F" for kind, _, _ in event.records):
            return None
        if event.kind != b"U":
            return event.connection
        told = [connection for kind, connection, _ in event.records if kind == b"T"]
        if told:
            return told[0]
        if event.item.kind == "reply":
            asked = self.asked.get(event.item.number())
            return asked.connection if asked else None
        named = event.item.field(b"session") if event.item.kind == "request" else None
        return self.sessions.get((named or b"").partition(b";")[0])

    def take_item(self, event, owner):
        """Counts what came."""
        item, size = event.item, len(event.item.raw)
        if event.kind == b"U":
            if item.kind == "request":
                self.server_requests[named(item.method)] += 1
            if item.kind == "frame" and not event.records:
                self.dropped.add(1, size)
            return
        account = self.of[owner if owner is not None else event.connection]
        if item.kind == "request":
            account.requests[named(item.method)] += 1
            account.unanswered.append(item)
        elif item.kind == "frame":
            (account.up if event.records else account.dropped).add(1, size)

    def settle(self, event, own):
        """Takes a final reply of the server; whether the first reply that is handed on is the server's."""
        item = event.item
        if event.kind != b"U" or item.kind != "reply" or item.code < FINAL:
            return False
        asked = self.asked.pop(item.number(), None)
        if asked is None or own is None:
            return False
        is_success = item.code in SUCCESS
        if asked.method == b"SETUP" and is_success:
            self.sessions[session_of(item)] = asked.connection
        if asked.is_released and not is_success or asked.method in (b"PAUSE", b"TEARDOWN") and is_success:
            own.waiting[asked.session] = 0
        return not asked.is_released

    def hand(self, account, event, items, is_servers):
        """Counts what a player was handed."""
        for item in items:
            if item.kind == "frame":
                account.down.add(1, len(event.item.raw))
                continue
            account.replies[item.code] += 1
            request = account.unanswered.popleft() if account.unanswered else None
            if request and not is_servers and item.code == FINAL and request.method == b"PLAY" \
                    and request.field(b"range") is not None:
                account.waited += 1
                account.waiting[session_of(request)] += 1
            is_servers = False

    def send(self, event, owner, items):
        """Notes the requests that went up."""
        account = self.of.get(owner)
        for item in items:
            if item.kind != "request" or account is None:
                continue
            session = session_of(item)
            is_released = item.method == b"PLAY" and account.waiting[session] > 0
            account.waiting[session] -= is_released
            self.asked[item.number()] = Asked(owner, item.method, session, is_released)

    def close(self, account, cause):
        """A connection is closed. Requests of it that have no reply get none."""
        account.ended = cause
        account.waiting.clear()
        account.unanswered.clear()


def named(method):
    """A method by which requests are counted."""
    return method.decode("ascii") if method in METHODS or method == b"PLAY_NOTIFY" else "others"
