"""What a recording says of each connection: its requests, replies, frames, PLAYs that waited and end; and the sums.

It prints nothing but what `report` writes to the file that it is given; tools/transcript has the exit status. How
records are matched to entries stands at the head of tools/replayed.py.
"""
import collections

from accounts import Account, Accounts
from replayed import Failed, Replay

CAUSES = {b"E": "player left", b"B": "it sent what is no message", b"S": "it took its bytes too slowly",
          b"U": "the server's connection ended", b"": "still connected"}


def counted(counter):
    """Counts by name, as text, the names of methods and codes in their order."""
    return ", ".join("%s %s" % (name, format(count, ",")) for name, count in sorted(counter.items(), key=by_name))


def by_name(pair):
    """What counts are put in order by."""
    return str(pair[0])


def frames_text(frames):
    """Frames as they are told."""
    return "%s (%s bytes)" % (format(frames.count, ","), format(frames.size, ","))


def lines_of(account):
    """The lines of one account, without its end."""
    lines = ["requests  " + (counted(account.requests) or "none"),
             "replies   " + (counted(account.replies) or "none"),
             "frames    down %s, up %s%s" % (frames_text(account.down), frames_text(account.up), (
                 ", dropped %s" % frames_text(account.dropped) if account.dropped.count else ""))]
    if account.waited:
        lines.append("waited    PLAYs %s" % format(account.waited, ","))
    return lines


def sums_of(accounts):
    """All accounts as one."""
    sums = Account()
    for account in accounts:
        sums.requests.update(account.requests)
        sums.replies.update(account.replies)
        for name in ("down", "up", "dropped"):
            frames = getattr(account, name)
            getattr(sums, name).add(frames.count, frames.size)
        sums.waited += account.waited
    return sums


def server_lines(accounts):
    """What is said of the server."""
    lines = ["requests  " + (counted(accounts.server_requests) or "none")]
    if accounts.dropped.count:
        lines.append("frames    for nobody %s" % frames_text(accounts.dropped))
    cause = accounts.cause.decode("latin-1")
    return lines + ["ended     " + (cause or "still connected")]


def write(sink, accounts, count):
    """Writes the report."""
    for number, account in sorted(accounts.of.items()):
        show(sink, "conn %d" % number, lines_of(account) + ["ended     " + CAUSES[account.ended]])
    show(sink, "server", server_lines(accounts))
    ends = collections.Counter(CAUSES[account.ended] for account in accounts.of.values())
    title = "all: %s connection%s, %s event%s" % (format(len(accounts.of), ","), "" if len(accounts.of) == 1 else "s",
                                                  format(count, ","), "" if count == 1 else "s")
    show(sink, title, lines_of(sums_of(accounts.of.values())) + ["ended     " + (counted(ends) or "none")])


def show(sink, title, lines):
    """Writes a title and the lines below it."""
    sink.write(title + "\n" + "".join("  %s\n" % line for line in lines))


def report(source, sink, program, front, up):
    """Writes the report on a recording; what was wrong with it, as lines. Where the run failed that is all."""
    accounts, count = Accounts(), 0
    try:
        replay = Replay(program, front, up, source)
        for event in replay.events():
            accounts.take(event)
            count += 1
    except Failed as failed:
        return [str(failed)]
    write(sink, accounts, count)
    return replay.faults()
