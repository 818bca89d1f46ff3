"""Sessions of tools/media_server: their tracks and channels, and the ranges that they play."""
import asyncio
import re
from dataclasses import dataclass, field

from counting import PAYLOAD, SEQUENCES, TIMES, Packet, packed
from interleaved import Fault, Frame, framed

FIRST_SEQUENCE, FIRST_TIME = 65_500, 4_294_900_000
TIME = r"(?:([0-9]+):([0-5]?[0-9]):([0-5]?[0-9])|([0-9]+))(?:\.([0-9]*))?"
NPT = re.compile(r"npt=(?P<begin>now|%s)?-(?P<end>%s)?" % (TIME, TIME))
CHANNELS = re.compile("([0-9]{1,3})-([0-9]{1,3})")


class Refusal(Exception):
    """The code of RFC 7826 that a request is refused with."""


@dataclass
class Track:
    """A track of a session: its URI, its two channels, its source, and how many packets it had."""
    uri: str
    channels: tuple
    source: int
    count: int = 0

    def sequence(self):
        return (FIRST_SEQUENCE + self.count) % SEQUENCES

    def time(self):
        return (FIRST_TIME + self.count * PAYLOAD) % TIMES

    def next_frame(self, is_last, place):
        """The frame of the next packet."""
        packet = Packet(is_last, self.sequence(), self.time(), self.source, self.count, place)
        self.count += 1
        return framed(Frame(self.channels[0], packed(packet)))

    def info(self):
        """What RTP-Info says of the next packet (RFC 7826, 18.45)."""
        return 'url="%s" ssrc=%08X:seq=%d;rtptime=%d' % (self.uri, self.source, self.sequence(), self.time())


@dataclass
class Session:
    """A session: its tracks, the task that plays, where it stands in milliseconds, and the reports that came."""
    name: str
    tracks: list = field(default_factory=list)
    playing: asyncio.Task = None
    place: int = 0
    reports: int = 0

    def stop(self):
        """Plays no more; not one packet follows."""
        if self.playing:
            self.playing.cancel()
            self.playing = None

    def info(self):
        return ", ".join(track.info() for track in self.tracks)


def milliseconds(text):
    """An npt time, as its grammar has it."""
    hours, minutes, seconds, alone, fraction = re.fullmatch(TIME, text).groups()
    whole = int(alone) if alone else 3600 * int(hours) + 60 * int(minutes) + int(seconds)
    return 1000 * whole + int(((fraction or "") + "000")[:3])


def npt(place):
    """A place as an npt time."""
    return ("%d.%03d" % divmod(place, 1000)).rstrip("0").rstrip(".")


def span_of(text, place):
    """The begin and the end, or None for it, of a Range of a session that stands at a place."""
    found = NPT.fullmatch(text or "npt=%s-" % npt(place))
    if not found or not (found["begin"] or found["end"]):
        raise Refusal(457)
    begin = place if found["begin"] in (None, "now") else milliseconds(found["begin"])
    end = milliseconds(found["end"]) if found["end"] else None
    if end is not None and end <= begin:
        raise Refusal(457)
    return begin, end


def channels_of(transport):
    """The pair that the first alternative with frames in the connection asks for (RFC 7826, 18.54)."""
    for alternative in transport.split(","):
        protocol, *parameters = [part.strip() for part in alternative.split(";")]
        said = dict(part.partition("=")[::2] for part in parameters)
        found = CHANNELS.fullmatch(said.get("interleaved", ""))
        if protocol == "RTP/AVP/TCP" and found and "multicast" not in said:
            pair = int(found[1]), int(found[2])
            if pair[0] == pair[1] or max(pair) > 255:
                raise Fault("SETUP for the channels %d-%d (RFC 7826, 18.54)" % pair)
            return pair
    raise Refusal(461)
