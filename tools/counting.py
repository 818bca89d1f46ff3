"""The counting stream that tools/media_server plays and tools/player checks: RTP packets that tell what they are.

A packet is an RTP header of 12 bytes (RFC 3550, 5.1) and 1,200 bytes of payload: how many packets this track had before
in its session, in eight bytes, high byte first; the packet's place in the stream in milliseconds, likewise; and as
filling the lowest byte of that count. The marker stands on the last packet of a PLAY whose range has an end. The
payload type is 0, so players that know nothing of this take it for sound (PCMU, a byte a sample, 8,000 in a second).

What a player says of a track is a receiver report with one block (RFC 3550, 6.4.2).
"""
import struct
from dataclasses import dataclass

from interleaved import Fault

PAYLOAD = 1_200
MARKER = 0x80
SEQUENCES = 65_536
TIMES = 1 << 32
RTP = struct.Struct(">BBHIIQQ")
REPORT = struct.Struct(">BBHIIIIIII")
RECEIVER_REPORT = 201


@dataclass
class Packet:
    """A packet of the stream; `place` is in milliseconds."""
    is_last: bool
    sequence: int
    time: int
    source: int
    count: int
    place: int

    def __str__(self):
        return "packet %d of %08X (sequence %d, time %d, at %d ms%s)" % (
            self.count, self.source, self.sequence, self.time, self.place, ", the last" if self.is_last else "")


def filling(count):
    """What fills a packet up."""
    return bytes([count % 256]) * (12 + PAYLOAD - RTP.size)


def packed(packet):
    """The bytes of a packet."""
    return RTP.pack(0x80, MARKER if packet.is_last else 0, packet.sequence, packet.time, packet.source, packet.count,
                    packet.place) + filling(packet.count)


def unpacked(payload):
    """The packet that a frame carries."""
    if len(payload) != 12 + PAYLOAD:
        raise Fault("a packet of %d bytes" % len(payload))
    first, second, *numbers = RTP.unpack_from(payload)
    packet = Packet(second == MARKER, *numbers)
    if first != 0x80 or second not in (0, MARKER) or payload[RTP.size:] != filling(packet.count):
        raise Fault("a packet with other bytes than %s has" % packet)
    return packet


def report(reporter, source, sequence):
    """A receiver report on the packets of a source up to a sequence number."""
    return REPORT.pack(0x81, RECEIVER_REPORT, 7, reporter, source, 0, sequence, 0, 0, 0)


def reported_source(payload):
    """The source that a receiver report is about, or None where the payload is something else."""
    if len(payload) < REPORT.size or payload[1] != RECEIVER_REPORT or payload[0] & 0x1f == 0:
        return None
    return REPORT.unpack_from(payload)[4]
