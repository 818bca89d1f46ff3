"""The words from which tools/conversation.py draws what is said: values of fields, right and wrong, and messages."""
import random

from second_bytes import MOST_BODY, MOST_HEAD, MOST_HEADERS

URIS = (b"rtsp://gate.example/m",) * 9 + (
    b"RTSP://Gate.Example:554/m?x=1", b"rtsp://gate.example", b"rtsp://gate.example:8554/m", b"rtsp://other.example/x",
    b"*", b"*", b"rtsp:/x", b"rtsp://[::1]:5/a", b"rtsp://gate.example:65536/a", b"rtsp://gate.example:00554/z",
    b"rtsp://gate_x~.-/y", b"rtsp://gate.example/\x7f", b"rtsp://gate.example:/q", b"rtspx://gate.example/m",
    b"rtsp://media.example/m", b"rtsp://gate.example/m/1", b"rtsp://gate.example/m/2")
FRONTS = (b"rtsp://gate.example",) * 9 + (b"RTSP://Gate.Example:554", b"rtsp://gate.example:00554")
NAMES = (b"Accept", b"ACCEPT", b"Session", b"Require", b"Proxy-Require", b"Content-Type", b"Content-Encoding",
         b"Transport", b"Range", b"Scale", b"User-Agent", b"X", b"Date", b"Content-Base", b"Unsupported", b"cseq",
         b"RTP-Info", b"Notify-Reason", b"Request-Status")
VALUES = (
    b"a", b"", b" x  y ", b"application/sdp", b"Application/SDP ; q=1", b"text/plain", b"gzip", b"abcd1234", b"007",
    b"rtsp://media.example/m/", b"end-of-stream", b"npt=0-", b"9999999999999999999", b"12345678901234567890")
BODIES = (
    b"v=0\r\na=control:rtsp://media.example/m/1\r\n", b"ok", b"", b"\n", b"$\0\0\0",
    b"a=control:RTSP://MEDIA.example:554/q\na=control:x\r\r\na=control:rtsp://media.example/z\r",
    b"\na=control:rtsp://media.example", b"position\r\n\r\n")
RANGES = (
    b"npt=0-", b"npt=10-15", b"npt=0.000-9.50", b"NPT=now-", b"npt=-20.50", b"npt=1:02:03.5000000009-", b"npt=5-3",
    b"npt=007.-9999999999.0000000009", b"npt=%050d.50-" % 7, b"smpte=0:0:1-", b"smpte-25=1:7:0-10:07:33:05.1",
    b"smpte-30-drop=1:2:3.5-", b"clock=19961108T142300.250Z-", b"Clock=19961108T142300Z-19961131T235960.000Z")
BAD_RANGES = (
    b"", b"npt", b"npt=-", b"npt=now", b"foo=1-", b"npt =1-", b"npt=10000000000-", b"npt=9999999999.1-",
    b"npt=1:60:00-",
    b"npt=0-;time=19970123T143720Z", b"npt=1- 2", b"npt=Now-", b"npt=1-2-3", b"npt=1:2:003-", b"smpte=-1:2:3",
    b"smpte=1:2-", b"smpte=1:2:60-", b"smpte=1:2:3:100-", b"clock=19961308T142300Z-", b"clock=19961108T142300-")
SCALES = (b"1", b"-2.5", b"0.", b"1.123456789", b"9999999999", b"+1", b".5", b"1.1234567890", b"12345678901", b"")
TRANSPORTS = (
    b"RTP/AVP/TCP", b"RTP/AVP/TCP;unicast", b"rtp/avp/tcp ; Interleaved=%d-%d", b"RTP/AVP/TCP;interleaved=%d",
    b"RTP/AVP;unicast;client_port=5000-5001,RTP/AVP/TCP;unicast;interleaved=%d-%d", b'RTP/AVP/TCP;mode="PLAY"',
    b'RTP/AVP/TCP;x="a,b;c";mode=play;interleaved=%d-%d', b"RTP/AVP/TCP;interleaved=3-3, RTP/AVP/TCP;interleaved=%d-%d",
    b"RTP/AVP/TCP;interleaved=%d-%d;interleaved=0-1", b"RTP/AVP/TCP;;multicast=no;interleaved=%d-%d;")
BAD_TRANSPORTS = (
    b"", b"RTP/AVP;unicast;client_port=5000-5001", b"RTP/AVP/TCP;mode=RECORD", b"RTP/AVP/TCP;interleaved=255",
    b'RTP/AVP/TCP;a="b', b"rtp/avp/tcp ; Interleaved=3-3,RTP/AVP/TCP;Multicast", b"RTP/AVP/TCP;interleaved",
    b"RTP/AVP/TCP;interleaved=256-1", b"RTP/AVP/TCP;mode", b"RTP/AVP/TCP;interleaved = 0-1,", b"RTP/AVP/TCP;mode= PLAY")
GRANTS = (b"RTP/AVP/TCP;unicast;interleaved=%d-%d",) * 4 + (
    b"rtp/avp/tcp; interleaved=%d-%d ;ssrc=0A0B0C0D", b"RTP/AVP/TCP;ssrc=0a0b0c0d/11111111;interleaved=%03d-%d",
    b"RTP/AVP/TCP;ssrc=xyz;interleaved=%d-%d;ssrc=12345678;SSRC=9abcdef0", b'RTP/AVP/TCP;interleaved=%d-%d;a="b,c"')
BAD_GRANTS = (
    b"", b"RTP/AVP;interleaved=%d-%d", b"RTP/AVP/TCP", b"RTP/AVP/TCP;interleaved", b"RTP/AVP/TCP;interleaved=9",
    b"RTP/AVP/TCP;interleaved=%d-%d,", b"RTP/AVP/TCP;interleaved=254-255", b'RTP/AVP/TCP;interleaved=%d-%d;a="')
TIMEOUTS = (b"",) * 6 + (b";timeout=30", b"; x", b";x; timeout=060 ", b";timeout=;timeout=9999999999", b";Timeout=5",
                         b";timeout=10000000000", b";timeout=0")
INFOS = (
    b'url="rtsp://media.example/m/1" ssrc=0A0B0C0D:seq=7;rtptime=99', b'url="x" ssrc=00000000:seq=65535',
    b'url="rtsp://media.example/m/1"  ssrc=0a0b0c0d : seq=007 ; a=b;c , url="rtsp://x/"\tssrc=12345678:rtptime=0;seq=1',
    b'url="a" ssrc=00000000:x ssrc=11111111:seq=5', b'url="a" ssrc=0:seq=1', b'url="a" ssrc=00000000:seq=65536', b"",
    b'url="a" ssrc=00000000:seq', b'url="a" ssrc=00000000:Seq=1;seq=2;seq=3', b'url="a"', b'url="a;b" ssrc=00000000:a',
    b'url="a" ssrc=00000000:seq=1;', b'url="a" ssrc=00000000:seq=1 ssrc=00000000:seq=x', b"url=a;seq=1")
CODES = (100, 199, 250, 299, 300, 302, *range(400, 416), *range(450, 475), 499, *range(500, 507), 551, 551, 552, 553,
         599, 600, 999)
IDS = (b"a", b"$-_.+", b"A" * 256, b"abcd1234", b"zzzz9999")
BAD_IDS = (b"", b"a b", b" ;timeout=5", b"A" * 257, b"a\x80", b"abcd ;x", b";timeout=1")
REASONS = (b"end-of-stream",) * 8 + (b"End-Of-Stream", b"media-properties-update", b"scale-change", b"other", b"")
STATUSES = (b"cseq=%d", b'CSeq=%d status=200 reason="OK"', b"cseq=0%d ", b"cseq=%d;", b"cseq= %d", b"%d", b"cseq=x%d")
NOISE_UP = (
    b"A" * MOST_HEAD, b"A" * (MOST_HEAD - 1), b"HELLO\r\n\r\n", b"RTSP/1.0 200 OK\r\nCSeq: 1\r\n\r\n", b"$\0\0\3ab",
    b"OPTIONS *\r RTSP/1.0\r\n\r\n", b"OPTIONS * RTSP/1.0\r\nno colon\r\n\r\n", b"RTSP/1.0 099 OK\r\n\r\n")
NOISE_DOWN = (
    b"HELLO\r\n\r\n", b"RTSP/1.0 200 OK\r\nCSeq: 1\r\n\r\n", b"RTSP/2.0 200 OK\r\n\r\n", b"$\0\0\3ab",
    b"RTSP/2.0 100\r\nCSeq: 999\r\n\r\n", b"RTSP/2.0 200 OK\r\nCSeq: 1234567890\r\n\r\n",
    b"RTSP/2.0 200\r\nCSeq: 1\r\n\r\n", b"RTSP/2.0 1000\r\nCSeq: 1\r\n\r\n",
    b"PLAY_NOTIFY * RTSP/2.1\r\nCSeq: x\r\n\r\n",
    b"SETUP rtsp://media.example/m RTSP/2.0\r\nCSeq: 3\r\nSession: abcd1234\r\n\r\n")


class Words:
    """Draws bytes, with noise in heads and bodies."""

    def __init__(self, number):
        self.random = random.Random(number)
        self.noise = self.one((0, 0.3, 1, 1, 1, 4))

    def one(self, choices):
        return self.random.choice(choices)

    def seldom(self, chance):
        return self.random.random() < chance

    def odd(self, chance):
        """Whether something that is not sensible is said here."""
        return self.seldom(chance * self.noise)

    def pick(self, weights):
        """One of the keys of a table, by its weights."""
        return self.random.choices(list(weights), list(weights.values()))[0]

    def end(self):
        return b"\n" if self.odd(0.1) else b"\r\n"

    def header(self):
        """A header of any name, which may go on in the next line, and may be wrong."""
        name = self.one((b"Bad Name", b"", b"X ")) if self.odd(0.003) else self.one(NAMES)
        return self.spelled(name, self.one(VALUES))

    def spelled(self, name, value):
        text = name + (self.one((b":", b":\t ", b":  ")) if self.odd(0.1) else b": ") + value
        if self.odd(0.01):
            text += self.end() + self.one((b" ", b"\t")) + self.one((b"", b"  ", b"\t", b"", b"more", b"a:b"))
        return text + self.one((b"\rq", b"\0")) if self.odd(0.001) else text

    def body(self):
        """A body, and seldom one at the limit."""
        return b"b" * (MOST_BODY - self.one((0, 0, 1))) if self.odd(0.005) else self.one(BODIES)

    def filled(self, head):
        """The lines of a head, seldom with a header more that makes it as long as a head may be, or a byte longer."""
        left = MOST_HEAD + self.one((0,) * 8 + (1, -1)) - len(head) - len(b"Long: \r\n")
        if left < 0 or not self.odd(0.01):
            return head
        first, _, rest = head.partition(b"\n")
        return first + b"\nLong: " + b"l" * left + b"\r\n" + rest

    def message(self, first, number, fields=(), body=b""):
        """A message with this first line, this number and these fields; a value may be None."""
        headers = [self.spelled(name, value) for name, value in fields if value is not None]
        headers += [self.header() for _ in range(self.one((1, 1, 2, 3)))] if self.odd(0.06) else []
        if body or self.odd(0.1):
            size = self.one((b"-1", b"65537", b"12345678901", b"x")) if self.odd(0.003) else b"%d" % len(body)
            headers.append(self.one((b"Content-Length: ", b"content-length:0")) + size)
            headers.append(b"Content-Type: " + self.one((b"application/sdp", b"application/SDP;x", b"text/x")))
        if self.seldom(0.2):
            self.random.shuffle(headers)
        at = self.random.randrange(len(headers) + 1) if self.seldom(0.1) else 0
        headers[at:at] = [] if self.odd(0.002) else [b"CSeq: " + number]
        if self.odd(0.001):
            headers.insert(0, b" x")
        if self.odd(0.01):
            headers += [b"X: a"] * (MOST_HEADERS + self.one((0,) * 8 + (1, -1)) - len(headers))
        lines = b"".join(line + self.end() for line in [first] + headers)
        return (b"\r\n\n" if self.odd(0.05) else b"") + self.garbled(self.filled(lines + self.end())) + body

    def garbled(self, head):
        """A head, seldom with a byte that is another one, or that is missing."""
        if not self.odd(0.004):
            return head
        at = self.random.randrange(len(head))
        return head[:at] + self.one((b"", *(b"%c" % byte for byte in b"\0\r\n\t :;,=\"*-/0aZ\x80"))) + head[at + 1:]

    def frame(self, channel):
        payload = b"f" * (65535 if self.odd(0.002) else self.random.randrange(5))
        return b"$" + bytes([channel]) + len(payload).to_bytes(2, "big") + payload
