"""The second reading of docs/FORMATS.md, its part on bytes: items, heads, fields, addresses, codes, messages.

`second_reading.py` has what the gateway does, `second_state.py` what it keeps. None shares anything with the program.
"""
import re

FRONT, UP = b"gate.example", b"media.example"
DEFAULT_PORT = 554
MOST_HEAD, MOST_BODY, MOST_HEADERS = 8192, 65536, 64
MOST_ID, MOST_TIMEOUT_DIGITS, MOST_SECONDS = 256, 10, 9_999_999_999

TOKEN = re.compile(rb"[A-Za-z0-9!#$%&'*+\-.^_`|~]+")
URI = re.compile(rb"(?i:rtsp://)([A-Za-z0-9._~\-]+|\[[0-9A-Fa-f:.]+\])(?::([0-9]{1,5}))?((?:[/?][\x21-\x7e]*)?)")
METHODS = (b"OPTIONS", b"DESCRIBE", b"SETUP", b"PLAY", b"PAUSE", b"TEARDOWN", b"GET_PARAMETER", b"SET_PARAMETER")
PUBLIC = b", ".join(METHODS)
REASONS = {
    200: b"OK", 400: b"Bad Request", 403: b"Forbidden", 404: b"Not Found", 405: b"Method Not Allowed",
    406: b"Not Acceptable", 408: b"Request Time-out", 410: b"Gone", 411: b"Length Required",
    412: b"Precondition Failed", 413: b"Request Entity Too Large", 414: b"Request-URI Too Large",
    415: b"Unsupported Media Type", 451: b"Parameter Not Understood", 452: b"Conference Not Found",
    453: b"Not Enough Bandwidth", 454: b"Session Not Found", 455: b"Method Not Valid in This State",
    456: b"Header Field Not Valid for Resource", 457: b"Invalid Range", 458: b"Parameter Is Read-Only",
    459: b"Aggregate operation not allowed", 460: b"Only aggregate operation allowed",
    461: b"Unsupported transport", 462: b"Destination unreachable", 500: b"Internal Server Error",
    501: b"Not Implemented", 502: b"Bad Gateway", 503: b"Service Unavailable", 504: b"Gateway Time-out",
    505: b"RTSP Version not supported", 551: b"Option not supported",
}
TOLD = {401: 403, 407: 403, 463: 403, 464: 503, 553: 503, 465: 500, 466: 500, 470: 502, 471: 502, 472: 502}
NOTIFY_REASONS = (b"end-of-stream", b"media-properties-update", b"scale-change")


def trim(text):
    return text.strip(b" \t")


class Fault(Exception):
    """Why a head can't be read."""


class Head:
    """A head that can be read: the first line's parts, and the headers with their values trimmed."""

    def __init__(self, raw):
        lines = [line[:-1] if line.endswith(b"\r") else line for line in raw.split(b"\n")[:-2]]
        self.read_first(lines[0])
        self.headers = []
        for line in lines[1:]:
            self.read_further(line)
        self.headers = [(name, trim(value)) for name, value in self.headers]

    def read_first(self, line):
        if b"\r" in line or b"\0" in line:
            raise Fault("Control")
        self.is_request = not line.startswith(b"RTSP/")
        parts = line.split(b" ") if self.is_request else line.split(b" ", 2)
        if self.is_request:
            if len(parts) != 3 or not all(parts) or not parts[2].startswith(b"RTSP/"):
                raise Fault("Start")
            self.method, self.uri, self.version = parts
        else:
            if len(parts) < 2 or not re.fullmatch(rb"[1-9][0-9]{2}", parts[1]):
                raise Fault("Start")
            self.version, self.code = parts[0], int(parts[1])

    def read_further(self, line):
        if b"\r" in line or b"\0" in line:
            raise Fault("Control")
        name, colon, value = line.partition(b":")
        if line[:1] in (b" ", b"\t"):
            if not self.headers:
                raise Fault("Colon")
            name, above = self.headers.pop()
            self.headers.append((name, above + b" " + trim(line)))
        elif not colon:
            raise Fault("Colon")
        elif not TOKEN.fullmatch(name):
            raise Fault("Name")
        elif len(self.headers) >= MOST_HEADERS:
            raise Fault("Many")
        else:
            self.headers.append((name, trim(value)))

    def field(self, wanted):
        """The value of the first header of a name."""
        return next((value for name, value in self.headers if name.lower() == wanted.lower()), None)

    def number(self, digits):
        """CSeq, where it has 1 to so many digits."""
        value = self.field(b"CSeq")
        return int(value) if value is not None and re.fullmatch(rb"[0-9]{1,%d}" % digits, value) else None


class Stream:
    """A stream of bytes, cut into items: ("frame", bytes), ("bad", kind) or ("message", head, body)."""

    def __init__(self):
        self.left, self.is_dead = b"", False

    def feed(self, piece):
        """The items that are whole now."""
        self.left += piece
        while not self.is_dead:
            self.left = re.sub(rb"\A(?:\r?\n)+", b"", self.left)
            item, size = self.first()
            if item is None:
                return
            self.left, self.is_dead = self.left[size:], item[0] == "bad"
            yield item

    def first(self):
        if self.left.startswith(b"$"):
            size = 4 + int.from_bytes(self.left[2:4], "big")
            return (("frame", self.left[:size]), size) if len(self.left) >= max(size, 4) else (None, 0)
        end = re.search(rb"(?:\A|\n)\r?\n", self.left)
        if end is None or end.end() > MOST_HEAD:
            return (("bad", "Head"), 0) if len(self.left) >= MOST_HEAD else (None, 0)
        try:
            head = Head(self.left[:end.end()])
        except Fault as fault:
            return ("bad", str(fault)), 0
        length = head.field(b"Content-Length")
        if length is not None and not re.fullmatch(rb"[0-9]{1,10}", length):
            return ("bad", "Length"), 0
        size = int(length or 0)
        if size > MOST_BODY:
            return ("bad", "Body"), 0
        whole = end.end() + size
        return (("message", head, self.left[end.end():whole]), whole) if len(self.left) >= whole else (None, 0)


def told_code(code):
    """The code that a player is told."""
    if 200 <= code <= 299:
        return 200
    return code if code in REASONS else TOLD.get(code, {4: 400, 5: 500}.get(code // 100, 502))


def parts_of(uri):
    """Host, port and rest of a URI."""
    found = URI.fullmatch(uri)
    port = int(found[2] or DEFAULT_PORT) if found else None
    return (found[1], port, found[3]) if found and port <= 65535 else None


def swap(one, other, uri):
    """The URI with the authority `other` in the place of `one`, and every other text as it was."""
    parts = parts_of(uri)
    is_ours = parts is not None and parts[0].lower() == one and parts[1] == DEFAULT_PORT
    return b"rtsp://" + other + parts[2] if is_ours else uri


def rewrite(body):
    """A session description under the gateway's address."""
    *ended, last = body.split(b"\n")
    lines = [(line[:-1], b"\r\n") if line.endswith(b"\r") else (line, b"\n") for line in ended] + [(last, b"")]
    begin = b"a=control:"
    return b"".join((begin + swap(UP, FRONT, line[10:]) if line.startswith(begin) else line) + end
                    for line, end in lines)


def session_of(value):
    """The id of a Session field and its timeout, or None where it can't be read."""
    name, *parameters = (value or b"").split(b";")
    if not re.fullmatch(rb"[A-Za-z0-9$\-_.+]{1,%d}" % MOST_ID, name):
        return None
    timeouts = (re.fullmatch(rb"timeout=([0-9]{1,%d})" % MOST_TIMEOUT_DIGITS, trim(one)) for one in parameters)
    return name, next((int(found[1]) for found in timeouts if found), None)


def named_number(value):
    """The number that Request-Status names, where it can be read."""
    found = re.fullmatch(rb"(?i:cseq)=([0-9]{1,9})(?: .*)?", value or b"", re.DOTALL)
    return int(found[1]) if found else None


def scale_of(value):
    """A Scale in the grammar as it is, or None."""
    return value if re.fullmatch(rb"-?[0-9]{1,10}(?:\.[0-9]{0,9})?", value or b"") else None


def split_unquoted(value, mark):
    """The parts between marks outside of double quotes, trimmed; and whether a quote is left open."""
    parts, is_quoted = [b""], False
    for byte in (value[at:at + 1] for at in range(len(value))):
        is_quoted ^= byte == b'"'
        if byte == mark and not is_quoted:
            parts.append(b"")
        else:
            parts[-1] += byte
    return [trim(part) for part in parts], is_quoted


def alternatives_of(value):
    """The alternatives of a Transport: protocol and (name, value) of each parameter; a value may be None."""
    parts, is_open = split_unquoted(value or b"", b",")
    if not value or is_open:
        return []
    read = []
    for part in parts:
        protocol, *parameters = split_unquoted(part, b";")[0]
        cut = [one.partition(b"=") for one in parameters if one]
        read.append((protocol.upper(), [(name.lower(), said if equals else None) for name, equals, said in cut]))
    return read


def channels_of(text, may_be_one):
    """The pair that `interleaved` has as its value."""
    found = re.fullmatch(rb"([0-9]{1,3})(?:-([0-9]{1,3}))?", text or b"")
    if found is None or (found[2] is None and not may_be_one):
        return None
    pair = int(found[1]), int(found[2]) if found[2] is not None else int(found[1]) + 1
    return pair if pair[0] != pair[1] and max(pair) <= 255 else None


def wanted(value):
    """What a player's Transport asks for: a pair, or "any", or None where no alternative fits."""
    for protocol, parameters in alternatives_of(value):
        said = dict(reversed(parameters))
        pair = channels_of(said[b"interleaved"], True) if b"interleaved" in said else "any"
        mode = said.get(b"mode", b"PLAY") or b""
        is_play = mode.upper() in (b"PLAY", b'"PLAY"')
        if protocol == b"RTP/AVP/TCP" and (b"multicast", None) not in parameters and is_play and pair:
            return pair
    return None


def granted(value):
    """The pair of a server's Transport and its ssrc, or None where it grants nothing."""
    read = alternatives_of(value)
    if len(read) != 1 or read[0][0] != b"RTP/AVP/TCP":
        return None
    pair = channels_of(dict(reversed(read[0][1])).get(b"interleaved"), False)
    sources = (said.split(b"/")[0] for name, said in read[0][1] if name == b"ssrc" and said is not None)
    source = next((one.upper() for one in sources if re.fullmatch(rb"[0-9A-Fa-f]{8}", one)), None)
    return (pair, source) if pair else None


def transport(pair, source=None):
    """A Transport as it is written."""
    return b"RTP/AVP/TCP;unicast;interleaved=%d-%d" % pair + (b";ssrc=" + source if source else b"")


def fraction(digits):
    """A fraction as it is written, from the digits behind its point."""
    left = (digits or b"")[:9].rstrip(b"0")
    return b"." + left if left else b""


def npt_time(text):
    if text == b"now":
        return text
    found = re.fullmatch(rb"(?:([0-9]+):([0-9]{1,2}):)?([0-9]+)(?:\.([0-9]*))?", text)
    if not found or (found[1] and (len(found[3]) > 2 or int(found[2]) > 59 or int(found[3]) > 59)):
        return None
    seconds = int(found[1] or 0) * 3600 + int(found[2] or 0) * 60 + int(found[3])
    rest = fraction(found[4])
    return b"%d" % seconds + rest if seconds + bool(rest) <= MOST_SECONDS else None


def smpte_time(text):
    found = re.fullmatch(rb"([0-9]{1,2}):([0-9]{1,2}):([0-9]{1,2})(?::([0-9]{1,2}))?(?:\.([0-9]{1,2}))?", text)
    if not found or int(found[2]) > 59 or int(found[3]) > 59:
        return None
    frames, parts = int(found[4] or 0), int(found[5] or 0)
    return b"%02d:%02d:%02d" % tuple(int(found[at]) for at in (1, 2, 3)) + \
        (b":%02d" % frames if frames or parts else b"") + (b".%02d" % parts if parts else b"")


def clock_time(text):
    found = re.fullmatch(rb"[0-9]{4}([0-9]{2})([0-9]{2})T([0-9]{2})([0-9]{2})([0-9]{2})(?:\.([0-9]*))?Z", text)
    if not found:
        return None
    month, day, hour, minute, second = (int(found[at]) for at in range(1, 6))
    is_sound = 1 <= month <= 12 and 1 <= day <= 31 and hour <= 23 and minute <= 59 and second <= 60
    return text[:15] + fraction(found[6]) + b"Z" if is_sound else None


UNITS = {b"npt": npt_time, b"smpte": smpte_time, b"smpte-30-drop": smpte_time, b"smpte-25": smpte_time,
         b"clock": clock_time}


def range_of(value):
    """A Range in the one written form, or None where it can't be read."""
    unit, equals, rest = (value or b"").partition(b"=")
    begin, dash, end = rest.partition(b"-")
    time = UNITS.get(unit.lower())
    if not equals or time is None or not dash or (not begin and (not end or unit.lower() != b"npt")):
        return None
    times = [time(one) if one else b"" for one in (begin, end)]
    return None if None in times else unit.lower() + b"=" + b"-".join(times)


WORD = TOKEN.pattern
PARAMETERS = rb"%s(?:=%s)?(?:[ \t]*;[ \t]*%s(?:=%s)?)*" % (WORD, WORD, WORD, WORD)
GROUP = rb"[ \t]+ssrc=[0-9A-Fa-f]{8}[ \t]*:[ \t]*"
SPEC = rb'url="([\x21\x23-\x2b\x2d-\x3a\x3c-\x7e]+)"((?:%s%s)+)' % (GROUP, PARAMETERS)
MOST = {b"seq": (5, 65_535), b"rtptime": (10, 4_294_967_295)}


def numbers_of(parameters):
    """The first number of each name among a group's parameters, or None where they are outside the grammar."""
    read = {}
    for parameter in re.split(rb"[ \t]*;[ \t]*", parameters):
        name, _, said = parameter.partition(b"=")
        if name in MOST:
            digits, most = MOST[name]
            if not re.fullmatch(rb"[0-9]{1,%d}" % digits, said) or int(said) > most:
                return None
            read.setdefault(name, int(said))
    return read


def info_of(value):
    """RTP-Info as it is written for a player, from that of the server, or None where it can't be read."""
    if not re.fullmatch(rb"%s(?:[ \t]*,[ \t]*%s)*" % (SPEC, SPEC), value or b""):
        return None
    streams = []
    for url, text in re.findall(SPEC, value):
        groups = [numbers_of(parameters) for parameters in re.findall(GROUP + b"(" + PARAMETERS + b")", text)]
        if None in groups:
            return None
        said = b"".join(b";%s=%d" % (name, groups[0][name]) for name in (b"seq", b"rtptime") if name in groups[0])
        streams.append(b"url=" + swap(UP, FRONT, url) + said)
    return b",".join(streams)


def message(start, number, headers=(), body=b""):
    """The text of a message; headers without a value are left out."""
    lines = [start] + [name + b": " + value for name, value in
                       [(b"CSeq", None if number is None else b"%d" % number), *headers,
                        (b"Content-Length", b"%d" % len(body) if body else None)] if value is not None]
    return b"".join(line + b"\r\n" for line in lines) + b"\r\n" + body


def reply(code, number, headers=(), body=b""):
    return message(b"RTSP/1.0 %d %s" % (code, REASONS[code]), number, headers, body)
