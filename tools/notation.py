"""Bytes as text that a person can read and write, and back: the notation of tools/transcript, whose head has it all.

It prints nothing and has no exit status: tools/transcript and the tools beside it import it.
"""
import re

LETTERS = {"n": b"\n", "r": b"\r", "t": b"\t", "s": b" ", "p": b"|", "\\": b"\\"}
NAMES = {10: "\\n", 13: "\\r", 9: "\\t", 92: "\\\\", 124: "\\p"}
PLAIN = re.compile(rb"[ -\[\]-z~]*")
TOKEN = re.compile(r"\|"
                   r"|\\x(?P<code>[0-9a-fA-F]{2})"
                   r"|\\(?P<letter>[nrtsp\\])"
                   r"|\{(?P<count>[0-9]+)\*(?P<char>.)\}"
                   r"|(?P<bad>\\)"
                   r"|(?P<plain>[^|\\])", re.DOTALL)


class Unreadable(Exception):
    """A line of text that has no meaning."""


def token_bytes(found):
    """The bytes of one sign of a body."""
    if found["code"]:
        return bytes([int(found["code"], 16)])
    if found["letter"]:
        return LETTERS[found["letter"]]
    if found["count"]:
        return found["char"].encode("latin-1") * int(found["count"])
    if found["bad"]:
        raise Unreadable("a backslash with nothing known after it")
    if found["plain"]:
        return found["plain"].encode("latin-1")
    return b"\r\n"


def body_bytes(text):
    """The bytes that a body's text means."""
    if text.startswith("hex:"):
        return bytes.fromhex(text[4:])
    return b"".join(token_bytes(found) for found in TOKEN.finditer(text))


def is_binary(body):
    """Whether a body reads better in hexadecimal."""
    odd = sum(1 for byte in body if byte not in b"\t\n\r" and not 32 <= byte <= 126)
    return body[:1] == b"$" or odd * 4 > len(body)


def line_text(line):
    """The signs of a piece of a body that holds no CR LF."""
    if PLAIN.fullmatch(line):
        return line.decode("ascii")
    return "".join(NAMES.get(byte) or (chr(byte) if 32 <= byte <= 126 and byte not in b"{}" else "\\x%02x" % byte)
                   for byte in line)


def body_text(body):
    """A body's text; `body_bytes` of it is the body."""
    if is_binary(body):
        return "hex:" + body.hex()
    text = "|".join(line_text(line) for line in body.split(b"\r\n"))
    if text.startswith("hex:"):
        text = "\\x68" + text[1:]
    if text.startswith(" "):
        text = "\\s" + text[1:]
    if text.endswith(" "):
        text = text[:-1] + "\\s"
    return text


def lines_text(body):
    """A body as lines, each in the notation, for a place that has room for more than one line."""
    if is_binary(body):
        return "hex:" + body.hex()
    return "\n".join(line_text(line) for line in body.split(b"\r\n")).rstrip("\n")
