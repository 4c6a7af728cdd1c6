"""FIX 4.4 on the wire: how a frame is written, how a stream is read strictly, and how numbers stand in fields."""
import re
import time
from fractions import Fraction

SOH = b"\x01"
HEAD = re.compile(rb"8=FIX\.4\.4\x019=([1-9][0-9]{0,5})\x01")
FLOAT = re.compile(rb"-?([0-9]+\.?[0-9]*|\.[0-9]+)")
STAMP = re.compile(rb"[0-9]{8}-[0-2][0-9]:[0-5][0-9]:[0-5][0-9]\.[0-9]{3}")
HEADER = [8, 9, 35, 49, 56, 34, 52]


class Broken(Exception):
    """Bytes that the gateway must not write."""


class Frame:
    """A frame that was read: its fields in their order."""

    def __init__(self, raw):
        self.raw = raw
        self.fields = [(int(tag), value) for tag, _, value in (it.partition(b"=") for it in raw[:-1].split(SOH))]
        self.first = dict(reversed(self.fields))
        self.kind = self.first.get(35, b"")
        self.repeated = self.first.get(43) == b"Y"
        self.number = int(self.first.get(34, b"0"))

    def __getitem__(self, tag):
        return self.first.get(tag)

    def body(self):
        """The fields between header and trailer, 60 at the end of a report among them."""
        return self.fields[9 if self.repeated else 7:-1]

    def has_right_header(self):
        wanted = HEADER + ([43, 122] if self.repeated else [])
        stamps = [value for tag, value in self.fields if tag in (52, 122, 60)]
        return [tag for tag, _ in self.fields[:len(wanted)]] == wanted and all(map(STAMP.fullmatch, stamps))


class Reader:
    """Takes a stream's bytes and gives its frames; what is no frame is Broken."""

    def __init__(self):
        self.bytes = b""

    def feed(self, data):
        self.bytes += data
        frames, begin = [], 0
        while (end := self.end_of(begin)) and end <= len(self.bytes):
            raw, begin = self.bytes[begin:end], end
            if raw[-7:] != trailer(raw[:-7]):
                raise Broken(f"check sum or body length: {show(raw)}")
            frames.append(Frame(raw))
        self.bytes = self.bytes[begin:]
        return frames

    def end_of(self, begin):
        """Where the frame ends that begins there, or 0 where its head isn't whole yet."""
        head = HEAD.match(self.bytes, begin)
        if head:
            return head.end() + int(head[1]) + 7
        rest = self.bytes[begin:begin + 21]
        if len(rest) > 20 or not b"8=FIX.4.4\x019=".startswith(rest[:12]):
            raise Broken(f"no head: {show(rest)}")
        return 0


def trailer(text):
    return b"10=%03d\x01" % (sum(text) % 256)


def is_whole(data):
    """Whether bytes begin with a whole frame."""
    head = HEAD.match(data)
    end = head.end() + int(head[1]) + 7 if head else 0
    return 0 < end <= len(data) and data[end - 7:end] == trailer(data[:end - 7])


def written(fields):
    """A frame of these fields, 35 first, with head and trailer."""
    body = b"".join(b"%d=%s\x01" % field for field in fields)
    text = b"8=FIX.4.4\x019=%d\x01%s" % (len(body), body)
    return text + trailer(text)


def stamp():
    now = time.time()
    return time.strftime("%Y%m%d-%H:%M:%S", time.gmtime(now)).encode() + b".%03d" % (now * 1000 % 1000)


def show(raw):
    return raw.replace(SOH, b"|").decode("latin-1")


def worth(text):
    """A float's exact value, or None where the text is none."""
    if text is None or not FLOAT.fullmatch(text):
        return None
    whole, _, part = text.partition(b".")
    sign = -1 if text.startswith(b"-") else 1
    return sign * (Fraction(int(whole.lstrip(b"-") or b"0")) + Fraction(int(part or b"0"), 10 ** len(part)))


def price_text(price):
    """A price in 1/10,000 as it is printed: no zeros behind, no point without a fraction."""
    whole, part = divmod(price, 10000)
    return (b"%d.%04d" % (whole, part)).rstrip(b"0") if part else b"%d" % whole
