"""OUCH 4.2 over SoupBinTCP 3.00: packets of a stream, what the gateway asks, what a market says."""
import struct
import time
from collections import namedtuple

Enter = namedtuple("Enter", "token side shares stock price life firm display capacity sweep minimum cross customer")
Replace = namedtuple("Replace", "old new shares price life display sweep minimum")
Cancel = namedtuple("Cancel", "token shares")

ASKS = {
    b"O": (Enter, struct.Struct(">14s c I 8s I I 4s c c c I c c")),
    b"U": (Replace, struct.Struct(">14s 14s I I I c c I")),
    b"X": (Cancel, struct.Struct(">14s I")),
}


class Malformed(Exception):
    """Bytes that the gateway must not write."""


def asked(payload):
    """What a payload of the gateway asks."""
    made, layout = ASKS.get(payload[:1], (None, None))
    if made is None or len(payload) != 1 + layout.size:
        raise Malformed(f"no OUCH message: {payload!r}")
    return made(*layout.unpack(payload[1:]))


def packet(kind, payload=b""):
    return struct.pack(">H", len(payload) + 1) + kind + payload


def login_accepted(session, number):
    return packet(b"A", session.rjust(10) + b"%20d" % number)


class Packets:
    """Takes a stream's bytes and gives its packets: type and payload."""

    def __init__(self):
        self.bytes = b""

    def feed(self, data):
        self.bytes += data
        while len(self.bytes) >= 2:
            size = 2 + struct.unpack(">H", self.bytes[:2])[0]
            if size == 2:
                raise Malformed("a packet of length 0")
            if len(self.bytes) < size:
                return
            whole, self.bytes = self.bytes[:size], self.bytes[size:]
            yield whole[2:3], whole[3:]


def said(kind, *parts):
    return kind + struct.pack(">Q", time.time_ns() % 86_400_000_000_000) + b"".join(parts)


def number(value, size=4):
    return value.to_bytes(size, "big")


def standing(token, it, shares, price, reference, state):
    """What Accepted and Replaced have in common."""
    return b"".join([token, it.side, number(shares), it.stock, number(price), number(it.life), it.firm, it.display,
                     number(reference, 8), it.capacity, it.sweep, number(it.minimum), it.cross, state])


def accepted(it, shares, price, reference, state):
    return said(b"A", standing(it.token, it, shares, price, reference, state), b" ")


def replaced(it, old, shares, price, reference, state):
    return said(b"U", standing(it.token, it, shares, price, reference, state), old, b" ")


def canceled(token, shares, reason):
    return said(b"C", token, number(shares), reason)


def executed(token, shares, price, match):
    return said(b"E", token, number(shares), number(price), b"R", number(match, 8))


def broken(token, match, reason=b"E"):
    return said(b"B", token, number(match, 8), reason)


def rejected(token, reason):
    return said(b"J", token, reason)


def cancel_pending(token):
    return said(b"P", token)


def cancel_reject(token):
    return said(b"I", token)
