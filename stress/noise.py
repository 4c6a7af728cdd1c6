"""What goes wrong on a client's link: damaged frames, bytes that are no frames, and messages that a session refuses."""
from .fix import stamp, written

SILENTLY = b"\0"


def garbage(random):
    """Bytes between frames: without a meaning, or the beginning of a frame that doesn't go on."""
    draw = random.random()
    if draw < 0.6:
        return random.randbytes(random.randint(1, 80))
    if draw < 0.8:
        return b"8=FIX.4.4\x019=%d\x0135=D\x01" % random.randint(5, 300)
    return random.choice([b"8=FIX.4.2\x019=5\x0135=0\x0110=161\x01", b"8=FIX.4.4\x01", b"\x01\x01", b"10=000\x01"])


def damaged(random, frame):
    """The frame with another byte in one place, or without its end."""
    at = random.randrange(len(frame))
    if random.random() < 0.3:
        return frame[:at]
    return frame[:at] + bytes([(frame[at] + random.randint(1, 255)) % 256]) + frame[at + 1:]


def oversized(random, session):
    """More than a frame may have. It uses up no number."""
    whole = session.frame(session.next_out, b"D", [(58, b"x" * 9_000)])
    return random.choice([whole, b"8=FIX.4.4\x019=8193\x01"])


def wrong_logons(session):
    """Frames that a link is closed for without a word, and one that is answered by a Logout: each with that answer."""
    right = [(98, b"0"), (108, b"%d" % session.interval)]
    names = [(49, session.name), (56, session.gateway)]
    number = [(34, b"%d" % session.next_out)]

    def frame(kind=b"A", names=names, number=number, body=right):
        return written([(35, kind)] + names + number + [(52, stamp())] + body)

    yield frame(names=[(49, session.name), (56, b"OTHER")]), SILENTLY
    yield frame(names=[(49, b"OTHER"), (56, session.gateway)]), SILENTLY
    yield frame(kind=b"0"), SILENTLY
    yield frame(number=[]), SILENTLY
    yield frame(number=[(34, b"0")]), SILENTLY
    yield frame(body=[(98, b"1"), right[1]]), SILENTLY
    yield frame(body=[(98, b"0"), (108, b"3601")]), SILENTLY
    yield frame(body=[(98, b"0")]), SILENTLY
    yield frame(body=right + [(58, b"")]), SILENTLY
    yield frame(body=right + right), SILENTLY
    yield frame(body=right + [(141, b"X")]), SILENTLY
    yield frame(number=[(34, b"2")], body=right + [(141, b"Y")]), SILENTLY
    if session.expected > 1:
        yield frame(number=[(34, b"1")]), b"MsgSeqNum too low"


def administrative(random, session, now):
    """A message that gets a session Reject, of which no D, F or G is."""
    kind, body, tag, reason = random.choice([
        (b"1", [], 112, 1), (b"2", [(16, b"0")], 7, 1), (b"2", [(7, b"1")], 16, 1),
        (b"2", [(7, b"x"), (16, b"0")], 7, 6), (b"2", [(7, b"1"), (16, b"-")], 16, 6),
        (b"2", [(7, b"0"), (16, b"0")], 7, 5), (b"4", [(123, b"Y")], 36, 1), (b"4", [(123, b"Y"), (36, b"x")], 36, 6),
        (b"4", [(123, b"Y"), (36, b"1")], 36, 5), (b"4", [(36, b"1")], 36, 5), (b"4", [], 36, 1),
        (b"0", [(58, b"")], 58, 4), (b"1", [(112, b"twice"), (112, b"twice")], 112, 13)])
    number = session.send(kind, body, now)
    session.provoked[number] = [(45, b"%d" % number), (371, b"%d" % tag), (372, kind), (373, b"%d" % reason)]


def fatal(random, session, now):
    """A message that ends the session by a Logout, with which text it begins."""
    draw = random.random()
    if draw < 0.3:
        session.put(session.frame(1, b"0", []), now)
        return b"MsgSeqNum too low"
    if draw < 0.6:
        body = [(35, b"0"), (49, session.name), (56, session.gateway), (52, stamp())]
        session.put(written(body), now)
        return b"MsgSeqNum missing"
    tag = random.choice([49, 56])
    number = session.number(b"0", [], False)
    names = {49: session.name, 56: session.gateway, tag: b"OTHER"}
    session.put(written([(35, b"0"), *names.items(), (34, b"%d" % number), (52, stamp())]), now)
    session.provoked[number] = [(45, b"%d" % number), (371, b"%d" % tag), (372, b"0"), (373, b"9")]
    return b"CompID problem"
