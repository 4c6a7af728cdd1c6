"""The one unlawful thing that a hostile port says. A maker gives its payload, or None while it can't be said."""
from . import ouch

NOBODY = b"G9999999999999"
BEHIND_A_LOGIN = ("login_skips", "login_elsewhere", "bad_login_number")


def any_live(market, suits=lambda order: True):
    return next((it for it in market.live() if suits(it)), None)


def of_live(make, suits=lambda order: True):
    """A payload about an order that is open, where there is one."""
    def made(market, waiting):
        order = any_live(market, suits)
        return make(order) if order else None
    return made


def of_waiting(market, waiting):
    """A Cancel Reject of an order that waits for its answer."""
    entered = next((it for _, it in waiting if it[:1] == b"O" and it[1:15] not in market.used), None)
    return ouch.cancel_reject(entered[1:15]) if entered else None


def of_second(make):
    """A payload about a Replace Order whose order waits for the answer to the one before it."""
    def made(market, waiting):
        asked = [it for _, it in waiting if it[:1] == b"U" and it[15:29] not in market.used]
        for payload in asked:
            first = next((it for it in asked if it[15:29] == payload[1:15]), None)
            order = market.by_token.get(first[1:15]) if first else None
            if order and order.live and order.token == first[1:15]:
                return make(order, ouch.asked(payload))
        return None
    return made


def replaced_early(order, second):
    given = order.entered._replace(token=second.new)
    return ouch.replaced(given, order.token, max(1, order.open), second.price, 1, b"L")


def always(payload):
    return lambda market, waiting: payload


def twice(order):
    return ouch.accepted(order.entered._replace(token=order.token), order.open, order.price, 1, b"L")


def unasked(order):
    return ouch.replaced(order.entered._replace(token=order.token), order.token, order.open, order.price, 1, b"L")


PAYLOADS = {
    "empty": always(b""),
    "type_zero": always(b"\0" * 28),
    "short_accepted": always(b"A"),
    "canceled_unknown": always(ouch.canceled(NOBODY, 1, b"U")),
    "executed_unknown": always(ouch.executed(NOBODY, 1, 10_000, 1)),
    "broken_unknown": always(ouch.broken(NOBODY, 1)),
    "one_too_many": of_live(lambda it: ouch.executed(it.token, it.open + 1, 10_000, 0)),
    "accepted_twice": of_live(twice),
    "replaced_unasked": of_live(unasked),
    "replaced_out_of_order": of_second(replaced_early),
    "rejected_out_of_order": of_second(lambda order, second: ouch.rejected(second.new, b"Z")),
    "rejected_accepted": of_live(lambda it: ouch.rejected(it.token, b"Z")),
    "cancel_reject_waiting": of_waiting,
    "modify": always(b"M" + b" " * 27),
    "aiq": always(b"D" + b" " * 36),
    "correction": always(b"F" + b" " * 37),
    "reference": always(b"G" + b" " * 48),
    "match_twice": of_live(lambda it: ouch.executed(it.token, 1, 10_000, next(iter(it.trades))), lambda it: it.trades),
    "bust_unknown": of_live(lambda it: ouch.broken(it.token, 0), lambda it: 0 not in it.trades),
}
PACKETS = {
    "packet_type": ouch.packet(b"Q", b"what is this"),
    "long_heartbeat": ouch.packet(b"H", b"x"),
    "second_login": ouch.login_accepted(b"DAY", 1),
    "end": ouch.packet(b"Z"),
    "no_length": b"\0\0",
}


def login_reply(name, session, wanted):
    """The unlawful answer to a login that wants this number."""
    return {"login_skips": ouch.login_accepted(session, wanted + 1),
            "login_elsewhere": ouch.login_accepted(b"ELSEWHERE", wanted),
            "bad_login_number": ouch.login_accepted(session, 0)}[name]
