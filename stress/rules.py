"""The refusals of docs/RULES.md, read for themselves: which row a client's message meets."""
from .fix import worth

REQUIRED = {b"D": (11, 54, 55, 38, 40), b"F": (11, 41), b"G": (11, 41, 38, 40)}
IDS = {b"D": (11,), b"F": (11, 41), b"G": (11, 41)}
FORMATS = {b"D": (54, 38, 40, 44, 59, 528, 110), b"F": (), b"G": (54, 38, 40, 44, 59, 528, 110)}
FLOATS = (38, 44, 110)
LIFE_TIMES = {b"D": (b"0", b"3", b"4"), b"G": (b"0", b"3")}
FILL_OR_KILL = b"4"
SIDES = {b"1": b"B", b"2": b"S", b"5": b"T", b"6": b"E"}
MOST_OPEN = 10_000
MOST_REPLACES = 65_535
MOST_PENDING = 4


def is_text_of(value, most):
    return 1 <= len(value) <= most


def field_fault(fields):
    """The first empty or repeated field: its tag and SessionRejectReason."""
    before = set()
    for tag, value in fields:
        if not value:
            return tag, 4
        if tag in before:
            return tag, 13
        before.add(tag)
    return None


def session_fault(kind, fields):
    """Which session Reject a D, F or G gets: RefTagID and SessionRejectReason, or None."""
    given = dict(reversed(fields))
    missing = [(tag, 1) for tag in REQUIRED[kind] if tag not in given]
    lengths = [(tag, 5) for tag in IDS[kind] if tag in given and not is_text_of(given[tag], 64)]
    formats = [(tag, 6) for tag in FORMATS[kind] if tag in given and not is_format(tag, given[tag])]
    return field_fault(fields) or next(iter(missing + lengths + formats), None)


def is_format(tag, value):
    return worth(value) is not None if tag in FLOATS else len(value) == 1


def in_range(amount, least, most):
    return amount.denominator == 1 and least <= amount <= most


def terms(kind, given):
    """The rows on 40, 59 and 18: what orders and replaces share, in front."""
    yield given[40] != b"2", 11, b"order type"
    yield given.get(59, b"0") not in LIFE_TIMES[kind], 11, b"time in force"
    yield given.get(18, b"6") != b"6", 11, b"execution instruction"


def amounts(given):
    """The rows on 38, 110 and 44."""
    shares = worth(given[38])
    yield not in_range(shares, 1, 999_999), 13, b"quantity"
    yield 110 in given and not in_range(worth(given[110]), 0, shares), 13, b"minimum quantity"
    yield 44 not in given, 99, b"price missing"
    price = worth(given.get(44, b"1")) * 10_000
    yield price.denominator != 1, 99, b"price not in 1/10000"
    yield not 1 <= price <= 1_999_999_900, 99, b"price out of range"


def port_rows(state):
    yield state == b"ended", 2, b"market session ended"
    yield state.isdigit(), 2, b"port fault " + state


def is_symbol(text):
    return is_text_of(text, 8) and all(33 <= it <= 126 for it in text)


def new_order_rows(given, book):
    yield given[11] in book.used, 6, b"duplicate ClOrdID"
    yield from port_rows(book.port_state)
    yield given[54] not in SIDES, 11, b"side"
    yield not is_symbol(given[55]), 1, b"symbol"
    yield from terms(b"D", given)
    yield given.get(528, b"A") not in (b"A", b"P", b"R"), 11, b"capacity"
    yield from amounts(given)
    yield book.count_open() >= MOST_OPEN, 3, b"too many open orders"


def request_rows(kind, given, book, order):
    """The rows of F and G; the order is what 41 names, or None."""
    yield given[11] in book.used, 6, b"duplicate ClOrdID"
    yield order is None, 1, b"unknown order"
    yield order.closed, 0, b"too late"
    yield from port_rows(book.port_state)
    yield order.waits_for(b"F") or kind == b"G" and order.replaces_pending() >= MOST_PENDING, 3, b"already pending"
    if kind == b"F":
        return
    own = {54: order.side, 55: order.symbol, 528: order.capacity}
    yield any(given.get(tag, value) != value for tag, value in own.items()), 99, b"side, symbol or capacity"
    for holds, _, text in [*terms(kind, given), *amounts(given)]:
        yield holds, 99, text
    yield worth(given[38]) <= order.executed, 99, b"total not above executed"
    yield order.replaces >= MOST_REPLACES, 2, b"replace limit"


def verdict(rows):
    """The code and text of the first row that holds, or None: accepted."""
    return next(((code, text) for holds, code, text in rows if holds), None)
