"""What a client knows from its reports alone, and whether each of them is what has to be told."""
from collections import Counter, deque
from dataclasses import dataclass, field

from . import rules
from .fix import price_text, worth


class Wrong(Exception):
    """A message of the gateway that isn't as it has to be."""


@dataclass
class Request:
    """A message that the gateway has to judge: once, and in the order of numbers."""
    number: int
    kind: bytes
    fields: list

    def __post_init__(self):
        self.given = dict(reversed(self.fields))
        self.name, self.origin = self.given.get(11), self.given.get(41)

    def session_fault(self):
        if self.kind in rules.REQUIRED:
            return rules.session_fault(self.kind, self.fields)
        if not (self.kind.isalnum() and len(self.kind) <= 2):
            return 35, 11
        return None


@dataclass
class Order:
    """An accepted order as its reports give it; prices and value in 1/10,000."""
    client: int
    number: int
    name: bytes
    side: bytes
    symbol: bytes
    capacity: bytes
    total: int
    price: int
    asked: dict
    open: int = 0
    executed: int = 0
    cancelled: int = 0
    value: int = 0
    replaces: int = 0
    waiting: bool = True
    closed: bool = False
    refused: bool = False
    pending: list = field(default_factory=list)
    trades: dict = field(default_factory=dict)
    changes: list = field(default_factory=list)
    cancels: int = 0
    first_name: bytes = b""
    falls: bool = False

    def waits_for(self, kind):
        return any(it.kind == kind for it in self.pending)

    def replaces_pending(self):
        return sum(it.kind == b"G" for it in self.pending)

    def take(self, request):
        """The pending request that this one is, which is answered now."""
        self.pending.remove(request)
        return request

    def status(self):
        """OrdStatus (39): the first that holds."""
        rows = [(self.refused, b"8"), (self.waits_for(b"F"), b"6"), (self.waits_for(b"G"), b"E"),
                (self.closed, b"2" if self.executed == self.total else b"4"), (self.waiting, b"A"),
                (self.executed > 0, b"1"), (True, b"0")]
        return next(text for holds, text in rows if holds)

    def restate(self):
        """While an order is open its 38 is what is executed and open."""
        if not self.closed:
            self.total = self.executed + self.open

    def close(self):
        self.open, self.closed, self.waiting = 0, True, False

    def body(self, kind, exec_id, request=None, **more):
        """The report that has to be told; `more` has the fields that only some have."""
        average = self.value // self.executed if self.executed else 0
        rows = [(37, b"%d" % self.number), (11, request.name if request else self.name),
                (41, request.origin if request else None), (17, exec_id), (19, more.get("busted")), (150, kind),
                (39, self.status()), (103, more.get("reason")), (378, b"5" if kind == b"D" else None),
                (55, self.symbol), (54, self.side), (38, b"%d" % self.total), (44, price_text(self.price)),
                (32, more.get("shares")), (31, more.get("at")), (151, b"%d" % self.open),
                (14, b"%d" % self.executed), (6, price_text(average)), (58, more.get("text"))]
        return [(tag, value) for tag, value in rows if value is not None]

    def reject(self, request, code, text):
        """The cancel reject (9) that has to be told."""
        return reject_body(b"%d" % self.number, request, self.status(), code, text)


def reject_body(number, request, status, code, text):
    return [(37, number), (11, request.name), (41, request.origin), (39, status),
            (434, b"1" if request.kind == b"F" else b"2"), (102, b"%d" % code), (58, text)]


def in_ten_thousandths(text):
    amount = worth(text) * 10_000
    if amount.denominator != 1 or text != price_text(int(amount)):
        raise Wrong(f"a price that isn't printed as prices are: {text!r}")
    return int(amount)


class Book:
    """All that one client asked and was told."""

    def __init__(self, client, capacity):
        self.client, self.capacity = client, capacity
        self.orders, self.listed, self.named, self.used = {}, [], {}, set()
        self.unjudged, self.skippable, self.judged = deque(), 0, 0
        self.exec_ids, self.order_ids = [], []
        self.port_state, self.may_fault = b"", False
        self.counts = Counter()

    def ask(self, request):
        self.unjudged.append(request)

    def count_open(self):
        return len(self.orders) - self.counts["closed"]

    def is_settled(self):
        self.drop_skippable()
        return not self.unjudged and (self.port_state != b"" or not self.pending_or_waiting())

    def pending_or_waiting(self):
        return any(it.pending or it.waiting for it in self.orders.values())

    def skip(self, count):
        """So many numbers were filled: each may have been a session Reject, which isn't sent again."""
        self.skippable += count

    def drop_skippable(self):
        while self.skippable and self.unjudged and self.unjudged[0].session_fault():
            self.unjudged.popleft()
            self.skippable -= 1
            self.counts["session rejects lost"] += 1

    def next_judged(self, frame, fits):
        """The request that this message judges: the next one, but for those whose session Reject was lost. One with a
        session fault is judged by no 8 or 9, also where that has its ClOrdID, which a later one may have again."""
        while self.unjudged:
            head = self.unjudged[0]
            if fits(head) and not (frame.kind in (b"8", b"9") and self.skippable and head.session_fault()):
                self.skippable, self.judged = 0, head.number
                return self.unjudged.popleft()
            if not self.skippable or not head.session_fault():
                raise Wrong(f"judges no next request, which is {head}")
            self.unjudged.popleft()
            self.skippable -= 1
            self.counts["session rejects lost"] += 1
        raise Wrong("judges a request that wasn't made, or was judged before")

    def handle(self, frame):
        """A message of the application or a session Reject, in its place."""
        self.counts[f"35={frame.kind.decode()}"] += 1
        told = {b"8": self.report, b"9": self.cancel_reject, b"3": self.session_reject, b"j": self.business_reject}
        told[frame.kind](frame)
        if frame.kind in (b"8", b"9"):
            self.used.add(frame[11])

    def expect(self, frame, wanted):
        body = frame.body()[:-1] if frame.kind in (b"8", b"9") else frame.body()
        if frame.kind in (b"8", b"9") and frame.body()[-1][0] != 60:
            raise Wrong("60 isn't behind the body")
        if body != wanted:
            raise Wrong(f"has to be {wanted}")

    def judgement(self, frame, rows):
        """Which row refuses. When a hostile port has its fault is known by the first refusal for it alone."""
        text = frame[58] or b""
        if self.may_fault and not self.port_state and (text == b"market session ended" or text[:11] == b"port fault "):
            self.port_state = b"ended" if text.startswith(b"market") else text[11:]
        return rules.verdict(rows) or (0, b"")

    def session_reject(self, frame):
        number = int(frame[45])
        request = self.next_judged(frame, lambda it: it.number == number)
        fault = request.session_fault()
        if fault is None:
            raise Wrong(f"a session Reject of what has no fault: {request}")
        self.expect(frame, [(45, frame[45]), (371, b"%d" % fault[0]), (372, request.kind), (373, b"%d" % fault[1])])

    def business_reject(self, frame):
        number = int(frame[45])
        request = self.next_judged(frame, lambda it: it.number == number)
        if request.kind in rules.REQUIRED or request.session_fault():
            raise Wrong(f"a business reject of {request}")
        self.expect(frame, [(45, frame[45]), (372, request.kind), (380, b"3"), (58, b"unsupported message type")])

    def cancel_reject(self, frame):
        """It answers a pending request of the order that 37 names, or refuses a new one."""
        order = self.orders.get(int(frame[37])) if frame[37].isdigit() else None
        request = next((it for it in order.pending if it.name == frame[11]), None) if order else None
        if request is None or frame[102] == b"6":
            self.refused_request(frame)
        elif order.closed:
            if request is not order.pending[0]:
                raise Wrong("requests of a closed order out of their order")
            self.forget(order, request)
            self.expect(frame, order.reject(request, 0, b"too late"))
        else:
            self.expect(frame, order.reject(request, 2, self.turned_down(frame, order, request)))
        text = frame[58].decode("latin-1")
        self.counts[f"102={frame[102].decode()} {text if len(text) > 1 else '(letter)'}"] += 1

    def turned_down(self, frame, order, request):
        """Why the market doesn't do a request. With the oldest pending replace all behind it fall, one after another."""
        oldest = next((it for it in order.pending if it.kind == b"G"), None)
        self.need(request is oldest or request.kind == b"F" and not order.falls, "a request out of its order")
        self.forget(order, request)
        if request.kind == b"F":
            return b"cancel rejected by market"
        text = b"earlier replace rejected" if order.falls else frame[58][:1]
        order.falls = order.replaces_pending() > 0
        return text

    def forget(self, order, request):
        order.take(request)
        if self.named.get(request.name) is order and request.name != order.name:
            del self.named[request.name]

    def refused_request(self, frame):
        request = self.next_judged(frame, lambda it: it.kind in (b"F", b"G") and it.name == frame[11])
        order = self.named.get(request.origin)
        code, text = self.judgement(frame, rules.request_rows(request.kind, request.given, self, order))
        if not text:
            raise Wrong(f"refuses what is to be accepted: {request}")
        number, status = (b"%d" % order.number, order.status()) if order else (b"NONE", b"8")
        self.expect(frame, reject_body(number, request, status, code, text))

    def report(self, frame):
        """An order that isn't known is judged by it; of one that is, a request is judged or the market has spoken."""
        self.exec_ids.append(int(frame[17]))
        if len(self.exec_ids) > 1 and self.exec_ids[-2] >= self.exec_ids[-1]:
            raise Wrong("17 doesn't rise")
        order, kind = self.orders.get(int(frame[37])), frame[150]
        self.need(order is None or not order.falls, "a report while replaces fall")
        if order is None:
            self.judged_new(frame, kind)
        elif kind in (b"6", b"E"):
            self.accepted_request(frame, order)
        else:
            told = {b"0": self.accepted, b"F": self.traded, b"4": self.cancelled, b"5": self.replaced,
                    b"D": self.reduced, b"H": self.busted, b"8": self.rejected}
            if kind not in told:
                raise Wrong("an ExecType that isn't one here")
            told[kind](frame, order)
        self.counts[f"150={kind.decode()}"] += 1

    def judged_new(self, frame, kind):
        """A new order is accepted (150=A), or refused by the row that holds."""
        number = int(frame[37])
        if self.order_ids and self.order_ids[-1] >= number:
            raise Wrong("37 doesn't rise")
        request = self.next_judged(frame, lambda it: it.kind == b"D" and it.name == frame[11])
        self.order_ids.append(number)
        code, text = self.judgement(frame, rules.new_order_rows(request.given, self))
        if text:
            self.expect(frame, refused_body(frame, request, code, text))
            self.counts[f"103={code} {text.decode()}"] += 1
            return
        order = self.opened(number, request)
        self.expect(frame, order.body(b"A", frame[17]))

    def opened(self, number, request):
        given = request.given
        total = int(worth(given[38]))
        order = Order(self.client, number, given[11], given[54], given[55], given.get(528, self.capacity), total,
                      int(worth(given[44]) * 10_000), dict(given), open=total, first_name=given[11])
        self.orders[number] = self.named[given[11]] = order
        self.listed.append(order)
        return order

    def accepted_request(self, frame, order):
        """A request is pending from now on (150=6 or E)."""
        request = self.next_judged(frame, lambda it: it.kind in (b"F", b"G") and it.name == frame[11])
        refusal = rules.verdict(rules.request_rows(request.kind, request.given, self, self.named.get(request.origin)))
        if refusal:
            raise Wrong(f"accepts what is to be refused with {refusal}: {request}")
        if self.named[request.origin] is not order or (frame[150] == b"E") != (request.kind == b"G"):
            raise Wrong(f"of another order or kind than {request}")
        order.pending.append(request)
        self.named[request.name] = order
        if request.kind == b"G":
            order.replaces += 1
            order.changes.append(dict(request.given))
        else:
            order.cancels += 1
        self.expect(frame, order.body(frame[150], frame[17], request))

    def need(self, holds, why):
        if not holds:
            raise Wrong(why)

    def shut(self, order):
        if not order.closed:
            self.counts["closed"] += 1
        order.close()

    def accepted(self, frame, order):
        self.need(order.waiting, "accepted twice")
        order.waiting = False
        order.open, order.price = int(frame[151]), in_ten_thousandths(frame[44])
        order.restate()
        self.expect(frame, order.body(b"0", frame[17]))

    def traded(self, frame, order):
        shares, at = int(frame[32]), in_ten_thousandths(frame[31])
        self.need(not order.waiting and 1 <= shares <= order.open, "a trade of more than is open")
        order.open -= shares
        order.executed += shares
        order.value += shares * at
        order.trades[frame[17]] = (shares, at)
        if not order.open:
            self.shut(order)
        self.expect(frame, order.body(b"F", frame[17], shares=b"%d" % shares, at=price_text(at)))

    def cancelled(self, frame, order):
        self.need(not order.waiting and not order.closed, "a cancel of what isn't open")
        order.cancelled += order.open
        self.shut(order)
        answered = next((it for it in order.pending if it.kind == b"F"), None)
        if answered:
            self.forget(order, answered)
        self.expect(frame, order.body(b"4", frame[17], answered, text=frame[58] and frame[58][:1]))

    def reduced(self, frame, order):
        left = int(frame[151])
        self.need(not order.waiting and 0 < left < order.open, "a reduction that is none")
        order.cancelled += order.open - left
        order.open = left
        order.restate()
        self.expect(frame, order.body(b"D", frame[17], text=frame[58][:1]))

    def replaced(self, frame, order):
        request = next((it for it in order.pending if it.kind == b"G"), None)
        self.need(request is not None and not order.waiting, "replaced without a request")
        order.take(request)
        if self.named.get(order.name) is order:
            del self.named[order.name]
        order.name = request.name
        order.open, order.price = int(frame[151]), in_ten_thousandths(frame[44])
        order.restate()
        self.expect(frame, order.body(b"5", frame[17], request))

    def busted(self, frame, order):
        self.need(frame[19] in order.trades, "a trade that isn't, or was broken before")
        shares, at = order.trades.pop(frame[19])
        order.executed -= shares
        order.value -= shares * at
        order.restate()
        self.expect(frame, order.body(b"H", frame[17], busted=frame[19], text=frame[58][:1]))

    def rejected(self, frame, order):
        self.need(order.waiting, "rejected by the market after its acceptance")
        self.shut(order)
        order.refused = True
        self.expect(frame, order.body(b"8", frame[17], reason=b"99", text=frame[58][:1]))


def refused_body(frame, request, code, text):
    """The report of a new order that the gateway refuses, with the order's own texts."""
    given = request.given
    rows = [(37, frame[37]), (11, given[11]), (17, frame[17]), (150, b"8"), (39, b"8"), (103, b"%d" % code),
            (55, given[55]), (54, given[54]), (38, given[38]), (44, given.get(44)), (151, b"0"), (14, b"0"),
            (6, b"0"), (58, text)]
    return [(tag, value) for tag, value in rows if value is not None]
