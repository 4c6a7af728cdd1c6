"""A market's book by tokens, and what it answers and says by itself, as its own choices have it."""
from collections import Counter
from dataclasses import dataclass, field

from . import ouch
from .plan import SAYINGS

REASONS = [b"U", b"I", b"T", b"S", b"D", b"Q", b"Z"]
REFUSALS = [b"T", b"H", b"Z", b"S", b"R", b"F", b"L", b"C", b"O"]
MOST = 999_999


@dataclass
class Order:
    """An order as the market has it; it goes by the last of its tokens."""
    entered: ouch.Enter
    tokens: list
    live: bool = False
    minimum: int = 0
    traded: bool = False
    open: int = 0
    executed: int = 0
    cancelled: int = 0
    value: int = 0
    price: int = 0
    cancel_due: float = 0.0
    trades: dict = field(default_factory=dict)
    replaces: list = field(default_factory=list)
    cancels: int = 0

    @property
    def token(self):
        return self.tokens[-1]


class Market:
    """What was said so far is `history`; a day's messages are sequenced, whatever becomes of links."""

    def __init__(self, random, plan, firms):
        self.random, self.plan, self.firms = random, plan, firms
        self.orders, self.by_token, self.used = {}, {}, set()
        self.standing, self.traded, self.pending = {}, [], []
        self.history, self.matches = [], set()
        self.counts, self.complaints = Counter(), []

    def say(self, message):
        self.history.append(message)
        self.counts[f"said {chr(message[0])}"] += 1

    def live(self):
        return list(self.standing.values())

    def leave(self, order):
        """Nothing of it is open any more."""
        order.live, order.open, order.cancel_due = False, 0, 0.0
        self.standing.pop(order.entered.stock, None)

    # Answers.

    def answer(self, payload, now):
        message = ouch.asked(payload)
        self.counts[f"asked {chr(payload[0])}"] += 1
        {ouch.Enter: self.enter, ouch.Replace: self.replace, ouch.Cancel: self.cancel}[type(message)](message, now)

    def enter(self, it, now):
        """A token is taken once; what comes again isn't looked at."""
        if it.token in self.used:
            self.counts["asked again"] += 1
            return
        if it.stock in self.orders or it.firm not in self.firms or (it.sweep, it.cross) != (b"N", b"N"):
            self.complaints.append(f"an Enter Order that isn't one: {it}")
        self.used.add(it.token)
        order = self.orders[it.stock] = Order(it, [it.token])
        self.by_token[it.token] = order
        draw = self.random.random()
        if it.price == 777_777 and it.shares == 1:
            self.fill_last(order)
        elif draw < self.plan.accepted:
            self.stand(order, it.shares, it.price, b"D" if self.random.random() < self.plan.dead else b"L")
        else:
            self.say(ouch.rejected(it.token, self.random.choice(REFUSALS)))

    def terms(self, shares, price):
        """Mostly what was asked; now and then fewer shares or another price."""
        draw = self.random.random()
        if draw < 0.03:
            price = self.random.choice([max(1, price - 100), 0, 1])
        elif draw < 0.06:
            shares = self.random.randint(1, MOST)
        return shares, price

    def stand(self, order, shares, price, state):
        shares, price = self.terms(shares, price)
        self.say(ouch.accepted(order.entered, shares, price, len(self.history), state))
        self.set(order, shares, price, state, order.entered.minimum)

    def set(self, order, shares, price, state, minimum):
        """It is in the book; its first trade is of the minimum quantity at least, where as much is open."""
        order.live, order.open, order.price = True, shares, price
        order.minimum, order.traded = minimum, False
        self.standing[order.entered.stock] = order
        if state == b"D":
            self.close(order)

    def close(self, order):
        order.cancelled += order.open
        self.leave(order)

    def fill_last(self, order):
        self.say(ouch.accepted(order.entered, 1, 777_777, len(self.history), b"L"))
        self.set(order, 1, 777_777, b"L", order.entered.minimum)
        self.trade(order, 1)

    def replace(self, it, now):
        order = self.by_token.get(it.old)
        if it.new in self.used or order is None or not order.live or order.token != it.old:
            self.counts["asked again or too late"] += 1
            return
        self.used.add(it.new)
        order.replaces.append(it)
        draw, left = self.random.random(), it.shares - order.executed
        if draw < 0.12:
            self.say(ouch.rejected(it.new, self.random.choice(REFUSALS)))
        elif draw < 0.2 or left < 1:
            self.cancel_all(order)
        else:
            self.move(order, it, left)

    def move(self, order, it, left):
        shares, price = self.terms(left, it.price)
        state = b"D" if self.random.random() < self.plan.dead else b"L"
        given = order.entered._replace(token=it.new, life=it.life, display=it.display, minimum=it.minimum)
        self.say(ouch.replaced(given, it.old, shares, price, len(self.history), state))
        order.tokens.append(it.new)
        self.by_token[it.new] = order
        self.set(order, shares, price, state, it.minimum)

    def cancel(self, it, now):
        """Answered where the token is that of an open order."""
        order = self.by_token.get(it.token)
        if it.shares:
            self.complaints.append(f"a Cancel Order to {it.shares} shares")
        if order:
            order.cancels += 1
        if order is None or not order.live or order.token != it.token:
            self.counts["asked again or too late"] += 1
            return
        draw = self.random.random()
        if draw < 0.6:
            self.cancel_all(order)
        elif draw < 0.8:
            self.say(ouch.cancel_pending(it.token))
            order.cancel_due = now + self.random.uniform(0, 3)
            self.pending.append(order)
        else:
            self.say(ouch.cancel_reject(it.token))

    # By itself.

    def cancel_all(self, order):
        self.say(ouch.canceled(order.token, order.open, self.random.choice(REASONS)))
        self.close(order)

    def end_pending(self, now):
        """What was answered by Cancel Pending is cancelled, or isn't, when its time has come."""
        due = [it for it in self.pending if it.cancel_due <= now]
        self.pending = [it for it in self.pending if it.cancel_due > now]
        for order in due:
            if order.live and order.cancel_due:
                order.cancel_due = 0.0
                if self.random.random() < 0.8:
                    self.cancel_all(order)
                else:
                    self.say(ouch.cancel_reject(order.token))

    def act(self):
        """One saying that nobody asked for."""
        makers, weights = zip(*SAYINGS.items())
        kind = self.random.choices(makers, weights)[0]
        live = self.live()
        order = self.random.choice(live) if live else None
        if kind == "event":
            self.say(ouch.said(b"S", self.random.choice([b"S", b"E", b"Q"])))
        elif kind == "priority":
            self.say(b"T" + self.random.randbytes(self.random.choice([0, 7, 35])))
        elif kind == "bust":
            self.bust()
        elif order and kind == "cancel":
            self.cancel_all(order)
        elif order and kind == "reduce" and order.open > 1:
            self.reduce(order)
        elif order and kind in ("part", "fill"):
            self.trade_some(order, kind)

    def trade_some(self, order, kind):
        """A trade, if the minimum quantity allows one while there was none."""
        least = 1 if order.traded else max(1, order.minimum)
        if least <= order.open:
            self.trade(order, order.open if kind == "fill" else self.random.randint(least, order.open))

    def reduce(self, order):
        shares = self.random.randint(1, order.open - 1)
        self.say(ouch.canceled(order.token, shares, self.random.choice(REASONS)))
        order.open -= shares
        order.cancelled += shares

    def match(self):
        while (match := self.random.getrandbits(self.random.choice([16, 32, 64]))) in self.matches:
            pass
        self.matches.add(match)
        return match

    def trade(self, order, shares):
        price = order.price + self.random.randint(-50, 50)
        if self.random.random() < 0.01:
            price = self.random.choice([0, 0xFFFF_FFFF])
        price, match = max(0, price), self.match()
        self.say(ouch.executed(order.token, shares, price, match))
        order.trades[match] = (shares, price)
        order.traded = True
        self.traded.append(order)
        order.open -= shares
        order.executed += shares
        order.value += shares * price
        if not order.open:
            self.leave(order)

    def bust(self):
        """Breaks a trade that isn't broken yet, of an order that is open or over, by any token that it had."""
        order = self.random.choice(self.traded) if self.traded else None
        if order and order.trades:
            match = self.random.choice(list(order.trades))
            shares, price = order.trades.pop(match)
            order.executed -= shares
            order.value -= shares * price
            self.say(ouch.broken(self.random.choice(order.tokens), match))
