"""A port of the market: a SoupBinTCP 3.00 server in a process of its own, behind which a market answers."""
import random
import select
import time
from collections import deque

from . import hostile, ouch
from .link import Link, listener
from .market import Market
from .plan import OVER, SETTLING, TRADING

SESSION = b"DAY"
USER, PASSWORD = b"USER01", b"SECRET"
SPARE = 6
SILENCE = 16.0


class Server:
    """Serves one link after another; everything that the market said is kept, and told from the number asked for."""

    def __init__(self, index, held, plan, day, firms, stage, quiet):
        self.index, self.listener, self.plan, self.day = index, held, plan, day
        self.address = held.getsockname()[1]
        self.stage, self.quiet = stage, quiet
        self.random = random.Random(f"{day.seed} market {index}")
        self.market = Market(self.random, plan, firms)
        self.counts, self.complaints = self.market.counts, self.market.complaints
        self.link, self.waiting, self.told, self.wanted = None, deque(), 0, 1
        self.begin = time.monotonic()
        self.acted, self.deaf_until = self.begin, 0.0
        self.unlawful_at = self.begin + day.seconds * self.random.uniform(0.3, 0.7)
        self.frozen, self.is_said, self.is_over = False, False, False

    def run(self):
        while self.stage.value != OVER:
            now = time.monotonic()
            self.turn(now)
            watched = [it for it in (self.link or self.listener,) if it]
            select.select(watched, [self.link] if self.link and self.link.waiting else [], [], 0.01)
        return self

    def turn(self, now):
        if self.link is None:
            self.accept(now)
        else:
            self.hear(now)
        if not self.frozen:
            self.answer(now)
            self.act(now)
        if self.plan.hostile and not self.is_over and now >= self.unlawful_at:
            self.be_unlawful(now)
        if self.link:
            self.tell(now)
        self.quiet.value = self.is_quiet()

    def complain(self, text):
        self.complaints.append(f"port {self.index + 1}: {text}")

    # Links.

    def may_cut(self):
        return self.counts["links"] < self.day.links - SPARE and self.stage.value == TRADING and not self.frozen

    def accept(self, now):
        if now < self.deaf_until:
            return
        if self.listener is None:
            self.listener = listener(self.address)
        if not select.select([self.listener], [], [], 0)[0]:
            return
        self.counts["links"] += 1
        if self.is_closed_for_good():
            self.counts["links behind the fault"] += 1
        budgets = [int(self.random.expovariate(1 / self.plan.link_bytes)) + 1 if self.may_cut() else None for _ in "io"]
        hard, piece = self.random.random() < 0.5, self.random.choice([5, 60, 65_536, 65_536])
        self.link = Link(self.listener.accept()[0], *budgets, hard, piece)
        self.packets, self.logged_in = ouch.Packets(), False
        self.heard = self.wrote = now

    def hear(self, now):
        """What came on the link, packet by packet."""
        if self.stage.value != TRADING or self.frozen:
            self.link.outward = self.link.inward = None
        data = self.link.read()
        if data:
            self.heard = now
        try:
            for kind, payload in self.packets.feed(data):
                self.hear_packet(kind, payload, now)
        except ouch.Malformed as why:
            self.complain(str(why))
        if now - self.heard > SILENCE:
            self.complain(f"the gateway was silent for {now - self.heard:.1f} s")
            self.heard = now
        self.lose()

    def is_closed_for_good(self):
        """What was unlawful was told whole: links may still come, but no login."""
        return self.is_said and self.frozen

    def lose(self):
        if self.link and not self.link.is_open:
            self.counts["links cut" if self.link.was_cut else "links that ended"] += 1
            if self.link.was_cut and self.may_cut() and self.random.random() < 0.2:
                self.be_deaf()
            self.link = None

    def be_deaf(self):
        """Nobody listens for so long that one connection fails, or two; each counts as a link."""
        self.counts["times that nobody listened"] += 1
        self.counts["links"] += 2
        self.listener.close()
        self.listener, self.deaf_until = None, time.monotonic() + 1.5

    def hear_packet(self, kind, payload, now):
        if self.is_closed_for_good() and (kind, self.logged_in) == (b"L", False):
            self.complain("a port that has to be closed for good logs in again")
        elif kind == b"L" and not self.logged_in:
            self.log_in(payload, now)
        elif kind == b"U" and self.logged_in:
            due = self.waiting[-1][0] if self.waiting else now
            self.waiting.append((max(due, now + self.random.uniform(0, self.plan.delay)), payload))
        elif kind != b"R" or payload:
            self.complain(f"a packet that has no place: {kind!r} {payload!r}")

    def log_in(self, payload, now):
        """Answers a Login Request, now and then from an earlier number than it asks for, or by a refusal."""
        user, password, session, number = payload[:6], payload[6:16], payload[16:26], int(payload[26:])
        may_be = (b"",) if self.counts["logins"] == 0 else (b"", SESSION) if number == 1 else (SESSION,)
        if (user, password) != (USER, PASSWORD.ljust(10)) or session.strip() not in may_be:
            self.complain(f"a login of somebody else: {payload!r}")
        if not self.wanted <= number <= len(self.market.history) + 1:
            self.complain(f"asks for {number}, once for {self.wanted}, of {len(self.market.history)}")
        self.wanted = number
        if self.may_cut() and self.random.random() < 0.05:
            self.counts["logins rejected"] += 1
            self.write(ouch.packet(b"J", b"S"), now)
            return
        if self.frozen and self.plan.hostile in hostile.BEHIND_A_LOGIN and number == len(self.market.history) + 1:
            self.write(hostile.login_reply(self.plan.hostile, SESSION, number), now)
            self.is_said = True
            return
        first = self.random.randint(1, number) if self.random.random() < self.plan.from_earlier else number
        self.counts["repeats told"] += number - first
        self.write(ouch.login_accepted(SESSION, first), now)
        self.logged_in, self.told = True, first - 1
        self.counts["logins"] += 1

    # What is said.

    def write(self, data, now):
        self.link.write(data)
        self.wrote = now

    def answer(self, now):
        while self.waiting and (self.waiting[0][0] <= now or self.stage.value != TRADING):
            self.market.answer(self.waiting.popleft()[1], now)
        self.market.end_pending(now if self.stage.value == TRADING else float("inf"))

    def act(self, now):
        if self.stage.value != TRADING:
            return
        while self.acted < now:
            self.acted += self.random.expovariate(self.plan.sayings_a_second)
            self.market.act()
        if self.link and self.logged_in and self.random.random() < 0.01:
            self.counts["debug packets"] += 1
            self.write(ouch.packet(b"+", self.random.randbytes(self.random.randint(0, 60))), now)

    def tell(self, now):
        history = self.market.history
        while self.logged_in and self.told < len(history) and len(self.link.waiting) < 65_536:
            self.write(ouch.packet(b"S", history[self.told]), now)
            self.told += 1
        if self.logged_in and now - self.wrote > 1:
            self.write(ouch.packet(b"H"), now)
        self.link.flush()
        if self.is_over and self.frozen and self.has_told_all():
            self.is_said = True
        self.lose()

    def has_told_all(self):
        return bool(self.link and self.logged_in and self.told == len(self.market.history) and not self.link.waiting)

    def is_quiet(self):
        if self.frozen:
            return self.is_said and self.link is None
        return self.has_told_all() and not self.waiting

    # What a hostile port says once.

    def be_unlawful(self, now):
        """Says it once it can be said, and nothing more afterwards."""
        name = self.plan.hostile
        if name in hostile.PAYLOADS:
            payload = hostile.PAYLOADS[name](self.market, self.waiting)
            if payload is not None:
                self.market.history.append(payload)
                self.frozen = self.is_over = True
        elif name in hostile.PACKETS:
            self.frozen = True
            if self.has_told_all():
                self.write(hostile.PACKETS[name], now)
                self.is_said = self.is_over = True
                self.frozen = name != "no_length"
        elif not self.is_said:
            self.part_to_log_in_again(now)

    def part_to_log_in_again(self, now):
        """Ends the link when all was told and had time to come; what is unlawful is the answer to the next login."""
        self.frozen = True
        if self.has_told_all() and now - self.wrote > 0.3:
            self.link.close()
            self.lose()

    def result(self):
        return {"orders": self.market.orders, "counts": self.counts, "complaints": self.complaints,
                "hostile": self.plan.hostile, "said": self.is_said, "address": self.address,
                "history": len(self.market.history)}
