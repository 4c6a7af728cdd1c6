"""A client in a process of its own: a FIX engine, its random traffic, and what its links suffer."""
import random
import select
import socket
import time
from collections import Counter

from . import noise
from .book import Book, Request, Wrong
from .fix import Broken, Reader, show
from .link import Link
from .mischief import Mischief
from .plan import CLOSING, GATEWAY, LEAVING, OVER, SETTLING, TRADING
from .session import Session
from .traffic import Traffic

BUSY, SETTLED, CLOSED, LEFT = range(4)
SPARE = 4
PATIENCE = 30.0


class Client:
    """Of its links the day has a number; where they are counted what isn't used up is connected and closed at the end."""

    def __init__(self, index, address, plan, day, stage, mood, may_fault):
        self.index, self.address, self.plan, self.day = index, address, plan, day
        self.stage, self.mood = stage, mood
        self.random = random.Random(f"{day.seed} client {index}")
        self.book = Book(index + 1, plan.capacity)
        self.book.may_fault = may_fault
        self.traffic = Traffic(self.random, self.book, index, plan)
        self.session = Session(b"C%d" % (index + 1), GATEWAY, plan.interval, self.deliver, self.book.skip)
        self.counts, self.complaints, self.unread_logouts = Counter(), [], []
        self.link, self.spare, self.dialled, self.away_until = None, None, 0, 0.0
        self.connected = self.killed = 0
        self.may_be_closed, self.hushed_at, self.stalled_until, self.has_stalled = False, 0.0, 0.0, False
        self.begin = self.next_at = time.monotonic()
        self.tested = self.looked = 0.0
        self.last, self.bad, self.said_all = None, False, False
        self.mischief = Mischief(self)

    def run(self):
        while self.stage.value != OVER and self.mood.value != LEFT:
            self.turn(time.monotonic())
            readers = [self.link] if self.link and not self.stalled_until else []
            writers = [self.link] if self.link and self.link.waiting else []
            select.select(readers, writers, [], 0.01)
        return self

    def turn(self, now):
        """What has come, what the stage of the day wants, and what goes out."""
        if self.link is None:
            self.dial(now)
        else:
            self.hear(now)
        if self.link and self.session.logged_on:
            self.keep_up(now)
        if self.stage.value == TRADING:
            self.trade(now)
        elif self.stage.value in (SETTLING, CLOSING):
            self.settle(now)
        else:
            self.leave(now)
        if self.link:
            self.write(now)

    def complain(self, why, raw=b""):
        around = "".join(f"\n      {way.decode()} {show(it)}" for way, it in self.session.around)
        self.complaints.append(f"seed {self.day.seed} client {self.index + 1} at {time.monotonic() - self.begin:.3f}: "
                               f"{why} {show(raw)}{around if len(self.complaints) < 2 else ''}")

    # Links.

    def is_killed(self, connected):
        """Whether the gateway that took a connection at this count of kills is gone, or going: the count is odd while it is killed."""
        return connected % 2 == 1 or connected != self.day.killed.value

    def may_lose(self):
        return self.stage.value == TRADING and self.dialled < self.day.links - SPARE

    def connect(self, room=None):
        """A new connection, or None where nobody listens yet."""
        self.connected = self.day.killed.value
        stream = socket.socket()
        if room:
            stream.setsockopt(socket.SOL_SOCKET, socket.SO_RCVBUF, room)
        try:
            stream.connect(("127.0.0.1", self.address))
        except OSError:
            stream.close()
            return None
        self.dialled += 1
        return stream

    def dial(self, now):
        """The next link, with a Logon on it, now and then with a wrong one."""
        if now < self.away_until or self.stage.value >= LEAVING:
            return
        may_lose = self.may_lose()
        stream = self.take_spare() or self.connect(4096 if self.plan.stalls else None)
        if stream is None:
            self.away_until = now + 0.1
            return
        budgets = [int(self.random.expovariate(1 / self.plan.link_bytes)) + 1 if may_lose else None for _ in "io"]
        hard, piece = self.random.random() < 0.5, self.random.choice([5, 60, 65_536, 65_536])
        self.link, self.reader = Link(stream, *budgets, hard, piece), Reader()
        self.session.begin(now)
        self.may_be_closed, self.hushed_at, self.stalled_until, self.bad = False, 0.0, 0.0, False
        self.said_all = self.has_stalled = False
        self.opened_at, self.killed = now, self.connected
        if may_lose and self.random.random() < 0.1:
            self.log_on_wrongly(now)
        else:
            self.session.log_on(now, self.plan.resets and self.session.next_out == 1)

    def take_spare(self):
        """The second connection, on which nothing may have come while there was a first."""
        stream, self.spare = self.spare, None
        if stream and self.is_killed(self.connected):
            stream.close()
            return None
        if stream and select.select([stream], [], [], 0)[0]:
            self.complain("a second connection was answered or closed while the first was open")
        return stream

    def log_on_wrongly(self, now):
        data, self.session.expects_end = self.random.choice(list(noise.wrong_logons(self.session)))
        self.session.put(data, now)
        self.may_be_closed = self.bad = True
        self.hush(now)
        self.counts["wrong Logons"] += 1

    def hush(self, now):
        """Nothing more is said on this link, which is to be closed; it isn't cut before that."""
        self.hushed_at = now
        self.link.outward = self.link.inward = None

    def hear(self, now):
        """What came on the link, unless the client doesn't read just now."""
        if self.stage.value != TRADING:
            self.link.outward = self.link.inward = None
        if self.stalled_until > now:
            return
        self.stalled_until = 0.0
        data = self.link.read()
        try:
            for frame in self.reader.feed(data):
                self.receive(frame, now)
        except Broken as why:
            self.complain(f"no frame: {why}")
            self.link.cut()
        if self.session.ended and self.random.random() < 0.1:
            self.link.close()
        self.wait(now)
        self.lose(now)

    def receive(self, frame, now):
        try:
            self.session.receive(frame, now)
        except (Wrong, KeyError, TypeError, ValueError, AttributeError) as why:
            self.complain(f"{type(why).__name__}: {why}:", frame.raw)

    def deliver(self, frame):
        self.book.handle(frame)

    def wait(self, now):
        """What has to come in time: a Logon's reply, and the end of what was provoked."""
        if not self.session.logged_on and not self.bad and now - self.opened_at > PATIENCE:
            self.complain("no reply to a Logon")
            self.link.cut()
        if self.hushed_at and now - self.hushed_at > PATIENCE:
            self.complain("a link that has to be closed isn't")
            self.link.cut()

    def lose(self, now):
        """A link that is no longer open: whether it ended as it had to."""
        if not self.link or self.link.is_open:
            return
        cut = self.link.was_cut or self.is_killed(self.killed)
        self.counts["links cut" if cut else "links that the gateway closed"] += 1
        if not cut and not self.session.ended and not self.may_be_closed:
            self.complain("the gateway closed the link without a word")
        expects = self.session.expects_end not in (None, noise.SILENTLY) and not self.has_stalled
        if not cut and expects and not self.session.ended:
            self.miss_logout(self.session.expects_end)
        self.link = None
        self.session.logged_on = False
        self.away_until = now + (self.random.expovariate(2) if self.stage.value == TRADING else 0.0)

    def miss_logout(self, text):
        """One that isn't read has to have been sent where the link was reset, by which what came before is lost."""
        if self.link.was_reset:
            self.unread_logouts.append(text.decode())
        else:
            self.complain(f"no Logout {text}")

    def keep_up(self, now):
        if self.stalled_until:
            self.session.received = now
        try:
            self.session.tick(now)
        except Wrong as why:
            self.complain(f"{why}")
            self.link.cut()
            self.lose(now)

    def write(self, now):
        if not self.said_all:
            self.link.write(self.session.out)
        self.session.out = b""
        self.link.flush()
        self.lose(now)

    # Traffic.

    def trade(self, now):
        """The messages whose time has come, and mischief among them."""
        is_on = self.link is not None and self.session.logged_on
        if self.hushed_at or self.link and not is_on or not self.book_began():
            self.next_at = now
            return
        if is_on and self.mischief.may_stall(now):
            self.mischief.stall(now)
        while self.next_at <= now and not self.hushed_at:
            self.next_at += self.random.expovariate(self.plan.rate if is_on else self.plan.rate / 10)
            if is_on and self.random.random() < 0.06:
                self.mischief.do(now)
            else:
                self.say(now)

    def book_began(self):
        return self.session.expected > 1

    def say(self, now):
        """The next message, which goes out, or waits for a link with its number."""
        self.ask(*self.traffic.next(), now)

    def reprice(self, now):
        for kind, fields in self.traffic.reprices():
            self.ask(kind, fields, now)

    def ask(self, kind, fields, now):
        self.book.ask(Request(self.session.send(kind, fields, now, kept=True), kind, fields))

    # The end.

    def settle(self, now):
        """Asks for what was missed and waits for all answers; then a last order, behind all that the market said."""
        if not self.link or not self.session.logged_on or self.hushed_at:
            self.mood.value = BUSY
            return
        if now - self.looked < 0.2:
            return
        self.looked = now
        if now - self.tested > 1:
            self.tested = now
            self.session.test(now)
            self.probe(now)
        if self.stage.value == SETTLING:
            self.mood.value = SETTLED if self.is_settled() else BUSY
        elif self.last is None:
            kind, fields = self.traffic.last_order()
            self.last = fields[0][1]
            self.ask(kind, fields, now)
        elif self.last in self.book.used and self.is_settled() and not self.is_last_open():
            self.mood.value = CLOSED

    def probe(self, now):
        """Whether the port is still what it was, of a port that may be at fault."""
        if self.book.may_fault and not self.book.port_state and self.book.pending_or_waiting():
            self.ask(*self.traffic.last_order(), now)

    def is_settled(self):
        return self.session.gap == 0 and self.book.is_settled()

    def is_last_open(self):
        order = self.book.named.get(self.last)
        return order is not None and not order.closed and not self.book.port_state

    def leave(self, now):
        """Logs out, and uses up the links that are left, where they are counted."""
        if self.link:
            if self.session.logged_on and not self.session.said_logout:
                self.session.log_out(now)
            return
        if self.spare:
            self.spare.close()
            self.spare = None
        elif self.day.is_counted and self.dialled < self.day.links:
            stream = self.connect()
            if stream is None:
                self.complain(f"nobody listens for link {self.dialled + 1}")
                self.mood.value = LEFT
                return
            time.sleep(0.02)
            stream.close()
        else:
            self.mood.value = LEFT

    def result(self):
        if self.session.held or self.session.gap:
            self.complain("numbers that are still missing at the end")
        if self.book.unjudged:
            self.complain(f"{len(self.book.unjudged)} without an answer, the first {self.book.unjudged[0]}")
        if self.session.out_of_place:
            self.complain(*self.session.out_of_place)
        if self.session.went_back:
            count = self.session.counts["moments before earlier ones"]
            self.complain(f"{count} frames with 52 behind the one before, the first:", self.session.went_back)
        if self.session.sent_before:
            count = self.session.counts["sent again before it was sent first"]
            self.complain(f"{count} frames with 122 behind 52, the first:", self.session.sent_before)
        if self.session.provoked:
            self.counts["administrative Rejects lost"] = len(self.session.provoked)
        return {"orders": self.book.orders, "exec_ids": self.book.exec_ids, "order_ids": self.book.order_ids,
                "counts": self.counts, "told": self.book.counts, "session": self.session.counts,
                "complaints": self.complaints, "port_state": self.book.port_state, "links": self.dialled,
                "next_out": self.session.next_out, "expected": self.session.expected,
                "unread_logouts": self.unread_logouts, "silence": self.session.longest_silence}
