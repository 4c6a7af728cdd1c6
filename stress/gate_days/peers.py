"""Clients and markets by hand: each says what it is told to, and keeps what it hears, with the moment."""
import socket
import threading
import time

from .. import ouch
from ..fix import Reader, stamp, written

# so long anything that has to come is waited for, on a machine that has much else to do
PATIENCE = 60.0


def listening(host, address):
    """Listens at this TCP port of a host."""
    it = socket.socket()
    it.setsockopt(socket.SOL_SOCKET, socket.SO_REUSEADDR, 1)
    it.bind((host, address))
    it.listen(64)
    return it


def holds_within(is_so, seconds=PATIENCE):
    """Whether something is so, now or within so many seconds."""
    end = time.monotonic() + seconds
    while not is_so():
        if time.monotonic() > end:
            return False
        time.sleep(0.005)
    return True


class Client:
    """A FIX client. Its numbers go on over its links."""

    def __init__(self, name, host, address, interval=30):
        self.name, self.where, self.interval = name, (host, address), interval
        self.sent, self.frames = 0, []
        self.stream = self.reader = None

    def connect(self, room=None):
        """A link, as soon as the gateway listens; one that has room for so many bytes that it doesn't read."""
        end = time.monotonic() + PATIENCE
        while True:
            stream = socket.socket()
            if room:
                stream.setsockopt(socket.SOL_SOCKET, socket.SO_RCVBUF, room)
            try:
                stream.connect(self.where)
                break
            except OSError:
                stream.close()
                if time.monotonic() > end:
                    raise
                time.sleep(0.01)
        stream.setsockopt(socket.IPPROTO_TCP, socket.TCP_NODELAY, 1)
        return self.goes_on_over(stream)

    def goes_on_over(self, stream):
        """A link over this stream."""
        self.stream, self.reader = stream, Reader()
        return self

    def message(self, kind, *body):
        """The bytes of its next message."""
        self.sent += 1
        head = [(35, kind), (49, self.name), (56, b"GATE"), (34, b"%d" % self.sent), (52, stamp())]
        return written(head + list(body))

    def send(self, kind, *body):
        self.stream.sendall(self.message(kind, *body))

    def log_on(self, *more):
        """The answer to its Logon."""
        before = len(self.frames)
        self.send(b"A", (98, b"0"), (108, b"%d" % self.interval), *more)
        return self.wait(lambda frame: frame.kind == b"A", begin=before)

    def log_out(self):
        """The answer to its Logout."""
        before = len(self.frames)
        self.send(b"5")
        return self.wait(lambda frame: frame.kind == b"5", begin=before)

    def order(self, name, shares=100, price=b"10"):
        self.send(b"D", (11, name), (54, b"1"), (55, b"INTC"), (38, b"%d" % shares), (40, b"2"), (44, price))

    def told(self, name, what, seconds=PATIENCE):
        """The report of this ClOrdID with this ExecType."""
        return self.wait(lambda frame: frame.kind == b"8" and (frame[11], frame[150]) == (name, what), seconds)

    def wait(self, holds, seconds=PATIENCE, begin=0):
        """The first frame behind the first `begin` of which that holds; None where none comes, or the link ends."""
        end, looked = time.monotonic() + seconds, begin
        while True:
            while looked < len(self.frames):
                looked += 1
                if holds(self.frames[looked - 1]):
                    return self.frames[looked - 1]
            if not self.read(end - time.monotonic()):
                return None

    def read(self, seconds):
        """Reads once; False where nothing comes within so many seconds, or the link has ended."""
        self.stream.settimeout(max(0.001, seconds))
        try:
            data = self.stream.recv(65536)
        except OSError:
            return False
        self.frames += self.reader.feed(data)
        return bool(data)

    def ending(self, seconds=PATIENCE):
        """How the link ends: `end`, `reset`, or `open` where it doesn't."""
        end = time.monotonic() + seconds
        while True:
            self.stream.settimeout(max(0.001, end - time.monotonic()))
            try:
                data = self.stream.recv(65536)
            except TimeoutError:
                return "open"
            except OSError:
                return "reset"
            if not data:
                return "end"
            self.frames += self.reader.feed(data)

    def close(self):
        self.stream.close()


class Market:
    """Serves one link after the other in a thread of its own. It fills each order at once, but for those at 1, which it
    accepts. A silent one takes links and says nothing."""

    def __init__(self, host, address, is_silent=False):
        self.where, self.is_silent = (host, address), is_silent
        self.said, self.orders, self.beats = [], [], []
        # when each order came
        self.asked = []
        # of each link: when it came, and how it ended, with `cut` where it ended here
        self.came, self.ends = [], []
        self.reference, self.cut_at, self.raw, self.is_over = 0, None, [], False
        self.listener = None
        self.listen()

    def listen(self):
        self.listener = listening(*self.where)
        self.listener.settimeout(0.02)
        self.thread = threading.Thread(target=self.serve, daemon=True)
        self.is_over = False
        self.thread.start()
        return self

    def end(self):
        """Nobody listens any more, and then the link is gone."""
        self.listener.close()
        self.is_over = True
        self.thread.join()

    def serve(self):
        while not self.is_over:
            try:
                stream = self.listener.accept()[0]
            except OSError:
                continue
            self.came.append(time.monotonic())
            self.ends.append(self.serve_link(stream))
            stream.close()

    def has_one_end(self):
        """It had one link, and the gateway ended it: by a reset where something was said to it at that moment."""
        return self.ends in (["end"], ["reset"])

    def serve_link(self, stream):
        stream.settimeout(0.02)
        stream.setsockopt(socket.IPPROTO_TCP, socket.TCP_NODELAY, 1)
        packets, told, beat = ouch.Packets(), None, time.monotonic()
        while not self.is_over:
            if self.cut_at is not None and len(self.orders) >= self.cut_at and told == len(self.said):
                self.cut_at = None
                return "cut"
            try:
                data = stream.recv(65536)
                if not data:
                    return "end"
            except TimeoutError:
                data = b""
            except OSError:
                return "reset"
            for kind, payload in packets.feed(data):
                if kind == b"L" and not self.is_silent:
                    told = int(payload[26:]) - 1
                    stream.sendall(ouch.login_accepted(b"DAY", told + 1))
                elif kind == b"U":
                    self.answer(payload)
                elif kind == b"R":
                    self.beats.append(time.monotonic())
            try:
                while told is not None and told < len(self.said):
                    stream.sendall(ouch.packet(b"S", self.said[told]))
                    told += 1
                while self.raw:
                    stream.sendall(self.raw.pop(0))
                if told is not None and time.monotonic() - beat > 0.9:
                    beat = time.monotonic()
                    stream.sendall(ouch.packet(b"H"))
            except OSError:
                return "reset"
        return "cut"

    def answer(self, payload):
        """An order is accepted, and filled. What isn't an order isn't answered."""
        if payload[:1] != b"O":
            return
        it = ouch.asked(payload)
        self.asked.append(time.monotonic())
        self.reference += 1
        said = [ouch.accepted(it, it.shares, it.price, self.reference, b"L")]
        if it.price != 10_000:
            said.append(ouch.executed(it.token, it.shares, it.price, self.reference))
        self.orders.append(it)
        self.said += said

    def fill(self, at):
        """Fills the order of this place among all."""
        it = self.orders[at]
        self.reference += 1
        self.said.append(ouch.executed(it.token, it.shares, it.price, self.reference))
