"""`python3 -m stress.held_up GATEWAY [SECONDS]`: for how long does a client wait for another one of its port that reads
nothing?

C1 sends orders, which the market trades share by share, and reads nothing; as often as its link is ended it comes again
at once and reads nothing again. C2 has an order filled again and again meanwhile: no fill takes more than a second.
C1's links end by fault 2, and when it comes again and reads it asks for all that was reported: each of its trades is
there. The status is 0 where all of it is so."""
import subprocess
import sys
import tempfile
import threading
import time
from pathlib import Path

from . import ouch
from .asked_again import Client
from .link import free_addresses, listener
from .stood_still import CLIENT, SETTINGS, Steps

# C1's orders: so many, of so many shares, which are traded one by one; at a price by which the market knows them
ORDERS, SHARES, PRICE = 200, 1_000, 30_000
# so many trades are made each hundredth of a second
TRADES = 60
LONGEST = 1.0


class Market:
    """Fills each order at once, but for C1's: those it trades share by share."""

    def __init__(self, address):
        self.listener, self.lock, self.trades, self.open = listener(address), threading.Lock(), 0, []
        self.reference = 0
        threading.Thread(target=self.serve, daemon=True).start()

    def say(self, *messages):
        with self.lock:
            self.stream.sendall(b"".join(ouch.packet(b"S", it) for it in messages))

    def serve(self):
        self.stream, packets = self.listener.accept()[0], ouch.Packets()
        threading.Thread(target=self.beat, daemon=True).start()
        while data := self.stream.recv(65536):
            for kind, payload in packets.feed(data):
                if kind == b"L":
                    self.stream.sendall(ouch.login_accepted(b"DAY", 1))
                elif kind == b"U" and payload[:1] == b"O":
                    self.enter(ouch.asked(payload))

    def enter(self, it):
        self.reference += 1
        accepted = ouch.accepted(it, it.shares, it.price, self.reference, b"L")
        if it.price == PRICE:
            self.say(accepted)
            self.open.append([it.token, it.shares])
        else:
            self.say(accepted, ouch.executed(it.token, it.shares, it.price, self.reference))

    def trade(self, seconds):
        """Trades C1's orders for so long."""
        end = time.monotonic() + seconds
        while time.monotonic() < end:
            begun, trades = time.monotonic(), []
            while self.open and len(trades) < TRADES:
                first = self.open[0]
                first[1] -= 1
                self.reference += 1
                trades.append(ouch.executed(first[0], 1, PRICE, self.reference))
                if first[1] == 0:
                    self.open.pop(0)
            self.say(*trades)
            self.trades += len(trades)
            time.sleep(max(0.0, begun + 0.01 - time.monotonic()))

    def beat(self):
        while True:
            time.sleep(0.9)
            with self.lock:
                self.stream.sendall(ouch.packet(b"H"))


def enter(client):
    """Its orders."""
    for number in range(ORDERS):
        client.send(b"D", (11, b"B%d" % number), (54, b"1"), (55, b"INTC"), (38, b"%d" % SHARES), (40, b"2"),
                    (44, b"3"))


class Stalled:
    """C1, which reads nothing, and comes again as soon as its link is ended."""

    def __init__(self, address):
        self.address, self.is_over = address, False
        self.client = Client(b"C1", address, room=4096)
        enter(self.client)
        self.thread = threading.Thread(target=self.come_again)
        self.thread.start()

    def come_again(self):
        while not self.is_over:
            time.sleep(0.1)
            try:
                self.client.send(b"0")
            except OSError:
                self.client = Client(b"C1", self.address, self.client.number, 4096)

    def end(self):
        self.is_over = True
        self.thread.join()
        self.client.stream.close()
        return self.client.number


def times_of_fills(client, seconds):
    times, end = [], time.monotonic() + seconds
    while time.monotonic() < end:
        times.append(client.filled())
        time.sleep(0.01)
    return times


def trades_again(client, count):
    """The trades of all reports that come, asked for anew, up to so many."""
    client.send(b"2", (7, b"1"), (16, b"0"))
    trades = set()
    while len(trades) < count and (frame := client.frame(5.0)):
        if frame.kind == b"8" and frame[150] == b"F":
            trades.add(frame[17])
    return len(trades)


def play(steps, market, addresses, seconds):
    slow, quick = Stalled(addresses[0]), Client(b"C2", addresses[1])
    time.sleep(1.0)
    quick.filled()
    trading = threading.Thread(target=market.trade, args=(seconds,))
    trading.start()
    times = times_of_fills(quick, seconds)
    trading.join()
    number = slow.end()
    steps.is_so(f"{len(times)} fills of C2, the longest in {max(times):.2f} s, beside {market.trades} trades of C1",
                max(times) <= LONGEST)
    time.sleep(2.0)
    again = Client(b"C1", addresses[0], number)
    steps.is_so("C1 has each of its trades once it reads", trades_again(again, market.trades) == market.trades)


def main():
    seconds = float(sys.argv[2]) if len(sys.argv) > 2 else 20.0
    port, *clients = free_addresses(3)
    market, steps = Market(port), Steps()
    with tempfile.TemporaryDirectory() as folder:
        settings, errors = Path(folder, "settings"), Path(folder, "errors")
        settings.write_text(SETTINGS.format(port) + "".join(CLIENT.format(i + 1, it) for i, it in enumerate(clients)))
        words = [sys.argv[1], "serve", "--settings", str(settings)]
        with errors.open("w") as told, subprocess.Popen(words, stdout=subprocess.DEVNULL, stderr=told) as gateway:
            time.sleep(1.5)
            try:
                play(steps, market, clients, seconds)
            finally:
                gateway.kill()
        told = errors.read_text()
        steps.is_so("C1's links end by fault 2", "C1 link fault 2" in told)
        print(told, end="")
    return 0 if steps.is_well else 1


if __name__ == "__main__":
    sys.exit(main())
