"""`python3 -m stress.stood_still GATEWAY [ROUNDS]`: is silence judged behind what was received, also where the gateway
stood still?

A client with 108=5 and a market say something each second. In each round the gateway is stopped (SIGSTOP) for 17
seconds, which is longer than either may be silent, and goes on (SIGCONT): both go on to have their links. Then a client
with 108=0 that was silent for three seconds sends an order: the report's 52 is of then. Last a client with 108=1 says
nothing: it is asked after 1.2 seconds and logged out after 2.4. The status is 0 where all of it is so."""
import calendar
import re
import signal
import socket
import subprocess
import sys
import tempfile
import threading
import time
from pathlib import Path

from .fix import Reader, stamp, written
from .link import free_addresses
from .served_day import Market

STANDS = 17.0
SETTINGS = """comp = "GATE"
[[port]]
name = "P1"
address = "127.0.0.1:{}"
user = "USER01"
password = "PASSWORD"
"""
CLIENT = """[[client]]
comp = "C{}"
listen = "127.0.0.1:{}"
port = "P1"
firm = "FIRM"
capacity = "A"
customer = "R"
"""


class Client:
    """A session that keeps what it is sent, with the moment at which it came."""

    def __init__(self, name, address, interval):
        self.name, self.number, self.frames, self.is_over = name, 0, [], False
        self.stream, self.lock = socket.create_connection(("127.0.0.1", address)), threading.Lock()
        threading.Thread(target=self.read, daemon=True).start()
        self.send(b"A", (98, b"0"), (108, b"%d" % interval))

    def send(self, kind, *body):
        with self.lock:
            self.number += 1
            head = [(35, kind), (49, self.name), (56, b"GATE"), (34, b"%d" % self.number), (52, stamp())]
            self.stream.sendall(written(head + list(body)))

    def read(self):
        reader = Reader()
        try:
            while data := self.stream.recv(65536):
                now = time.time()
                self.frames += [(frame, now) for frame in reader.feed(data)]
        except OSError:
            pass
        self.is_over = True

    def beat(self):
        """Says a Heartbeat a second from now on."""
        def beats():
            try:
                while not self.is_over:
                    self.send(b"0")
                    time.sleep(1.0)
            except OSError:
                pass
        threading.Thread(target=beats, daemon=True).start()

    def first(self, kind, seconds):
        """The first frame of this type that comes within so many seconds, and when."""
        end = time.monotonic() + seconds
        while time.monotonic() < end:
            for it in list(self.frames):
                if it[0].kind == kind:
                    return it
            time.sleep(0.01)
        return None, None


def seconds_of(text):
    """A UTCTimestamp as seconds since 1970."""
    whole, _, part = text.decode().partition(".")
    return calendar.timegm(time.strptime(whole, "%Y%m%d-%H:%M:%S")) + int(part) / 1000


class Steps:
    def __init__(self):
        self.is_well = True

    def is_so(self, what, holds):
        print(("right: " if holds else "WRONG: ") + what, flush=True)
        self.is_well = self.is_well and holds


def stand_still(steps, gateway, client, market, errors, rounds):
    for number in range(1, rounds + 1):
        before, logins = errors.read_text(), market.logins
        gateway.send_signal(signal.SIGSTOP)
        time.sleep(STANDS)
        gateway.send_signal(signal.SIGCONT)
        time.sleep(4.0)
        told = errors.read_text()[len(before):]
        asked = sum(frame.kind == b"1" for frame, _ in client.frames)
        steps.is_so(f"round {number}: the client has its link, asked {asked} times",
                    not client.is_over and "35=5" not in told)
        steps.is_so(f"round {number}: the market has its link", market.logins == logins and "P1 " not in told)


def moment(steps, address):
    quiet = Client(b"C2", address, 0)
    time.sleep(3.0)
    quiet.send(b"D", (11, b"A1"), (54, b"1"), (55, b"INTC"), (38, b"300"), (40, b"2"), (44, b"23.45"))
    report, came = quiet.first(b"8", 2.0)
    late = came - seconds_of(report[52]) if report else None
    steps.is_so(f"52 of a report behind three silent seconds is {late:.3f} s before it came", report and late < 0.2)


def silence(steps, address):
    silent = Client(b"C3", address, 1)
    _, begun = silent.first(b"A", 2.0)
    _, asked = silent.first(b"1", 4.0)
    _, ended = silent.first(b"5", 4.0)
    steps.is_so(f"who is silent is asked after {asked and asked - begun:.2f} s", asked and 1.1 < asked - begun < 1.6)
    steps.is_so(f"and logged out after {ended and ended - begun:.2f} s", ended and 2.3 < ended - begun < 2.9)


def main():
    rounds = int(sys.argv[2]) if len(sys.argv) > 2 else 3
    port, *clients = free_addresses(4)
    market, steps = Market(port), Steps()
    market.begin()
    with tempfile.TemporaryDirectory() as folder:
        settings, errors = Path(folder, "settings"), Path(folder, "errors")
        settings.write_text(SETTINGS.format(port) + "".join(CLIENT.format(i + 1, it) for i, it in enumerate(clients)))
        words = [sys.argv[1], "serve", "--settings", str(settings)]
        with errors.open("w") as told, subprocess.Popen(words, stdout=subprocess.DEVNULL, stderr=told) as gateway:
            time.sleep(1.5)
            client = Client(b"C1", clients[0], 5)
            client.beat()
            time.sleep(2.0)
            stand_still(steps, gateway, client, market, errors, rounds)
            moment(steps, clients[1])
            silence(steps, clients[2])
            gateway.kill()
        print(re.sub(r"\n?$", "\n", errors.read_text()), end="")
    return 0 if steps.is_well else 1


if __name__ == "__main__":
    sys.exit(main())
