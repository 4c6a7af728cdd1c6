"""`python3 -m stress.asked_again GATEWAY [SECONDS [CLIENTS]]`: how much memory does a gateway take by a client that asks
again and again for all that is kept for it?

C1 has 8,100 reports kept, and recovers five times: each time it gets all of them. Then it asks 1,500 times in one write
for all of them, once reading nothing and once reading as fast as it can, each with a gateway of its own; C2 has orders
filled meanwhile. The gateway takes less than 300 MB, no fill of C2's takes more than a second, and C1's link is ended
with a line that says why.

With CLIENTS, 63 at most, so many do it at once instead, each with 300 reports kept, reading nothing: the link of each is
ended with such a line, and the fills of one client more take at most twice as long as before, by the slowest of a
hundred; what memory that takes is shown. The status is 0 where all of it is so."""
import socket
import subprocess
import sys
import tempfile
import threading
import time
from pathlib import Path

from .fix import Reader, stamp, written
from .link import free_addresses
from .served_day import Market
from .stood_still import CLIENT, SETTINGS, Steps

# each of them is reported as pending, as accepted and as traded
ORDERS = 2_700
ASKS = 1_500
# of each of many clients
FEW_ORDERS, FILLS = 100, 400
MOST_MEGABYTES, LONGEST = 300, 1.0
TOLD = " messages again within an hour, limit "


class Client:
    """A session that reads when it is told to. With small segments its peer's system buffers little of what it isn't
    read."""

    def __init__(self, name, address, number=0, room=None, segment=None):
        self.name, self.number = name, number
        self.stream = socket.socket()
        if room:
            self.stream.setsockopt(socket.SOL_SOCKET, socket.SO_RCVBUF, room)
        if segment:
            self.stream.setsockopt(socket.IPPROTO_TCP, socket.TCP_MAXSEG, segment)
        self.stream.connect(("127.0.0.1", address))
        self.reader, self.waiting = Reader(), []
        self.send(b"A", (98, b"0"), (108, b"0"))

    def message(self, kind, *body):
        self.number += 1
        head = [(35, kind), (49, self.name), (56, b"GATE"), (34, b"%d" % self.number), (52, stamp())]
        return written(head + list(body))

    def send(self, kind, *body):
        self.stream.sendall(self.message(kind, *body))

    def order(self):
        self.send(b"D", (11, b"A%d" % self.number), (54, b"1"), (55, b"INTC"), (38, b"100"), (40, b"2"), (44, b"2"))

    def frame(self, seconds):
        """The next frame, or None."""
        self.stream.settimeout(seconds)
        try:
            while not self.waiting:
                data = self.stream.recv(1 << 20)
                if not data:
                    return None
                self.waiting = self.reader.feed(data)
        except OSError:
            return None
        return self.waiting.pop(0)

    def reports(self, count):
        """How many reports it is sent, up to so many."""
        seen = 0
        while seen < count and (frame := self.frame(10.0)):
            seen += frame.kind == b"8"
        return seen

    def filled(self):
        """How long a fill takes."""
        begun = time.monotonic()
        self.order()
        while frame := self.frame(30.0):
            if frame.kind == b"8" and frame[39] == b"2":
                return time.monotonic() - begun
        return 30.0


def megabytes(gateway):
    """The most memory that a process had."""
    for line in Path(f"/proc/{gateway.pid}/status").read_text().splitlines():
        if line.startswith("VmHWM:"):
            return int(line.split()[1]) / 1024
    return 0.0


def kept(client, orders=ORDERS, at_once=300):
    """Has as many reports made as its orders give, a few orders at a time; says how many."""
    seen = 0
    for number in range(1, orders + 1):
        client.order()
        if number % at_once == 0:
            seen += client.reports(3 * at_once)
    return seen


def again(address, client, room=None, segment=None):
    """The same client behind a lost link, as soon as its line takes it."""
    client.stream.close()
    time.sleep(0.5)
    return Client(client.name, address, client.number, room, segment)


def ask(client, reads):
    """Asks for all, so many times in one write; gives how many bytes it is sent until its link ends."""
    asks = b"".join(client.message(b"2", (7, b"1"), (16, b"0")) for _ in range(ASKS))
    client.stream.settimeout(None)
    size = 0
    try:
        threading.Thread(target=write, args=(client.stream, asks), daemon=True).start()
        while reads and (data := client.stream.recv(1 << 20)):
            size += len(data)
    except OSError:
        pass
    return size


def write(stream, data):
    """Writes all, or as much as is taken."""
    try:
        stream.sendall(data)
    except OSError:
        pass


def play(steps, gateway, addresses, seconds, reads):
    how = "reading as fast as it can" if reads else "reading nothing"
    client, other = Client(b"C1", addresses[0]), Client(b"C2", addresses[1])
    other.filled()
    count = kept(client)
    steps.is_so(f"{count} reports are kept", count == 3 * ORDERS)
    for _ in range(5):
        client = again(addresses[0], client)
        client.send(b"2", (7, b"1"), (16, b"0"))
        steps.is_so("a client that comes again gets all of them", client.reports(count) == count)
    client = again(addresses[0], client, None if reads else 4096)
    before, sizes = megabytes(gateway), []
    threading.Thread(target=lambda: sizes.append(ask(client, reads)), daemon=True).start()
    times, end = [], time.monotonic() + seconds
    while time.monotonic() < end:
        times.append(other.filled())
        time.sleep(0.02)
    most, longest = megabytes(gateway), max(times)
    got = f", {sizes[0] / 1e6:.0f} MB sent" if reads and sizes else ""
    steps.is_so(f"{how}: {most:.0f} MB at most, {before:.0f} before{got}", most < MOST_MEGABYTES)
    steps.is_so(f"{how}: {len(times)} fills of C2, the longest in {longest:.2f} s", longest <= LONGEST)


def slowest(client, fills):
    """The time within which all but one in a hundred fills come, in seconds."""
    times = []
    for _ in range(fills):
        times.append(client.filled())
        time.sleep(0.005)
    return sorted(times)[len(times) * 99 // 100]


def crowd(steps, gateway, addresses, seconds, reads):
    """Many clients ask at once; one more has orders filled."""
    *many, other = [Client(b"C%d" % (i + 1), it) for i, it in enumerate(addresses)]
    for client in many:
        steps.is_well &= kept(client, FEW_ORDERS, FEW_ORDERS) == 3 * FEW_ORDERS
    many = [again(it, client, 4096) for it, client in zip(addresses, many)]
    time.sleep(1)
    before, calm = megabytes(gateway), slowest(other, FILLS)
    for client in many:
        threading.Thread(target=ask, args=(client, reads), daemon=True).start()
    busy, most = slowest(other, FILLS), megabytes(gateway)
    print(f"{len(many)} clients: {most:.0f} MB at most, {before:.0f} before")
    steps.is_so(f"99 of 100 fills within {1e3 * busy:.1f} ms, {1e3 * calm:.1f} ms before", busy <= 2 * calm)


def run(steps, program, seconds, reads, count=1, play=play):
    port, *clients = free_addresses(2 + count)
    market = Market(port)
    market.begin()
    with tempfile.TemporaryDirectory() as folder:
        settings, errors = Path(folder, "settings"), Path(folder, "errors")
        settings.write_text(SETTINGS.format(port) + "".join(CLIENT.format(i + 1, it) for i, it in enumerate(clients)))
        words = [program, "serve", "--settings", str(settings)]
        with errors.open("w") as told, subprocess.Popen(words, stdout=subprocess.DEVNULL, stderr=told) as gateway:
            time.sleep(1.5)
            try:
                play(steps, gateway, clients, seconds, reads)
            finally:
                gateway.kill()
        told = errors.read_text().splitlines()
        for name in (f" C{i + 1} " for i in range(count)):
            own = [line for line in told if name in line]
            steps.is_so(f"it is told why the link of{name}is ended", any(TOLD in line for line in own))
            steps.is_so("and its link is ended", any(f"{name}link fault 4: " in line for line in own))
            if count == 1:
                print("".join(line + "\n" for line in own), end="")
    market.end()


def main():
    seconds, steps = float(sys.argv[2]) if len(sys.argv) > 2 else 10.0, Steps()
    if len(sys.argv) > 3:
        run(steps, sys.argv[1], seconds, False, int(sys.argv[3]), crowd)
    else:
        for reads in (False, True):
            run(steps, sys.argv[1], seconds, reads)
    return 0 if steps.is_well else 1


if __name__ == "__main__":
    sys.exit(main())
