#!/usr/bin/env python3
"""bench/page_readers.py GATEWAY LOAD [SECONDS] [TIMES]: what readers of a served gateway's page cost its fills.

GATEWAY is a built program, LOAD is `load.cpp`, built. In turn, TIMES times (3), for SECONDS (60): a day on which nobody
looks, and one whose page is fetched 10,000 times by six readers, beside two that ask and don't read, while its standard
error is a full pipe that nobody reads. On both a client has 200 orders a second filled, one at a time. Printed are how
long half of the fills took, on either day, and last the median of the ratios. The status is 1 where a day doesn't end
as it has to."""
import multiprocessing
import socket
import statistics
import subprocess
import sys
import tempfile
import time
from pathlib import Path

SETTINGS = """comp = "GATE"
[day]
linger = 0
[control]
listen = "127.0.0.1:{control}"
[[port]]
name = "P1"
address = "127.0.0.1:{market}"
user = "USER01"
password = "PASSWORD"
"""
CLIENT = """[[client]]
comp = "{name}"
listen = "127.0.0.1:{address}"
port = "P1"
firm = "FIRM"
capacity = "A"
customer = "R"
"""
READERS, DEAF, FETCHES, ORDERS = 6, 2, 10_000, 200


def free(count):
    held = [socket.socket() for _ in range(count)]
    for it in held:
        it.bind(("127.0.0.1", 0))
    addresses = [it.getsockname()[1] for it in held]
    for it in held:
        it.close()
    return addresses


def asked(control):
    """A connection that has asked for the page."""
    stream = socket.create_connection(("127.0.0.1", control), 10)
    stream.sendall(f"GET / HTTP/1.1\r\nHost: localhost:{control}\r\nConnection: close\r\n\r\n".encode())
    return stream


def read(control, seconds, count, done):
    """Fetches the page so often in so many seconds."""
    begin = time.monotonic()
    for i in range(count):
        time.sleep(max(0, begin + i * seconds / count - time.monotonic()))
        stream, page = asked(control), b""
        while data := stream.recv(65_536):
            page += data
        stream.close()
        with done.get_lock():
            done.value += page.startswith(b"HTTP/1.1 200 ") and page.endswith(b"</html>\n")


def ask(control, seconds):
    """Asks for the page and reads nothing, until the connection's time is over; and again."""
    begin = time.monotonic()
    while time.monotonic() < begin + seconds:
        try:
            with asked(control):
                time.sleep(5)
        except OSError:
            pass


def heartbeat():
    """A whole frame that is no Logon."""
    text = b"8=FIX.4.4\x019=5\x0135=0\x01"
    return text + b"10=%03d\x01" % (sum(text) % 256)


def strangers(address, count, pause):
    """So many links whose first frame is no Logon: three lines each on standard error."""
    for _ in range(count):
        try:
            with socket.create_connection(("127.0.0.1", address), 10) as stream:
                stream.sendall(heartbeat())
                stream.settimeout(10)
                while stream.recv(4096):
                    pass
        except OSError:
            pass
        time.sleep(pause)


def fills(said):
    """Microseconds that half of the fills took at most, of what `load` prints."""
    return float(said.partition("fill p50 ")[2].split()[0])


def day(gateway, load, seconds, is_read):
    """What `load` prints of a day, and what was wrong of it."""
    with tempfile.TemporaryDirectory() as folder:
        control, market, client, other = free(4)
        settings = SETTINGS.format(control=control, market=market)
        settings += CLIENT.format(name="C1", address=client) + CLIENT.format(name="C2", address=other)
        path, number = Path(folder, "settings"), Path(folder, "number")
        path.write_text(settings)
        words = [load, "gateway", str(client), str(market), str(number), str(int(ORDERS * seconds)), "1",
                 str(1_000_000 // ORDERS)]
        loading = subprocess.Popen(words, stdout=subprocess.PIPE, text=True)
        time.sleep(0.2)
        with Path(folder, "errors").open("wb") as errors:
            running = subprocess.Popen([gateway, "serve", "--settings", str(path)], stdout=subprocess.DEVNULL,
                                       stderr=subprocess.PIPE if is_read else errors)
        number.write_text(str(running.pid))
        done, others = multiprocessing.Value("i", 0), []
        if is_read:
            share, made = FETCHES // READERS + 1, multiprocessing.Process
            others = [made(target=read, args=(control, seconds, share, done)) for _ in range(READERS)]
            others += [made(target=ask, args=(control, seconds)) for _ in range(DEAF)]
            time.sleep(0.5)
            strangers(other, 600, 0)
            others += [made(target=strangers, args=(other, int(10 * seconds), 0.1))]
        for it in others:
            it.start()
        said = loading.communicate()[0].strip()
        for it in others:
            it.join()
        ended = subprocess.run([gateway, "end", "--now", "--settings", str(path)], capture_output=True)
        told = running.communicate(timeout=60)[1] or b""
        wrong = [f"statuses {ended.returncode}, {running.returncode}"] if ended.returncode or running.returncode else []
        if is_read and done.value < FETCHES:
            wrong.append(f"{done.value} pages were read whole")
        if is_read and b"lines are lost here" not in told:
            wrong.append("no line is lost: standard error wasn't full")
        what, pages = ("read", f"; {done.value} pages") if is_read else ("alone", "")
        print(f"{what:5} {said}{pages}", *wrong, flush=True)
        return fills(said), bool(wrong)


def main():
    gateway, load = sys.argv[1:3]
    seconds, times = (int(word) for word in (sys.argv[3:5] + ["60", "3"][len(sys.argv) - 3:]))
    ratios, are_wrong = [], False
    for _ in range(times):
        (alone, first), (beside, second) = (day(gateway, load, seconds, is_read) for is_read in (False, True))
        ratios.append(beside / alone)
        are_wrong |= first or second
        print(f"with readers {beside:.1f} us, without {alone:.1f} us: {ratios[-1]:.2f}", flush=True)
    print(f"the median of {times}: {statistics.median(ratios):.2f}")
    return 1 if are_wrong else 0


if __name__ == "__main__":
    sys.exit(main())
