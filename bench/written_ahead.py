#!/usr/bin/env python3
"""bench/written_ahead.py GATEWAY LOAD RELAY [ORDERS] [TIMES] [AGAIN]: what a journal costs a running gateway, over loopback.

GATEWAY is a built program, LOAD and RELAY are `load.cpp` and `relay.cpp`, built. In turn, TIMES times (3): the relay, a
gateway without a journal and with one, synced with each write, each 100 ms and never: fills one at a time (a tenth of
ORDERS, 20,000) and with 100 outstanding. Then a gateway with the journal of AGAIN orders (ORDERS) is killed and started
again: how long it takes until its port logs in; and it is killed again, and its day ended by its journal."""
import os
import resource
import socket
import subprocess
import sys
import tempfile
import time
from pathlib import Path

SETTINGS = """comp = "GATE"
[[port]]
name = "P1"
address = "127.0.0.1:{market}"
user = "USER01"
password = "PASSWORD"
[[client]]
comp = "C1"
listen = "127.0.0.1:{client}"
port = "P1"
firm = "FIRM"
capacity = "A"
customer = "R"
"""


SYNCS = ("each", "100ms", "never")


def free():
    with socket.socket() as it:
        it.bind(("127.0.0.1", 0))
        return it.getsockname()[1]


def loaded(load, kind, words, folder, orders, outstanding, client, market):
    """What `load` prints of a process by these words, and that process."""
    number = Path(folder, "number")
    with socket.socket() as it:
        it.setsockopt(socket.SOL_SOCKET, socket.SO_REUSEADDR, 1)
    loading = subprocess.Popen([load, kind, str(client), str(market), str(number), str(orders), str(outstanding)],
                               stdout=subprocess.PIPE, text=True)
    time.sleep(0.2)
    with Path(folder, "errors").open("w") as errors:
        running = subprocess.Popen(words, stdout=subprocess.DEVNULL, stderr=errors)
    number.write_text(str(running.pid))
    return loading.communicate()[0].strip(), running


def memory_of(running):
    """How much memory a process had at most, in MB."""
    return int(Path(f"/proc/{running.pid}/status").read_text().partition("VmHWM:")[2].split()[0]) >> 10


def one(gateway, load, relay, what, orders, outstanding):
    with tempfile.TemporaryDirectory(dir=os.environ.get("JOURNALS")) as folder:
        client, market = free(), free()
        Path(folder, "settings").write_text(SETTINGS.format(client=client, market=market))
        words = [gateway, "run", "--settings", f"{folder}/settings"]
        words += ["--journal", f"{folder}/journal", "--sync", what] if what in SYNCS else []
        kind = "relay" if what == "relay" else "gateway"
        words = [relay, str(client), str(market)] if what == "relay" else words
        said, running = loaded(load, kind, words, folder, orders, outstanding, client, market)
        memory = memory_of(running)
        running.kill()
        running.wait()
        print(f"{what:8} {said}, {memory} MB at most", flush=True)


def again(gateway, load, orders):
    with tempfile.TemporaryDirectory(dir=os.environ.get("JOURNALS")) as folder:
        client, market = free(), free()
        Path(folder, "settings").write_text(SETTINGS.format(client=client, market=market))
        words = [gateway, "serve", "--settings", f"{folder}/settings", "--journal", f"{folder}/journal"]
        said, running = loaded(load, "gateway", words, folder, orders, 100, client, market)
        print(f"{said}, {memory_of(running)} MB at most", flush=True)
        running.kill()
        running.wait()
        size, begin = Path(folder, "journal").stat().st_size, time.monotonic()
        with Path(folder, "errors").open("w") as errors, socket.socket() as it:
            it.setsockopt(socket.SOL_SOCKET, socket.SO_REUSEADDR, 1)
            it.bind(("127.0.0.1", market))
            it.listen()
            running = subprocess.Popen(words, stdout=subprocess.DEVNULL, stderr=errors)
            it.accept()
            took = time.monotonic() - begin
            memory = memory_of(running)
            running.kill()
            running.wait()
        print(f"{orders} orders, a journal of {size >> 20} MB: it logs in {took:.2f} s after it is started again, "
              f"{memory} MB at most")
        begin, before = time.monotonic(), resource.getrusage(resource.RUSAGE_CHILDREN).ru_maxrss
        words = [gateway, "end", *words[2:]]
        ran = subprocess.run(words, capture_output=True, text=True)
        print(f"its day ends by its journal in {time.monotonic() - begin:.2f} s, status {ran.returncode}, "
              f"{ran.stdout.splitlines()[-1:]}, "
              f"{max(before, resource.getrusage(resource.RUSAGE_CHILDREN).ru_maxrss) >> 10} MB at most of all processes")


def main():
    gateway, load, relay = sys.argv[1:4]
    orders, times = (int(word) for word in (sys.argv[4:6] + ["20000", "3"][len(sys.argv[4:6]):]))
    for _ in range(times):
        for what in ("relay", "none", *SYNCS):
            one(gateway, load, relay, what, orders // 10, 1)
            one(gateway, load, relay, what, orders, 100)
    again(gateway, load, int(sys.argv[6]) if len(sys.argv) > 6 else orders)


if __name__ == "__main__":
    main()
