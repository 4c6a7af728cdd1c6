"""`python3 -m stress.one_resend GATEWAY [--sites]`: how much memory does a gateway take by one answer to a
ResendRequest?

C1 has 10,002 reports kept, and has read them. It comes again, asks once for all of them, and reads nothing for a
second: the answer lies in the gateway, but for what the system buffers of it. Then it reads it, and last it gets a
Heartbeat. Shown is by how much the gateway's memory has grown since C1 asked: at most (VmHWM), and behind each of these
(VmRSS). The day's history has the answer, too; beside that it takes 1.2 of the answer's bytes at most. Then C1 asks a
second time, and reads it: by so much the memory grows once more at most.

All is played with a journal that is never synced, so that the history's older pages leave memory within a tenth of a
second, and without one. The process keeps what they leave, for what comes next: so with a journal a second answer takes
no more than 1.2 of its bytes with its history. The status is 0 where all of it is so.

With --sites it is played below `valgrind --tool=dhat` instead, for a minute, and shown is what the gateway has of the
heap beyond what it had before, by who took it: as it had most of all, and behind each of these."""
import json
import re
import socket
import subprocess
import sys
import tempfile
import time
from collections import Counter
from pathlib import Path

from .asked_again import Client, again, kept
from .link import free_addresses
from .served_day import Market
from .stood_still import CLIENT, SETTINGS, Steps

# each of them is reported as pending, as accepted and as traded
ORDERS = 3_334
MOST = 1.2
MOMENTS = ["while it lies there", "once it was read", "behind a Heartbeat"]
# of the heap, sites are told apart by so many callers, and shown where they have so many bytes more
CALLERS, SHOWN = 3, 20_000


def memory(gateway, name):
    """A line of a process's status, in bytes."""
    for line in Path(f"/proc/{gateway.pid}/status").read_text().splitlines():
        if line.startswith(name + ":"):
            return 1024 * int(line.split()[1])
    return 0


def forget_most(gateway):
    """From now on the most memory that it had is counted anew."""
    Path(f"/proc/{gateway.pid}/clear_refs").write_text("5")


def buffered(address):
    """How many bytes the system has of the links of this address, at both ends."""
    lines = [line.split() for line in Path("/proc/net/tcp").read_text().splitlines()[1:]]
    own = [it for it in lines if f":{address:04X}" in (it[1][-5:], it[2][-5:])]
    return sum(int(queue, 16) for it in own for queue in it[4].split(":"))


def ready(steps, address):
    """A client for which reports are kept, behind a new link of which the system buffers little; and how many."""
    client = Client(b"C1", address)
    count = kept(client, ORDERS, ORDERS // 2)
    steps.is_so(f"{count} reports are kept", count == 3 * ORDERS)
    client = again(address, client, 4_096, 536)
    client.frame(10.0)
    time.sleep(0.5)
    return client, count


def ask(client, seconds):
    client.send(b"2", (7, b"1"), (16, b"0"))
    time.sleep(seconds)


def read(steps, client, count):
    """Reads the answer; gives how many bytes it has."""
    client.stream.setsockopt(socket.SOL_SOCKET, socket.SO_RCVBUF, 1 << 20)
    seen, size = 0, 0
    while seen < count and (frame := client.frame(30.0)):
        seen += frame.kind == b"8"
        size += len(frame.raw)
    steps.is_so(f"all of them are in its answer, which has {size} bytes", seen == count)
    time.sleep(0.5)
    return size


def beat(client):
    client.send(b"1", (112, b"T"))
    client.frame(10.0)
    time.sleep(0.5)


def measured(steps, gateway, address, journal, history):
    """Shows by how much the memory grows. Gives by how much the history does, which a journal's file says."""
    client, count = ready(steps, address)
    written = journal.stat().st_size if journal else 0
    before, grown, most = memory(gateway, "VmRSS"), [], []
    forget_most(gateway)

    def note():
        grown.append(memory(gateway, "VmRSS") - before)
        most.append(memory(gateway, "VmHWM") - before)
    ask(client, 1.0)
    note()
    waits = buffered(address)
    size = read(steps, client, count)
    steps.is_so(f"the system had {waits} of them while it read nothing", waits < size / 10)
    note()
    beat(client)
    note()
    history = journal.stat().st_size - written if journal else history
    print(f"{before} bytes before; the history has {history} more then")
    for moment, more in [("at most", max(most)), *zip(MOMENTS, grown)]:
        ratio = (more - history) / size
        steps.is_so(f"{moment}: {more} bytes more, {ratio:.2f} of the answer beside the history", ratio <= MOST)
    more = again_at_most(steps, gateway, client, count)
    ratio = (more - (0 if journal else history)) / size
    beside = "with" if journal else "beside"
    steps.is_so(f"a second time: {more} bytes more at most, {ratio:.2f} of it {beside} the history", ratio <= MOST)
    return history


def again_at_most(steps, gateway, client, count):
    """By how much the memory grows at most while the client asks a second time and reads the answer."""
    before = memory(gateway, "VmRSS")
    forget_most(gateway)
    ask(client, 1.0)
    read(steps, client, count)
    return memory(gateway, "VmHWM") - before


def up_to(moment):
    """Plays the same up to one of the moments, or to before the first; gives the client, whose link is up still."""
    def play(steps, gateway, address, journal, history):
        client, count = ready(steps, address)
        if moment:
            ask(client, 2.0)
        if moment in MOMENTS[1:]:
            read(steps, client, count)
        if moment == MOMENTS[2]:
            beat(client)
        return client
    return play


def sites(path, size_at, blocks_at):
    """Bytes and blocks of the heap, by who took them."""
    found = json.loads(path.read_text())
    names = [re.sub(r"::<#\w+>", "", it.split(": ", 1)[-1].split(" (")[0]) for it in found["ftbl"]]
    taken = {"all of it": Counter()}
    for it in found["pps"]:
        callers = [names[at] for at in it["fs"] if "alloc" not in names[at].split("::")[0]]
        for site in (" < ".join(callers[:CALLERS]), "all of it"):
            taken.setdefault(site, Counter()).update(bytes=it[size_at], blocks=it[blocks_at])
    return taken


def heap(steps, program, has_journal):
    """Shows what of the heap is taken beyond what was taken before."""
    with tempfile.TemporaryDirectory() as folder:
        path, at = Path(folder, "sites"), []
        for moment in (None, *MOMENTS):
            by = ["valgrind", "--tool=dhat", "--num-callers=30", f"--dhat-out-file={path}"]
            run(steps, program, has_journal, 0, up_to(moment), by)
            if moment == MOMENTS[0]:
                at.append(sites(path, "gb", "gbk"))
            at.append(sites(path, "eb", "ebk"))
    before, *later = at
    rows = {}
    for site in set().union(*at):
        rows[site] = [it.get(site, Counter())[what] - before.get(site, Counter())[what]
                      for it in later for what in ("bytes", "blocks")]
    print("bytes and blocks more at most, " + ", ".join(MOMENTS))
    for site, row in sorted(rows.items(), key=lambda it: -max(it[1])):
        if max(row) >= SHOWN:
            print("".join(f"{it:>10}" for it in row) + "  " + site)


def run(steps, program, has_journal, history, play, by=()):
    """Gives what the play gives, once the gateway was ended by a signal."""
    port, address = free_addresses(2)
    market = Market(port)
    market.begin()
    with tempfile.TemporaryDirectory() as folder:
        settings, journal = Path(folder, "settings"), Path(folder, "journal") if has_journal else None
        settings.write_text(SETTINGS.format(port) + CLIENT.format(1, address))
        words = [*by, program, "serve", "--settings", str(settings)]
        words += ["--journal", str(journal), "--sync", "never"] if journal else []
        with subprocess.Popen(words, stdout=subprocess.DEVNULL, stderr=subprocess.DEVNULL) as gateway:
            end = time.monotonic() + 60
            while not market.logins and time.monotonic() < end:
                time.sleep(0.1)
            time.sleep(0.5)
            try:
                given = play(steps, gateway, address, journal, history)
            finally:
                gateway.terminate()
    market.end()
    return given


def main():
    program, steps, history = sys.argv[1], Steps(), 0
    for has_journal in (True, False):
        print("with a journal:" if has_journal else "without a journal:", flush=True)
        if "--sites" in sys.argv[2:]:
            heap(steps, program, has_journal)
        else:
            history = run(steps, program, has_journal, history, measured)
    return 0 if steps.is_well else 1


if __name__ == "__main__":
    sys.exit(main())
