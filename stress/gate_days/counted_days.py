"""Days of `gateway run`, which serves a counted number of links of each client, and then ends by itself."""
import os
import re
import resource
import signal
import socket
import time

from .peers import PATIENCE, holds_within
from .stage import LeftOut, behind, since

# in units of 1,024 bytes, as a shell's limits are
GIB = 2 ** 20
FIRST = "C1 A1 side 1 executed 100 open 0 cancelled 0 value 10000000 agree\n"
AUDIT = (FIRST + "C1 A2 side 1 executed 200 open 0 cancelled 0 value 21000000 agree\n"
         "C2 A3 side 1 executed 300 open 0 cancelled 0 value 33000000 agree\norders 3 agree 3\n")


def all_come_and_go(stage):
    """64 clients on 16 ports are all logged on at once, and log out: each Logout is told, and the day ends at once, with an
    audit of no order, and no fault"""
    clients, addresses = stage.set_up(64, 16, control=False)
    for address in addresses:
        stage.market(address, is_silent=True)
    gateway = stage.gateway("run")
    for client in clients:
        stage.holds(f"{client.name} is logged on", client.connect().log_on() is not None)
    for client in clients:
        stage.holds(f"{client.name} is logged out", client.log_out() is not None)
    for client in clients:
        stage.same(f"the link of {client.name}", "end", client.ending())
    begin = time.monotonic()
    stage.same("status and audit", (0, "orders 0 agree 0\n"), (gateway.status(), gateway.output.read_text()))
    # ten seconds where it isn't known that all clients have had their links
    stage.within("seconds from the last link to the end", 0, since(begin), 9)
    told = gateway.lines()
    for number in range(1, 65):
        stage.same(f"Logouts of C{number} that are told", 1, sum(it.startswith(f"C{number} sent 35=5|") for it in told))
    for name in [f"C{n}" for n in range(1, 65)] + [f"P{n}" for n in range(1, 17)]:
        stage.same(f"links of {name}", 1, told.count(f"{name} up"))
    strange = [line for line in told if not re.fullmatch(r"[CP]\d+ (up|gone|closed by the gateway|sent 35=5\|.*)", line)]
    stage.same("other lines", [], strange)


def an_unlawful_market(stage):
    """a payload outside the profile ends its port alone: fault 4, once; its client's next order is refused"""
    (one, two), addresses = stage.set_up(2, 2, control=False)
    first, second = (stage.market(it) for it in addresses)
    gateway = stage.gateway("run")
    for client in (one, two):
        client.connect().log_on()
        client.order(b"A1")
        stage.holds(f"{client.name}'s order is filled", client.told(b"A1", b"F") is not None)
    first.raw.append(b"\x00\x03S00")
    stage.holds("the gateway closes the port's link", holds_within(first.has_one_end))
    stage.holds("the fault is told", gateway.says(" P1 port fault 4: "))
    one.order(b"A2")
    refusal = one.told(b"A2", b"8")
    stage.same("the next order on that port", (b"8", b"2", b"port fault 4"),
               refusal and (refusal[39], refusal[103], refusal[58]))
    two.order(b"A2")
    stage.holds("an order on the other port is filled", two.told(b"A2", b"F") is not None)
    stage.same("the other port's links", (1, []), (len(second.came), second.ends))
    for client in (one, two):
        stage.holds(f"{client.name} is logged out", client.log_out() is not None)
        stage.same(f"the link of {client.name}", "end", client.ending())
    other = FIRST.replace("C1", "C2")
    audit = FIRST + other + other.replace("A1", "A2") + "orders 3 agree 3\n"
    stage.same("status and audit", (0, audit), (gateway.status(), gateway.output.read_text()))
    faults = [line for line in gateway.lines() if "fault" in line]
    stage.same("faults", 1, len(faults))
    stage.same("orders that the faulted port was asked", 1, len(first.orders))


def lost_links(stage):
    """a client and a port each lose a link and come again: all orders agree, and so does the journal, read again"""
    (one, two), addresses = stage.set_up(2, 2, control=False)
    first, second = (stage.market(it) for it in addresses)
    first.cut_at = 1
    journal = str(stage.folder / "day")
    gateway = stage.gateway("run", "--links", "2", "--journal", journal)
    one.connect().log_on()
    one.order(b"A1")
    stage.holds("the first order is filled", one.told(b"A1", b"F") is not None)
    one.close()
    stage.holds("the market cuts its link", holds_within(lambda: first.ends == ["cut"]))
    stage.holds("the client logs on again", one.connect().log_on() is not None)
    one.order(b"A2", 200, b"10.5")
    stage.holds("its next order is filled over the port's next link", one.told(b"A2", b"F") is not None)
    stage.same("links of the first port", 2, len(first.came))
    two.connect().log_on()
    two.order(b"A3", 300, b"11")
    stage.holds("the other client's order is filled", two.told(b"A3", b"F") is not None)
    # whoever comes while a link is up waits in the system's queue, and isn't refused
    following = socket.create_connection(two.where)
    stage.holds("it logs out", two.log_out() is not None)
    two.ending()
    two.close()
    stage.holds("it comes again", two.goes_on_over(following).log_on() is not None)
    stage.same("numbers of what it was sent go on", [it + 1 for it in range(len(two.frames))],
               [frame.number for frame in two.frames])
    for client in (one, two):
        stage.holds(f"{client.name} is logged out", client.log_out() is not None)
        client.ending()
    stage.same("status and audit", (0, AUDIT), (gateway.status(), gateway.output.read_text()))
    stage.holds("the other port's one link ends", holds_within(second.has_one_end))
    stage.same("the journal's audit", (0, AUDIT, ""),
               stage.asked("audit", "--journal", journal, "--settings", str(stage.settings)))


def no_thread(stage):
    """a gateway that has no thread for its lines says so, once no client was served for ten seconds; one that can have
    none at all says so at once"""
    most = resource.getrlimit(resource.RLIMIT_STACK)[1]
    if most != resource.RLIM_INFINITY and most < GIB * 1024:
        raise LeftOut(f"stacks have {most} bytes here at most")
    with open("/proc/sys/vm/overcommit_memory", encoding="ascii") as file:
        if file.read().strip() == "2":
            raise LeftOut("stacks that aren't used take memory here")
    stage.set_up(1, control=False)
    begin = time.monotonic()
    # a thread has a GiB for its stack: there is room for the one that writes standard error, and for no other
    gateway = stage.gateway("run", before=behind(f"ulimit -s {GIB} && ulimit -v {2 * GIB}"))
    stage.same("what it comes to", (1, "gateway: no thread\n"), (gateway.status(), gateway.errors.read_text()))
    stage.within("seconds", 9.9, since(begin), PATIENCE)
    gateway = stage.gateway("run", before=behind(f"ulimit -s {GIB} && ulimit -v {GIB}"))
    stage.same("what another comes to", (1, "gateway: no thread\n"), (gateway.status(), gateway.errors.read_text()))


def some_threads(stage):
    """a gateway of four clients that has threads for some of its lines alone ends once no client was served for ten
    seconds, and says why; each link that came up is told as ended"""
    clients, (address,) = stage.set_up(4, control=False)
    stage.market(address)
    # a thread has a GiB for its stack: there is room for so many, but how many the system gives differs
    for most in (8, 9, 10, 7) * 5:
        limits = f"export MALLOC_ARENA_MAX=1 && ulimit -s {GIB} && ulimit -v {(most + 1) * GIB}"
        gateway = stage.gateway("run", before=behind(limits))
        begin, had = time.monotonic(), set()
        time.sleep(0.5)
        # two for each of five lines, beside the first one and the one that writes standard error
        if gateway.process.poll() is None and 4 <= len(os.listdir(f"/proc/{gateway.process.pid}/task")) < 12:
            break
        gateway.process.kill()
        gateway.status()
    else:
        raise LeftOut("all threads can be had here, or none")
    while gateway.process.poll() is None and since(begin) < PATIENCE:
        for client in [it for it in clients if it not in had]:
            try:
                client.goes_on_over(socket.create_connection(client.where))
            except OSError:
                continue
            had.add(client)
            if client.log_on() is not None:
                client.log_out()
            client.ending()
        time.sleep(0.02)
    status, told = gateway.status(), gateway.lines()
    stage.same("status and last line", (1, "gateway: no thread"), (status, told[-1] if told else ""))
    for name in (f"C{number}" for number in range(1, 5)):
        ends = sum(line in (f"{name} gone", f"{name} closed by the gateway") for line in told)
        stage.same(f"links of {name} that have ended", told.count(f"{name} up"), ends)


def another_day(stage):
    """the journal of a gateway that was killed isn't ended by settings that give another day, and is by its own"""
    (client,), _ = stage.set_up(1, control=False)
    journal = str(stage.folder / "day")
    gateway = stage.gateway("run", "--journal", journal)
    stage.holds("the client is logged on", client.connect().log_on() is not None)
    gateway.process.send_signal(signal.SIGKILL)
    gateway.status()
    own, other = stage.settings, stage.folder / "other.toml"
    other.write_text(own.read_text().replace('comp = "GATE"', 'comp = "GATF"'))
    before = (stage.folder / "day").read_bytes()
    status, output, told = stage.asked("end", "--settings", str(other), "--journal", journal)
    stage.same("by other settings", (2, "", "gateway: journal: event 1 isn't what these settings give"),
               (status, output, told.splitlines()[-1:] and told.splitlines()[-1]))
    stage.holds("the journal is as it was", (stage.folder / "day").read_bytes() == before)
    stage.same("by its own", (0, "orders 0 agree 0\n"),
               stage.asked("end", "--settings", str(own), "--journal", journal)[:2])


def pages_that_leave_memory(stage):
    """a day of 401 orders has its audit, and names its open order, by its journal's file, since older pages leave memory:
    where a byte of the file changed there is no audit, and the status is 1"""
    journal = str(stage.folder / "day")
    stage.same("a day by its file", (0, ["A0 of C1: 100 of 100 open at the market",
                                         "gateway: 1 orders are open at the market, 0 weren't answered"]),
               many_orders(stage, journal))
    audit = stage.gateways[-1].output.read_text()
    stage.holds("the audit has all orders", audit.endswith("agree\norders 401 agree 401\n"))
    stage.same("the journal's audit", (0, audit, ""),
               stage.asked("audit", "--journal", journal, "--settings", str(stage.settings)))
    stage.same("a day whose file changed", (1, ["gateway: journal: it doesn't have the day"]),
               many_orders(stage, str(stage.folder / "other"), 40))
    stage.same("its audit", "", stage.gateways[-1].output.read_text())


def many_orders(stage, journal, place=None):
    """A day of 401 orders, the first of which stays open; before it ends a byte of its journal may change. The gateway's
    status, and its last lines, behind those of links."""
    (client,), (address,) = stage.set_up(1)
    stage.market(address)
    gateway = stage.gateway("serve", "--journal", journal, "--sync", "never")
    client.connect().log_on()
    client.order(b"A0", price=b"1")
    for number in range(1, 401):
        client.order(b"A%d" % number)
    stage.holds("the last order is filled", client.told(b"A400", b"F") is not None)
    time.sleep(0.5)
    if place is not None:
        with open(journal, "r+b") as file:
            file.seek(place)
            byte = file.read(1)
            file.seek(place)
            file.write(bytes([byte[0] ^ 1]))
    stage.same("whoever ends it", 0, stage.end(gateway, "--now")[0])
    lines = gateway.lines()
    ends = [at for at, line in enumerate(lines) if re.fullmatch(r"[CP]1 (gone|closed by the gateway|link fault .*)", line)]
    return gateway.status(), lines[ends[-1] + 1:]


STEPS_OF_COUNTED_DAYS = (no_thread, some_threads, all_come_and_go, lost_links, an_unlawful_market, another_day,
                         pages_that_leave_memory)
