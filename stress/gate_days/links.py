"""How links of clients and ports begin, are read, and end."""
import calendar
import ctypes
import os
import re
import socket
import struct
import subprocess
import time

from .peers import PATIENCE, Market, holds_within
from .stage import LeftOut, behind, since

SECOND = 0.9  # a second, but for what clocks round
X = b"x" * 10_000
# x86-64 and others: the number of the system call by which a process has another one's descriptor
PIDFD_GETFD = 438

library = ctypes.CDLL(None, use_errno=True)


def logged_out(client, more=b""):
    """Has a client logged out for a number that is too low, with more behind it; its next Logon is in order."""
    before, number = len(client.frames), client.sent
    client.sent = 0
    client.stream.sendall(client.message(b"0") + more)
    client.sent = number
    return client.wait(lambda frame: frame.kind == b"5", begin=before)


def last_words(stage):
    """a Logout arrives though its peer has said more; a second later, if that doesn't close, its next link is served"""
    (client,), (address,) = stage.set_up(1)
    stage.market(address)
    stage.gateway("serve")
    client.connect().log_on()
    begin, old = time.monotonic(), client.stream
    stage.holds("the Logout comes", logged_out(client, X) is not None)
    stage.same("behind it the link ends", "end", client.ending())
    client.connect()
    stage.holds("it logs on again", client.log_on() is not None)
    stage.within("from the one to the other", SECOND, since(begin), PATIENCE)
    old.close()


def closes_at_once(stage):
    """a link whose peer closes it at its Logout is followed by the next one at once"""
    (client,), (address,) = stage.set_up(1)
    stage.market(address)
    stage.gateway("serve")
    client.connect().log_on()
    spent = []
    for _ in range(5):
        stage.holds("the Logout comes", logged_out(client) is not None)
        begin = time.monotonic()
        client.close()
        stage.holds("it logs on again", client.connect().log_on() is not None)
        spent.append(since(begin))
    stage.within("the shortest of five", 0, min(spent), SECOND)


def what_no_frame_is(stage):
    """bytes that are no frame are skipped, and told as their count doubles; too long a frame ends its link, behind all
    before it; a reset link is told as one"""
    (client,), (address,) = stage.set_up(1)
    stage.market(address)
    gateway = stage.gateway("serve")
    client.connect().log_on()
    one, two = client.message(b"1", (112, b"one")), client.message(b"1", (112, b"two"))
    client.stream.sendall(b"abc" + one + b"de" + two + b"fg")
    stage.holds("the messages between are answered", answers(client, b"one", b"two"))
    client.close()
    stage.holds("the link is gone", gateway.says(" C1 gone\n"))
    stage.same("skipped at once", ["skipped 7 bytes", "gone"], told_of(gateway, "C1", 0))
    client.connect().log_on()
    one, two = client.message(b"1", (112, b"three")), client.message(b"1", (112, b"four"))
    for byte in b"abc" + one + b"de" + two + b"fg":
        client.stream.sendall(bytes([byte]))
        time.sleep(0.001)
    stage.holds("the messages between are answered", answers(client, b"three", b"four"))
    client.close()
    stage.holds("the link is gone", holds_within(lambda: gateway.lines().count("C1 gone") == 2))
    counts = [int(line.split()[1]) for line in told_of(gateway, "C1", 1) if line.startswith("skipped")]
    grows = all(later >= 2 * earlier for earlier, later in zip(counts[:-1], counts[1:-1]))
    stage.holds("counts that double, and the last", grows and counts[-1:] == [7], repr(counts))
    client.connect().log_on()
    client.stream.sendall(client.message(b"1", (112, b"five")) + b"8=FIX.4.4\x019=8169\x01")
    stage.holds("the message before a long frame is answered", answers(client, b"five"))
    stage.same("the link ends", "end", client.ending())
    client.close()
    stage.holds("the long frame is told", gateway.says(" C1 link fault 3: "))
    client.connect().log_on()
    client.stream.setsockopt(socket.SOL_SOCKET, socket.SO_LINGER, struct.pack("ii", 1, 0))
    client.close()
    stage.holds("the reset is told", gateway.says(" C1 link fault 1: "))
    stage.holds("the next link is served", client.connect().log_on() is not None)
    stage.same("faults", 2, sum(" fault " in line for line in gateway.lines()))


def answers(client, *names):
    """Whether these Test Requests are answered, one behind the other."""
    heard = [client.wait(lambda frame, it=it: frame.kind == b"0" and frame[112] == it) for it in names]
    places = [client.frames.index(it) for it in heard if it]
    return len(places) == len(names) and places == sorted(places)


def told_of(gateway, whose, place):
    """What is told of a client's or port's link of this place, from behind its beginning to the next one's."""
    links = []
    for line in gateway.lines():
        who, _, what = line.partition(" ")
        if who == whose and what.startswith("up"):
            links.append([])
        elif who == whose and links:
            links[-1].append(what)
    return links[place]


def a_port_is_connected_again(stage):
    """a port is connected a second after a link; tries in vain don't count; then it has had its links"""
    (client,), (address,) = stage.set_up(1, control=False)
    market = stage.market(address)
    gateway = stage.gateway("run", "--links", "3")
    client.connect().log_on()
    stage.holds("the port has a link", holds_within(lambda: len(market.came) == 1))
    begin = time.monotonic()
    market.cut_at = 0
    stage.holds("it has another", holds_within(lambda: len(market.came) == 2))
    stage.within("from the cut to the next link", SECOND, market.came[1] - begin, PATIENCE)
    market.end()
    stage.holds("that nobody listens is told", gateway.says(" P1 link fault 1: "))
    time.sleep(2.5)
    market.listen()
    stage.holds("behind tries in vain it has a third", holds_within(lambda: len(market.came) == 3))
    # how the second link ended, and then why there was no third
    stage.holds("tries in vain are told once", holds_within(lambda: len(told_of(gateway, "P1", 1)) == 2)
                and told_of(gateway, "P1", 1)[1] == "link fault 1: read failed", repr(told_of(gateway, "P1", 1)))
    client.order(b"A1")
    stage.holds("an order is filled over it", client.told(b"A1", b"F") is not None)
    market.cut_at = 0
    stage.holds("it is cut", holds_within(lambda: market.ends == ["cut"] * 3))
    time.sleep(1.5)
    for turn in range(3):
        stage.holds("the client is logged out", client.log_out() is not None)
        client.ending()
        if turn < 2:
            client.close()
            stage.holds("it logs on again", client.connect().log_on() is not None)
    stage.same("status and audit", (0, True), (gateway.status(), gateway.output.read_text().endswith("agree 1\n")))
    stage.same("links of the port", 3, len(market.came))


def an_empty_packet(stage):
    """an empty packet ends its port's link, behind all before it; the port is connected again a second later"""
    (client,), (address,) = stage.set_up(1)
    market = stage.market(address)
    gateway = stage.gateway("serve")
    client.connect().log_on()
    client.order(b"A1", price=b"1")
    stage.holds("an order is open", client.told(b"A1", b"0") is not None)
    begin = time.monotonic()
    market.fill(0)
    stage.holds("what comes before is told", client.told(b"A1", b"F") is not None)
    market.raw.append(b"\x00\x00")
    stage.holds("the empty packet is told", gateway.says(" P1 link fault 3: "))
    stage.holds("the port has another link", holds_within(lambda: len(market.came) == 2))
    stage.within("from the packet to the next link", SECOND, market.came[1] - begin, PATIENCE)
    client.order(b"A2")
    stage.holds("an order is filled over it", client.told(b"A2", b"F") is not None)
    stage.same("how the gateway ends", (0, 0), stage.end(gateway, "--now"))


def a_silent_day(stage):
    """a day ends though one client never came, another is silent, and the markets too, which hear each port; not before
    it is told to. Until then nothing is done"""
    clients, addresses = stage.set_up(2, 3)
    markets = [stage.market(it) for it in addresses]
    gateway = stage.gateway("serve")
    clients[0].connect().log_on()
    stage.holds("each port has a link", holds_within(lambda: all(len(it.came) == 1 for it in markets)))
    before, threads = processor(gateway), threads_of(gateway)
    time.sleep(2)
    stage.same("a gateway that isn't told to end", None, gateway.process.poll())
    stage.within("seconds of a processor that it takes in two", 0, processor(gateway) - before, 1)
    # one that spins has no rest, however little of a processor it gets
    spins = [name for name, (ticks, rests) in threads_of(gateway).items() if name in threads
             and ticks - threads[name][0] > 2 and rests - threads[name][1] < 5]
    stage.same("threads that work without a rest", [], spins)
    stage.holds("each market hears its port", holds_within(lambda: all(it.beats for it in markets)))
    begin = time.monotonic()
    stage.same("how the gateway ends", (0, 0), stage.end(gateway, "--now"))
    stage.within("seconds to the end", 0, since(begin), 30)
    stage.same("the client's link", "end", clients[0].ending())
    stage.holds("the ports' links end", holds_within(lambda: all(it.has_one_end() for it in markets)))


def processor(gateway):
    """The seconds of a processor that a gateway has taken."""
    with open(f"/proc/{gateway.process.pid}/stat", encoding="ascii") as file:
        words = file.read().rpartition(")")[2].split()
    return (int(words[11]) + int(words[12])) / os.sysconf("SC_CLK_TCK")


def threads_of(gateway):
    """Of each thread of a gateway the ticks of a processor that it has taken, and how often it has slept."""
    of = {}
    for name in os.listdir(f"/proc/{gateway.process.pid}/task"):
        folder = f"/proc/{gateway.process.pid}/task/{name}"
        with open(f"{folder}/stat", encoding="ascii") as file:
            words = file.read().rpartition(")")[2].split()
        with open(f"{folder}/status", encoding="ascii") as file:
            rests = re.search(r"^voluntary_ctxt_switches:\s+(\d+)", file.read(), re.MULTILINE)
        of[name] = (int(words[11]) + int(words[12]), int(rests[1]))
    return of


def an_absent_client(stage):
    """what a client is told while it is away isn't on its next link, until it asks"""
    (client, other), (address,) = stage.set_up(2)
    market = stage.market(address)
    gateway = stage.gateway("serve")
    client.connect().log_on()
    other.connect().log_on()
    for name in (b"A1", b"A2", b"A3"):
        client.order(name, price=b"1")
        stage.holds("an order is open", client.told(name, b"0") is not None)
    last = client.frames[-1].number
    stage.holds("it is logged out", logged_out(client) is not None)
    for place in range(3):
        market.fill(place)
    stage.same("behind the Logout the link ends", "end", client.ending())
    client.close()
    # what the market says stands in order: once this is told, so is what came before
    other.order(b"B1")
    stage.holds("another client's order is filled", other.told(b"B1", b"F") is not None)
    before = len(client.frames)
    stage.holds("it logs on again", client.connect().log_on() is not None)
    client.send(b"1", (112, b"here"))
    stage.holds("it is answered", client.wait(lambda frame: frame[112] == b"here", begin=before) is not None)
    stage.same("what it hears", [b"A", b"0"], [frame.kind for frame in client.frames[before:]])
    client.send(b"2", (7, b"%d" % (last + 1)), (16, b"0"))
    stage.holds("it is told what it asks for", client.wait(lambda frame: (frame.kind, frame[11]) == (b"8", b"A3"),
                                                           begin=before) is not None)
    told = [frame[11] for frame in client.frames[before:] if (frame.kind, frame[150]) == (b"8", b"F")]
    stage.same("its orders' fills", [b"A1", b"A2", b"A3"], told)
    stage.same("how the gateway ends", (0, 0), stage.end(gateway, "--now"))


def a_client_that_reads_nothing(stage):
    """a client that reads nothing loses its link after five seconds; others are served promptly meanwhile"""
    clients, addresses = stage.set_up(4, 2)
    for address in addresses:
        stage.market(address)
    gateway = stage.gateway("serve")
    deaf, *others = clients
    for client in others:
        client.connect().log_on()
    deaf.connect(room=4096).log_on()
    begin, asked = time.time(), 0
    deaf.stream.settimeout(0.05)
    spent, fault, end = [], None, time.monotonic() + PATIENCE
    while fault is None and time.monotonic() < end:
        asked = asks(deaf, asked)
        for client in others:
            name = b"W%d" % len(spent)
            sent = time.monotonic()
            client.order(name)
            stage.holds("an order is filled meanwhile", client.told(name, b"F") is not None)
            spent.append(since(sent))
        fault = next((line for line in gateway.errors.read_text().splitlines() if " C1 link fault 2: " in line), None)
    stage.holds("it loses its link", fault is not None)
    stage.within("seconds until it does", 4.9, fault and seconds_of(fault[:21]) - begin, PATIENCE)
    stage.within("the longest order of others", 0, max(spent), 4.5)
    deaf.close()
    deaf.sent = 0
    stage.holds("it logs on again", deaf.connect().log_on((141, b"Y")) is not None)
    stage.same("how the gateway ends", (0, 0), stage.end(gateway, "--now"))


def asks(client, asked):
    """Sends Test Requests, up to 10,000 in all, as long as somebody takes them. Each brings back as many bytes."""
    try:
        while asked < 10_000:
            client.send(b"1", (112, X[:1_000]))
            asked += 1
    except OSError:
        return 10_000
    return asked


def a_client_that_asks_for_too_much(stage):
    """a client may ask for 50,000 messages again within an hour; then its link is ended, which is told; others trade, and
    so does it when it comes again"""
    (greedy, other), (address,) = stage.set_up(2)
    stage.market(address)
    gateway = stage.gateway("serve")
    for client in (greedy, other):
        client.connect().log_on()
    for number in range(100):
        greedy.order(b"R%d" % number, price=b"0")
    stage.holds("its orders are refused", greedy.told(b"R99", b"8") is not None)
    before, asked = len(greedy.frames), 50_000 // (greedy.frames[-1].number + 2)
    for _ in range(asked):
        greedy.send(b"2", (7, b"1"), (16, b"0"))
    stage.holds("all of it is sent again", has_reports(greedy, before, 100 * asked))
    before, taken = len(greedy.frames), greedy.sent
    greedy.stream.sendall(b"".join(greedy.message(b"2", (7, b"1"), (16, b"0")) for _ in range(30)))
    stage.holds("then its link ends", greedy.ending() in ("end", "reset"))
    line = r"C1 asks for \d+ messages again within an hour, limit 50000: its link is ended"
    stage.holds("it is told why", holds_within(lambda: any(re.fullmatch(line, it) for it in gateway.lines())))
    stage.holds("and that it is", gateway.says(" C1 link fault 4: "))
    other.order(b"A1")
    stage.holds("another's order is filled", other.told(b"A1", b"F") is not None)
    greedy.close()
    # those of the last that were answered were taken
    greedy.sent = taken + sum(frame.kind == b"8" for frame in greedy.frames[before:]) // 100
    stage.holds("it logs on again", greedy.connect().log_on() is not None)
    greedy.order(b"A1")
    stage.holds("its order is filled", greedy.told(b"A1", b"F") is not None)
    greedy.send(b"2", (7, b"1"), (16, b"0"))
    stage.holds("its link ends again as it asks", greedy.ending() in ("end", "reset"))
    stage.same("how the gateway ends", (0, 0), stage.end(gateway, "--now"))


def has_reports(client, begin, count):
    """Whether so many reports come behind the first frames."""
    seen = 0

    def is_last(frame):
        nonlocal seen
        seen += frame.kind == b"8"
        return seen == count

    return client.wait(is_last, begin=begin) is not None


def a_host_of_two_addresses(stage):
    """a port whose market's host has two addresses is connected by the second where nobody listens at the first"""
    _, (address,) = stage.set_up(1)
    first, second, rest = stage.host.split(".", 2)
    hosts = stage.folder / "hosts"
    hosts.write_text(f"{stage.host} several\n{first}.{int(second) - 64}.{rest} several\n")
    text = stage.settings.read_text()
    stage.settings.write_text(text.replace(f'address = "{stage.host}:{address}"', f'address = "several:{address}"'))
    # the gateway alone has these names
    named = ["unshare", "--map-root-user", "--mount", *behind(f'mount --bind "{hosts}" /etc/hosts')]
    try:
        found = subprocess.run([*named, "getent", "ahostsv4", "several"], capture_output=True, text=True, check=True)
    except (OSError, subprocess.CalledProcessError) as it:
        raise LeftOut(f"names of its own: {it}") from it
    *_, last = [line.split()[0] for line in found.stdout.splitlines()]
    market = Market(last, address)
    stage.markets.append(market)
    stage.gateway("serve", before=named)
    stage.holds("the port has a link", holds_within(lambda: len(market.came) == 1))


def small_writes(stage):
    """what a link is told goes out at once, be it little: the system holds nothing back on a client's link or a port's"""
    (client,), (address,) = stage.set_up(1)
    stage.market(address)
    gateway = stage.gateway("serve")
    client.connect().log_on()
    client.order(b"A1")
    stage.holds("an order is filled: both have links", client.told(b"A1", b"F") is not None)
    held = {}
    for it in links_of(gateway.process.pid):
        with it:
            number = it.getsockname()[1] if it.getsockname()[1] == client.where[1] else it.getpeername()[1]
            held.setdefault(number, set()).add(it.getsockopt(socket.IPPROTO_TCP, socket.TCP_NODELAY))
    stage.same("TCP_NODELAY by link", {client.where[1]: {1}, address: {1}}, held)


def links_of(process):
    """The sockets of a process that are links, as this program's own."""
    found, handle = [], os.pidfd_open(process)
    for it in os.listdir(f"/proc/{process}/fd"):
        if not os.readlink(f"/proc/{process}/fd/{it}").startswith("socket:"):
            continue
        number = library.syscall(PIDFD_GETFD, handle, int(it), 0)
        if number < 0:
            os.close(handle)
            raise LeftOut(f"pidfd_getfd: {os.strerror(ctypes.get_errno())}")
        one = socket.socket(fileno=number)
        if one.family == socket.AF_INET and not one.getsockopt(socket.SOL_SOCKET, socket.SO_ACCEPTCONN):
            found.append(one)
        else:
            one.close()
    os.close(handle)
    return found


def time_passes_often(stage):
    """five clients that log on a fifth of a second apart each hear the gateway within half a second of their second"""
    clients, _ = stage.set_up(5)
    stage.gateway("serve")
    longest = []
    # a machine that is slow for half a second makes one late: then once more
    while len(longest) < 8 and not (longest and min(longest) <= 1.5):
        longest.append(longest_silence(stage, clients))
    stage.within("the longest until a Heartbeat or a Test Request, at best", SECOND, min(longest), 1.5)


def longest_silence(stage, clients):
    """Has clients log on, a fifth of a second apart: the longest time from a Logon to a Heartbeat or a Test Request, by
    the gateway's clock."""
    spent = []
    for client in clients:
        client.interval, client.sent, client.frames = 1, 0, []
        stage.holds(f"{client.name} is logged on", client.connect().log_on((141, b"Y")) is not None)
        time.sleep(0.2)
    for client in clients:
        heard = client.wait(lambda frame: frame.kind in (b"0", b"1"))
        stage.holds(f"{client.name} hears the gateway", heard is not None)
        began = next(it for it in client.frames if it.kind == b"A")
        spent.append(seconds_of(heard[52].decode()) - seconds_of(began[52].decode()))
    for client in clients:
        client.close()
    return max(spent)


def seconds_of(text):
    """A UTCTimestamp as seconds since 1970."""
    whole, _, part = text.partition(".")
    return calendar.timegm(time.strptime(whole, "%Y%m%d-%H:%M:%S")) + int(part) / 1000


STEPS_OF_LINKS = (a_client_that_reads_nothing, a_client_that_asks_for_too_much, a_port_is_connected_again, last_words,
                  closes_at_once, an_empty_packet, what_no_frame_is, an_absent_client, a_silent_day, time_passes_often,
                  small_writes, a_host_of_two_addresses)
