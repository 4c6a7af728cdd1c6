"""Many clients and ports at once, and clients whose rings are full."""
import select
import socket
import threading
import time

from .links import seconds_of
from .peers import PATIENCE, holds_within
from .stage import since

ROUNDS = 2
# what a client that doesn't read sends at most, and what each Test Request brings back
MOST, FILL = 60_000, b"y" * 1_000


def all_trade(stage):
    """64 clients on 16 ports trade at once and one by one: each port is asked by its clients alone, and each client hears
    all, promptly; then time passes for each"""
    clients, addresses = stage.set_up(64, 16)
    markets = [stage.market(it) for it in addresses]
    gateway = stage.gateway("serve")
    for client in clients:
        stage.holds(f"{client.name} is logged on", client.connect().log_on() is not None)
    stage.holds("all ports are up", holds_within(lambda: all(len(it.came) == 1 for it in markets)))
    asked = [[] for _ in markets]
    for turn in range(ROUNDS):
        for number, client in enumerate(clients):
            buys(client, 1_000 * turn + number + 1, asked[number // 4])
        filled = [client.told(b"%d" % (1_000 * turn + number + 1), b"F") for number, client in enumerate(clients)]
        stage.same("orders that aren't filled at once", [], [number for number, it in enumerate(filled, 1) if not it])
    for number, client in enumerate(clients):
        spent = [takes(client, 10_000 * number + turn + 3_000, asked[number // 4]) for turn in range(3)]
        stage.within(f"the shortest of three orders of {client.name}", 0, min(spent), 1)
    for number, (market, wanted) in enumerate(zip(markets, asked), 1):
        stage.same(f"what P{number} was asked", sorted(wanted), sorted(it.shares for it in market.orders))
    for client in clients:
        stage.same(f"numbers of {client.name}", [it + 1 for it in range(len(client.frames))],
                   [frame.number for frame in client.frames])
    audit, orders = time_passes(stage, clients, markets, gateway), sum(map(len, asked))
    stage.holds("all orders agree", audit.endswith(f"orders {orders} agree {orders}\n"), audit[-40:])


def buys(client, shares, asked):
    """An order of so many shares, under that ClOrdID; its port is asked so many."""
    client.order(b"%d" % shares, shares)
    asked.append(shares)


def takes(client, shares, asked):
    """The seconds until an order is filled."""
    begin = time.monotonic()
    buys(client, shares, asked)
    return since(begin) if client.told(b"%d" % shares, b"F") else PATIENCE


def time_passes(stage, clients, markets, gateway):
    """Each client and each port hears the gateway though it says nothing, a second after it was told something. The
    audit of the day, which ends then."""
    for client in clients:
        client.send(b"5")
    for client in clients:
        client.ending()
        client.close()
        client.interval, client.sent = 1, 0
    began = {}
    for client in clients:
        client.connect()
        began[client] = client.log_on((141, b"Y"))
        stage.holds(f"{client.name} logs on again", began[client] is not None)
    for client in clients:
        begin = client.frames.index(began[client]) + 1
        heard = client.wait(lambda frame: frame.kind in (b"0", b"1"), begin=begin)
        spent = heard and seconds_of(heard[52].decode()) - seconds_of(began[client][52].decode())
        stage.within(f"the first Heartbeat or Test Request of {client.name}", 0.9, spent, PATIENCE)
    stage.holds("each market hears the gateway", holds_within(lambda: all(len(it.beats) > 1 for it in markets)))
    stage.same("how the gateway ends", (0, 0), stage.end(gateway, "--now"))
    return gateway.output.read_text()


def full_rings(stage):
    """two clients that read nothing are held once their rings are full; a third is served; once the two read, each hears
    all, in order, and soon behind what it sent last"""
    clients, (address,) = stage.set_up(3)
    stage.market(address)
    gateway = stage.gateway("serve")
    first, between, last = clients
    between.connect().log_on()
    for _ in range(3):
        before = lost_links(gateway)
        stage.holds("both are held", are_held([first, last]))
        name = b"W%d" % between.sent
        between.order(name)
        stage.holds("a third is served", between.told(name, b"F") is not None)
        threads = [threading.Thread(target=hears, args=[client]) for client in (first, last)]
        for thread in threads:
            thread.start()
        for thread in threads:
            thread.join()
        # a machine that is slow for five seconds costs them their links: then once more
        if lost_links(gateway) == before:
            break
    for client in (first, last):
        names = [frame[112].split(b"-")[0] for frame in client.frames if frame.kind == b"0" and frame[112]]
        stage.holds(f"{client.name} hears all, in order", names == [b"%d" % it for it in range(client.asked)],
                    f"{len(names)} of {client.asked}")
        stage.within(f"seconds in which {client.name} hears what was held", 0, client.spent, 12)
        stage.holds(f"numbers of {client.name} go on",
                    [it + 1 for it in range(len(client.frames))] == [frame.number for frame in client.frames])
    stage.same("how the gateway ends", (0, 0), stage.end(gateway, "--now"))


def lost_links(gateway):
    """How many links ended since their peers read nothing."""
    return gateway.errors.read_text().count(" link fault 2: ")


def are_held(clients):
    """Has clients log on anew, send Test Requests and read nothing: whether nobody takes more before they have sent the
    most. What is left to be sent they keep as `left`, and how many they made as `asked`."""
    for client in clients:
        if client.stream:
            client.close()
        client.sent, client.frames, client.asked, client.left = 0, [], 0, b""
        client.connect().log_on((141, b"Y"))
        client.stream.setblocking(False)
    able = clients
    while able and all(client.asked < MOST for client in clients):
        able = [it for it in clients if it.stream in select.select([], [it.stream for it in clients], [], 0.5)[1]]
        for client in able:
            while len(client.left) < 100_000:
                client.left += client.message(b"1", (112, b"%d-%s" % (client.asked, FILL)))
                client.asked += 1
            sends(client)
    return not able


def sends(client):
    """Sends what the other end takes of what is left."""
    try:
        client.left = client.left[client.stream.send(client.left[:65536]):]
    except BlockingIOError:
        pass
    except OSError:
        client.left = b""


def hears(client):
    """Sends what is left, and reads until all is answered. How long that takes behind what was left it keeps as
    `spent`."""
    end = begin = time.monotonic() + PATIENCE
    while len(client.frames) <= client.asked and time.monotonic() < end:
        if not client.left:
            begin = min(begin, time.monotonic())
        ready = select.select([client.stream], [client.stream] if client.left else [], [], 1)
        if ready[1]:
            sends(client)
        if ready[0] and not client.read(1):
            break
    client.spent = since(begin)


STEPS_OF_CROWDS = (full_rings, all_trade)
