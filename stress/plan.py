"""What a day is like: everything that is chosen by its seed."""
import random
from dataclasses import dataclass, field

TRADING, SETTLING, CLOSING, LEAVING, OVER = range(5)
GATEWAY = b"GATE"
MIX = {"new_order": 40, "cancel": 12, "replace": 16, "spoiled": 12, "unreadable": 8, "repeated_name": 4, "unknown": 2}
SAYINGS = {"part": 40, "fill": 14, "reduce": 10, "cancel": 5, "bust": 14, "event": 3, "priority": 3}
HOSTILE = {
    "empty": b"1", "type_zero": b"4", "short_accepted": b"1", "canceled_unknown": b"2", "executed_unknown": b"2",
    "broken_unknown": b"2", "one_too_many": b"3", "accepted_twice": b"3", "replaced_unasked": b"3",
    "rejected_accepted": b"3", "replaced_out_of_order": b"3", "rejected_out_of_order": b"3", "cancel_reject_waiting": b"3", "modify": b"4", "aiq": b"4", "correction": b"4",
    "reference": b"4", "match_twice": b"3", "bust_unknown": b"3", "packet_type": b"1", "long_heartbeat": b"1",
    "second_login": b"1", "bad_login_number": b"1", "login_skips": b"5", "login_elsewhere": b"6", "end": b"ended",
    "no_length": b"",
}


@dataclass
class Market:
    """How one port's market behaves: shares of its answers, its own sayings, delays in seconds, links that it cuts."""
    accepted: float
    dead: float
    delay: float
    sayings_a_second: float
    link_bytes: int
    from_earlier: float
    hostile: str = ""


@dataclass
class Client:
    """How one client behaves: its port, heartbeat interval, messages a second, and what its links suffer."""
    port: int
    interval: int
    rate: float
    link_bytes: int
    capacity: bytes
    firm: bytes
    customer: bytes
    resets: bool
    stalls: bool
    mix: dict = field(default_factory=lambda: dict(MIX))


@dataclass
class Day:
    seed: int
    seconds: float
    links: int
    is_counted: bool
    markets: list
    clients: list


def planned(options):
    """The day of a seed. A hostile port is there where it is asked for, or on one seed in four."""
    it = random.Random(options.seed)
    ports = options.ports or it.randint(1, min(4, options.clients or 4))
    clients = options.clients or it.randint(2, 8)
    links = max(10, int(options.seconds * it.choice([0.5, 0.5, 2]))) + 3 * options.kill
    markets = [market(it, options) for _ in range(ports)]
    hostile = it.choice(list(HOSTILE))
    if options.hostile or it.random() < 0.25 and options.hostile is None:
        it.choice(markets).hostile = options.hostile if options.hostile in HOSTILE else hostile
    made = [client(it, i, ports, options) for i in range(clients)]
    return Day(options.seed, options.seconds, links, options.run, markets, made)


def market(it, options):
    return Market(accepted=it.uniform(0.75, 0.98), dead=it.uniform(0, 0.1), delay=it.choice([0, 0.002, 0.02, 0.2]),
                  sayings_a_second=options.rate * it.choice([0.1, 0.7, 1.5, 3]),
                  link_bytes=it.choice([3_000, 30_000, 300_000]), from_earlier=it.choice([0, 0.3, 0.9]))


def client(it, index, ports, options):
    mix = {kind: weight * it.uniform(0.3, 2) for kind, weight in MIX.items()}
    return Client(port=index % ports, interval=it.choice([0, 5, 6, 7, 8, 9, 60]),
                  rate=options.rate * it.uniform(0.3, 2), link_bytes=it.choice([2_000, 20_000, 200_000]),
                  capacity=it.choice([b"A", b"P", b"R"]),
                  firm=it.choice([b"FIRM", b"F1", b"A B"]), customer=it.choice([b"R", b"N", b" "]),
                  resets=it.random() < 0.5, stalls=options.seconds >= 20 and it.random() < 0.4, mix=mix)
