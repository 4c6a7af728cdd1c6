"""What a client does to its session and its links besides trading."""
from . import noise

MUCH = 5_000_000
KINDS = {"garbage": 30, "damage": 30, "test": 8, "ask_again": 8, "repeat": 10, "administrative": 8, "burst": 3,
         "reprices": 30, "fatal": 1.5, "oversized": 1, "connect_twice": 3, "log_out": 2, "end_writing": 1}


class Mischief:
    """Each method is one kind of it, on a client that is logged on; False says that it can't be done now."""

    def __init__(self, client):
        self.client, self.random, self.session = client, client.random, client.session
        self.counts = client.counts

    def do(self, now):
        kinds, weights = zip(*KINDS.items())
        kind = self.random.choices(kinds, weights)[0]
        if getattr(self, kind)(now) is not False:
            self.counts[kind.replace("_", " ")] += 1

    def garbage(self, now):
        self.session.put_noise(noise.garbage(self.random))

    def damage(self, now):
        """A message with its number, of which a byte is wrong or the end is missing."""
        before, heads = self.session.out, self.session.heads
        self.client.say(now)
        data = noise.damaged(self.random, self.session.out[len(before):])
        self.session.out, self.session.heads = before, heads
        self.session.put_noise(data)

    def test(self, now):
        self.session.test(now)

    def ask_again(self, now):
        begin = self.random.randint(1, self.session.expected + 1)
        self.session.ask_again(begin, self.random.choice([0, begin, begin + 10, 10 ** 9]), now)

    def repeat(self, now):
        """A message that was judged, once more with 43=Y: it is passed over."""
        known = [it for it in list(self.session.sent)[-200:] if it <= self.client.book.judged]
        if not known:
            return False
        kind, body, first = self.session.sent[number := self.random.choice(known)]
        self.session.put(self.session.frame(number, kind, body, first), now)
        return True

    def administrative(self, now):
        noise.administrative(self.random, self.session, now)

    def burst(self, now):
        """Many messages without waiting, and now and then what was told a moment before is asked for once more."""
        for _ in range(int(self.client.plan.rate * self.random.uniform(2, 10))):
            self.client.say(now)
        if self.random.random() < 0.3:
            self.session.ask_again(max(1, self.session.expected - 5), 0, now)

    def reprices(self, now):
        self.client.reprice(now)

    # What ends a link.

    def fatal(self, now):
        if not self.client.may_lose():
            return False
        self.session.expects_end = noise.fatal(self.random, self.session, now)
        self.fill()
        self.client.hush(now)
        return True

    def oversized(self, now):
        if not self.client.may_lose():
            return False
        data = noise.oversized(self.random, self.session)
        self.session.put(data, now)
        self.session.counts["bytes of garbage"] += len(data)
        self.client.may_be_closed = True
        self.fill()
        self.client.hush(now)
        return True

    def log_out(self, now):
        if not self.client.may_lose():
            return False
        self.session.log_out(now)
        self.fill()
        self.client.hush(now)
        return True

    def fill(self):
        """A damaged head may wait for 999 bytes more; what ends the link stands among them, so that they have to come."""
        self.session.put_noise(b"x" * 1_000)

    def end_writing(self, now):
        """Nothing more comes from the client, which still reads: for the gateway the link is gone."""
        if not self.client.may_lose():
            return False
        self.client.link.write(self.session.out)
        self.session.out = b""
        self.client.hush(now)
        self.client.link.end_writing()
        self.client.may_be_closed = self.client.said_all = True
        return True

    def connect_twice(self, now):
        """A second connection, which is to wait without an answer, and is the next link then."""
        if self.client.spare or not self.client.may_lose():
            return False
        self.client.spare = self.client.connect()
        return True

    def may_stall(self, now):
        client = self.client
        return (client.plan.stalls and len(self.session.seen) > 100 and client.may_lose() and not client.hushed_at
                and self.session.logged_on and now - client.begin < client.day.seconds - 13)

    def stall(self, now):
        """Stops reading for longer than the gateway waits, with few long resends to be read, or many short ones."""
        client, reports = self.client, len(self.session.seen)
        client.plan.stalls = False
        client.link.outward = client.link.inward = None
        count, each = self.random.choice([(MUCH // (200 * reports) + 1, reports), (800, 30)])
        for _ in range(count):
            begin = self.random.randint(1, reports - each + 1)
            self.session.ask_again(begin, begin + each, now)
        client.may_be_closed = client.has_stalled = True
        client.stalled_until = now + self.random.uniform(11, 13)
        self.counts["stalls"] += 1
