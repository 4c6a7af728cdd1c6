"""A FIX engine's side of a session, by FIX 4.4 Volume 2, "Session Protocol", as the usual engines keep it."""
from collections import Counter, deque, namedtuple

from .book import Wrong
from .fix import HEAD, is_whole, stamp, written
from .resends import OutOfPlace, Resends

APPLICATION = (b"8", b"9", b"j")
# a head that waits for more than this is passed over by the gateway
LONGEST = 8_300
Sent = namedtuple("Sent", "kind body stamp")
Seen = namedtuple("Seen", "kind body first")


class Session:
    """Numbers of both ways over a day's links. `deliver` gets messages in order, `fill` how many were filled."""

    def __init__(self, name, gateway, interval, deliver, fill):
        self.name, self.gateway, self.interval = name, gateway, interval
        self.deliver, self.fill = deliver, fill
        self.next_out, self.sent = 1, {}
        self.expected, self.seen, self.filled = 1, {}, set()
        self.lowest_asked, self.provoked, self.moment = 1, {}, b""
        self.counts, self.around = Counter(), deque(maxlen=10)
        self.out_of_place = None
        self.went_back, self.sent_before, self.longest_silence = b"", b"", 0.0
        self.out = b""
        self.begin(0.0)

    def begin(self, now):
        """A new link: what was held of the one before, and what was asked on it, is over."""
        self.logged_on, self.ended, self.said_logout = False, False, False
        self.held, self.gap, self.answered, self.resends = {}, 0, set(), Resends()
        self.received, self.wrote, self.tested = now, now, False
        self.awaited, self.resets, self.expects_end, self.asked_here = None, False, None, 0
        self.out, self.heads = b"", []

    # What goes out.

    def frame(self, number, kind, body, first=None):
        again = [(43, b"Y"), (122, first)] if first else []
        head = [(35, kind), (49, self.name), (56, self.gateway), (34, b"%d" % number), (52, stamp())]
        return written(head + again + body)

    def put(self, data, now):
        self.around.append((b">", data))
        if any(is_whole(it + data) for it in self.heads):
            self.put_noise(b"\x01")
        self.add(data)
        self.wrote = now
        self.counts["frames sent"] += 1

    def put_noise(self, data):
        """Bytes that aren't a frame. A head among them may not become one with what follows, as it does by chance."""
        self.counts["bytes of garbage"] += len(data)
        self.add(data)
        self.heads += [data[it.start():] for it in HEAD.finditer(data)]

    def add(self, data):
        self.out += data
        self.heads = [it + data for it in self.heads if len(it) < LONGEST]

    def number(self, kind, body, kept):
        """Uses up a number, and keeps a message of the application."""
        number, self.next_out = self.next_out, self.next_out + 1
        if kept:
            self.sent[number] = Sent(kind, body, stamp())
        return number

    def send(self, kind, body, now, kept=False):
        number = self.number(kind, body, kept)
        self.put(self.frame(number, kind, body), now)
        return number

    def log_on(self, now, reset=False):
        self.resets = reset
        self.send(b"A", [(98, b"0"), (108, b"%d" % self.interval)] + ([(141, b"Y")] if reset else []), now)

    def log_out(self, now):
        self.said_logout = True
        self.send(b"5", [], now)

    def test(self, now):
        """A TestRequest, whose Heartbeat is awaited."""
        self.awaited = b"T%d" % self.next_out
        self.send(b"1", [(112, self.awaited)], now)

    def ask_again(self, begin, end, now):
        self.resends.ask(begin, end)
        self.send(b"2", [(7, b"%d" % begin), (16, b"%d" % end)], now)

    def tick(self, now):
        """Heartbeats and TestRequests; whether the other end is still there."""
        if not self.logged_on or not self.interval:
            return
        if now - self.wrote >= self.interval:
            self.send(b"0", [], now)
        if now - self.received > 1.2 * self.interval and not self.tested:
            self.tested = True
            self.test(now)
        if now - self.received > self.interval + 10:
            raise Wrong(f"silent for {now - self.received:.1f} s, a TestRequest unanswered")

    # What comes in.

    def receive(self, frame, now):
        """A frame of the gateway: in its place, before it, or behind a gap."""
        self.around.append((b"<", frame.raw))
        self.counts["frames received"] += 1
        if self.logged_on and self.interval:
            self.longest_silence = max(self.longest_silence, now - self.received - self.interval)
        self.received, self.tested = now, False
        if not frame.has_right_header() or (frame[49], frame[56]) != (self.gateway, self.name) or frame.number < 1:
            raise Wrong("header")
        if frame.kind == b"4" and frame[123] != b"Y":
            raise Wrong("a SequenceReset that fills no gap")
        if not self.logged_on and frame.kind not in (b"A", b"5"):
            raise Wrong("before the reply to a Logon")
        try:
            self.resends.see(frame)
        except OutOfPlace as why:
            self.out_of_place = self.out_of_place or (str(why), frame.raw)
        self.look_at_moments(frame)
        self.compare(frame)
        if frame.number < self.expected:
            self.pass_over(frame)
        elif frame.number > self.expected:
            self.hold(frame, now)
        else:
            self.process(frame, now)
            while self.expected in self.held:
                self.process(self.held.pop(self.expected), now)

    def look_at_moments(self, frame):
        """52 never goes back from frame to frame, over links too; what is sent again was first sent no later."""
        if frame[52] < self.moment:
            self.counts["moments before earlier ones"] += 1
            self.went_back = self.went_back or frame.raw
        self.moment = frame[52]
        if frame.repeated and frame[122] > frame[52]:
            self.counts["sent again before it was sent first"] += 1
            self.sent_before = self.sent_before or frame.raw

    def compare(self, frame):
        """The same number has to be the same message again, first written when 122 says."""
        first = frame[122] if frame.repeated else frame[52]
        before = self.seen.get(frame.number)
        if frame.kind in (b"8", b"9") and frame[60] != first:
            raise Wrong("60 isn't the moment of its issue")
        if frame.kind == b"4":
            self.compare_fill(frame)
        elif frame.repeated and frame.kind not in APPLICATION:
            raise Wrong("an administrative message that is sent again")
        elif before is None:
            if frame.number in self.filled and frame.kind in APPLICATION:
                raise Wrong("a number that was filled before")
            self.seen[frame.number] = Seen(frame.kind, frame.body(), first)
        elif before != Seen(frame.kind, frame.body(), first):
            raise Wrong(f"was sent before as {before}")
        elif frame.repeated:
            self.counts["repeats that are equal"] += 1

    def compare_fill(self, frame):
        end = int(frame[36])
        if end <= frame.number or not frame.repeated or frame[122] != frame[52]:
            raise Wrong("a gap fill that isn't one")
        if [tag for tag, _ in frame.body()] != [36, 123]:
            raise Wrong("a gap fill's fields")
        numbers = range(frame.number, end)
        if any(self.seen[it].kind in APPLICATION for it in numbers if it in self.seen):
            raise Wrong("a gap fill over a report")
        self.filled.update(numbers)

    def pass_over(self, frame):
        if not frame.repeated:
            raise Wrong(f"a number below the expected {self.expected}")
        self.counts["repeats passed over"] += 1

    def hold(self, frame, now):
        """A number above the expected one: it waits, and the gap is asked for once."""
        if frame.kind == b"5":
            self.end(frame)
            return
        if frame.kind == b"A":
            self.replied(frame)
        if frame.kind == b"2":
            self.answer_resend(frame, now)
        self.held[frame.number] = frame
        if not self.gap:
            self.gap = frame.number
            self.counts["gaps asked for"] += 1
            self.ask_again(self.expected, 0, now)

    def process(self, frame, now):
        """The frame that is expected."""
        self.expected = int(frame[36]) if frame.kind == b"4" else frame.number + 1
        if self.expected > self.gap:
            self.gap = 0
        if frame.kind in APPLICATION or frame.kind == b"3":
            self.told(frame)
        elif frame.kind == b"4":
            self.fill(self.expected - frame.number)
            self.held = {number: it for number, it in self.held.items() if number >= self.expected}
        elif frame.kind == b"2":
            self.answer_resend(frame, now)
        elif frame.kind == b"1":
            self.send(b"0", [(112, frame[112])], now)
        elif frame.kind == b"0":
            self.beat(frame)
        elif frame.kind == b"5":
            self.end(frame)
        elif frame.kind == b"A" and not self.logged_on:
            self.replied(frame)
        elif frame.kind != b"A":
            raise Wrong("a type that the gateway doesn't send")

    def told(self, frame):
        """Session Rejects of what was provoked are the session's own, all else is the order book's."""
        provoked = self.provoked.pop(int(frame[45]), None) if frame.kind == b"3" else None
        if provoked is None:
            self.deliver(frame)
        elif frame.body() != provoked:
            raise Wrong(f"has to be {provoked}")
        else:
            self.counts["session rejects of administrative messages"] += 1

    def beat(self, frame):
        if frame[112] is not None and frame[112] == self.awaited:
            self.awaited = None

    def replied(self, frame):
        wanted = [(98, b"0"), (108, b"%d" % self.interval)] + ([(141, b"Y")] if self.resets else [])
        if frame.body() != wanted or self.logged_on:
            raise Wrong("the reply to a Logon")
        if self.expects_end:
            raise Wrong("a Logon that has to be refused")
        self.logged_on = True

    def end(self, frame):
        self.ended = True
        text = frame[58] or b""
        self.counts[f"Logout {text.decode().split(',')[0]}"] += 1
        if not self.said_logout and not (self.expects_end and text.startswith(self.expects_end)):
            raise Wrong("a Logout without a cause")

    def answer_resend(self, frame, now):
        """D, F, G and what else is the application's in full; administrative messages as gap fills."""
        if frame.number in self.answered:
            return
        self.answered.add(frame.number)
        begin, end = int(frame[7]), int(frame[16])
        if end != 0 or not self.lowest_asked <= begin < self.next_out or begin <= self.asked_here:
            raise Wrong(f"asks for {begin} to {end} of {self.next_out - 1}, after it had {self.lowest_asked - 1} and "
                        f"asked for {self.asked_here} on this link")
        self.lowest_asked = self.asked_here = begin
        self.counts["gaps that the gateway asked for"] += 1
        run = begin
        for number in range(begin, self.next_out):
            if number in self.sent:
                self.fill_out(run, number, now)
                kind, body, first = self.sent[number]
                self.put(self.frame(number, kind, body, first), now)
                self.counts["messages sent again"] += 1
                run = number + 1
        self.fill_out(run, self.next_out, now)

    def fill_out(self, begin, end, now):
        if begin < end:
            self.put(self.frame(begin, b"4", [(123, b"Y"), (36, b"%d" % end)], stamp()), now)
