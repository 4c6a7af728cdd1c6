"""What a client says at random: orders and requests that are right, and one for each row of refusal."""
import string

DIGITS = string.digits + string.ascii_uppercase
WRONG_VALUES = {
    54: [b"3", b"9", b"B"], 55: [b"TOOLONGSYM", b"A B", b"\xc3\xa9"], 40: [b"1", b"P"], 59: [b"1", b"2", b"4", b"5"],
    18: [b"7", b"66", b"6 P"], 528: [b"I", b"W"], 38: [b"0", b"-5", b"1000000", b"1.5", b"99999999999999999999"],
    110: [b"-1", b"0.5", b"1000000"], 44: [b"1.00001", b"0", b"-3", b"200000", b"0.00001", b"199999.9901"],
}
WRONG_FORMATS = {
    54: [b"12"], 38: [b"+1", b"1e2", b" 1", b"."], 40: [b"22"], 44: [b"1.2.3", b"abc", b"--1"], 59: [b"00"],
    528: [b"AA"], 110: [b"x", b"1,0"], 11: [b"i" * 65],
}
UNKNOWN = [b"V", b"H", b"AE", b"q", b"BE", b"x9", b"ABC", b"U-1", b"*"]
OTHERS = [(1, b"ACCOUNT"), (21, b"1"), (60, b"20261126-13:30:00.000"), (65, b"SF"), (97, b"Y"), (100, b"XNAS"),
          (999999999, b"9"), (58, b"a note"), (15, b"USD")]


def base36(number):
    text = b""
    while number or not text:
        number, digit = divmod(number, 36)
        text = DIGITS[digit].encode() + text
    return text


class Traffic:
    """Makes one client's messages, by its own generator of random numbers."""

    def __init__(self, random, book, index, plan):
        self.random, self.book, self.index, self.plan = random, book, index, plan
        self.made = self.names = 0

    def name(self):
        self.names += 1
        text = b"O-%d" % self.names
        draw = self.random.random()
        if draw < 0.02:
            return text.ljust(64, b"x")
        return text + (b" =\xe9" if draw < 0.03 else b"")

    def symbol(self):
        """Of eight bytes at most, and of no other order of the day."""
        self.made += 1
        return base36(self.made * 64 + self.index)

    def price(self):
        whole = self.random.choice([0, 1, 23, 100, 4711, 199_998])
        text = b"%d.%04d" % (whole, self.random.randrange(1, 10_000))
        return self.random.choice([text, b"00" + text, text[:-2] if whole else text])

    def shares(self):
        most = self.random.choice([10, 1000, 999_999])
        text = b"%d" % self.random.randint(1, most)
        return self.random.choice([text, text, text, b"0" + text, text + b".0", text + b"."])

    def terms(self):
        """40, 38, 44 and what may stand beside them."""
        shares = self.shares()
        given = {40: b"2", 38: shares, 44: self.price()}
        maybe = {59: self.random.choice([b"0", b"0", b"3"]), 18: b"6", 528: self.random.choice([b"A", b"P", b"R"]),
                 110: b"%d" % self.random.randint(0, int(shares.split(b".")[0]))}
        given.update((tag, value) for tag, value in maybe.items() if self.random.random() < 0.3)
        return given

    def fields(self, given):
        """The fields in an order of their own, with some that aren't read."""
        rows = list(given.items()) + [it for it in OTHERS if self.random.random() < 0.1 and it[0] not in given]
        self.random.shuffle(rows)
        return rows

    def new_order(self):
        side = self.random.choice([b"1", b"2", b"5", b"6"])
        given = {11: self.name(), 54: side, 55: self.symbol(), **self.terms()}
        if self.random.random() < 0.1:
            given[59] = b"4"
        return b"D", given

    def any_order(self):
        """An order that is open where there is one, now and then a closed one."""
        orders = self.book.listed
        still_open = [it for it in orders[-400:] if not it.closed]
        if still_open and self.random.random() < 0.9:
            return self.random.choice(still_open[-20:])
        return self.random.choice(orders) if orders else None

    def origin(self, order):
        """What names the order: its ClOrdID, that of a pending request, one that it had before, none."""
        draw = self.random.random()
        if order is None or draw < 0.03:
            return b"NEVER"
        if order.pending and draw < 0.4:
            return self.random.choice(order.pending).name
        return order.first_name if draw < 0.45 else order.name

    def cancel(self):
        return b"F", {11: self.name(), 41: self.origin(self.any_order())}

    def replace(self):
        order = self.any_order()
        given = {11: self.name(), 41: self.origin(order), **self.terms()}
        given.pop(528, None)
        if order and self.random.random() < 0.4:
            given.update({54: order.side, 55: order.symbol, 528: order.capacity})
        if order and self.random.random() < 0.5:
            given[38] = b"%d" % min(999_999, order.executed + self.random.randint(0, 300) + order.open)
            given.pop(110, None)
        return b"G", given

    def reprices(self):
        """Up to five replaces of one order, made before any of them is answered: mostly each names the one before it."""
        order, names, made = self.any_order(), [], []
        for _ in range(self.random.randint(2, 5)):
            kind, given = self.replace()
            if order:
                given[41] = self.random.choice(names[-1:] or [order.name]) if self.random.random() < 0.8 else (
                    self.random.choice([order.name, *names, *(it.name for it in order.pending)]))
                given[38] = b"%d" % min(999_999, order.executed + order.open + self.random.randint(1, 500))
                given.pop(110, None)
                for tag in (54, 55, 528):
                    given.pop(tag, None)
            names.append(given[11])
            made.append((kind, self.fields(given)))
        return made

    def spoiled(self):
        """A message with one value, or two, that a row of refusal is for."""
        kind, given = self.random.choice([self.new_order, self.new_order, self.replace])()
        for tag in self.random.sample(list(WRONG_VALUES), self.random.choice([1, 1, 2])):
            given[tag] = self.random.choice(WRONG_VALUES[tag])
        if self.random.random() < 0.1:
            given.pop(44)
        return kind, given

    def unreadable(self):
        """A message with a session fault: fields that are missing, empty, there twice, or of another format."""
        kind, given = self.random.choice([self.new_order, self.cancel, self.replace])()
        draw = self.random.random()
        if draw < 0.3:
            for tag in self.random.sample(list(given), self.random.choice([1, 2])):
                given.pop(tag)
        elif draw < 0.6:
            tag = self.random.choice(list(WRONG_FORMATS))
            given[tag] = self.random.choice(WRONG_FORMATS[tag])
        fields = self.fields(given)
        if draw >= 0.6:
            tag = self.random.choice([tag for tag, _ in fields])
            fields.insert(self.random.randrange(len(fields) + 1), (tag, self.random.choice([b"", b"again"])))
        return kind, fields

    def repeated_name(self):
        kind, given = self.random.choice([self.new_order, self.cancel, self.replace])()
        given[11] = b"O-%d" % self.random.randint(1, max(1, self.names))
        return kind, given

    def unknown(self):
        return self.random.choice(UNKNOWN), {58: b"what is this", 11: self.name()}

    def next(self):
        """The kind and fields of the next message."""
        makers, weights = zip(*self.plan.mix.items())
        made = getattr(self, self.random.choices(makers, weights)[0])()
        return made if isinstance(made[1], list) else (made[0], self.fields(made[1]))

    def last_order(self):
        """What ends the day: an order that the market fills at once, behind all else that it said."""
        return b"D", list({11: self.name(), 54: b"1", 55: self.symbol(), 38: b"1", 40: b"2", 44: b"77.7777"}.items())
