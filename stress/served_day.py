"""`python3 -m stress.served_day GATEWAY`: a day of `gateway serve` as an operator has one, step by step.

The gateway starts before its market is there, clients connect and say nothing, or the wrong thing, one never comes, the
market goes and comes again, and `gateway end` ends the day. Each step prints what came; the status is 0 where all came
that has to."""
import csv
import io
import json
import os
import re
import socket
import stat
import subprocess
import sys
import tempfile
import threading
import time
from pathlib import Path

from . import ouch
from .fix import Reader, stamp, written
from .link import free_addresses, listener

SETTINGS = """comp = "GATE"
[day]
linger = 2
[control]
listen = "127.0.0.1:{control}"
token = "0123456789abcdef"
[[port]]
name = "P1"
address = "127.0.0.1:{market}"
user = "USER01"
password = "PASSWORD"
[[client]]
comp = "BANK"
listen = "127.0.0.1:{bank}"
port = "P1"
firm = "FIRM"
capacity = "A"
customer = "R"
[[client]]
comp = "FUND"
listen = "127.0.0.1:{fund}"
port = "P1"
firm = "FIRM"
capacity = "A"
customer = "R"
from = ["127.0.0.2", "10.0.0.0/8"]
"""


# so often each of six readers fetches the page
PAGES = 1_667


class Market:
    """Fills each order at once, but for those of INTC at 1: they stay open. What it said it keeps."""

    def __init__(self, address):
        self.address, self.said, self.reference, self.logins = address, [], 0, 0
        self.is_there = False

    def begin(self):
        """Listens, and serves one link after the other, until it ends."""
        self.listener, self.is_there = listener(self.address), True
        self.thread = threading.Thread(target=self.serve, daemon=True)
        self.thread.start()

    def end(self):
        """Nobody listens any more, and the link is gone."""
        self.is_there = False
        self.thread.join()
        self.listener.close()

    def serve(self):
        self.listener.settimeout(0.05)
        while self.is_there:
            try:
                stream = self.listener.accept()[0]
            except TimeoutError:
                continue
            self.serve_link(stream)
            stream.close()

    def serve_link(self, stream):
        stream.settimeout(0.05)
        packets, beat, told = ouch.Packets(), time.monotonic(), None
        while self.is_there:
            try:
                data = stream.recv(65536)
                if not data:
                    return
            except TimeoutError:
                data = b""
            except OSError:
                return
            for kind, payload in packets.feed(data):
                if kind == b"L":
                    self.logins += 1
                    told = int(payload[26:]) - 1
                    stream.sendall(ouch.login_accepted(b"DAY", told + 1))
                elif kind == b"U":
                    self.answer(payload)
            while told is not None and told < len(self.said):
                stream.sendall(ouch.packet(b"S", self.said[told]))
                told += 1
            if told is not None and time.monotonic() - beat > 0.9:
                beat = time.monotonic()
                stream.sendall(ouch.packet(b"H"))

    def answer(self, payload):
        it = ouch.asked(payload)
        if payload[:1] != b"O":
            return
        self.reference += 1
        self.said.append(ouch.accepted(it, it.shares, it.price, self.reference, b"L"))
        if it.price != 10000:
            self.said.append(ouch.executed(it.token, it.shares, it.price, self.reference))


class Unwilling(Market):
    """Answers each login with these packets, and says nothing more. When it was asked it keeps."""

    def __init__(self, address, answer):
        super().__init__(address)
        self.asked, self.answered = [], answer

    def serve_link(self, stream):
        stream.settimeout(0.05)
        packets = ouch.Packets()
        while self.is_there:
            try:
                data = stream.recv(65536)
                if not data:
                    return
            except TimeoutError:
                data = b""
            except OSError:
                return
            for kind, _ in packets.feed(data):
                if kind == b"L":
                    self.asked.append(time.monotonic())
                    stream.sendall(self.answered)


class Client:
    """A FIX client by hand."""

    def __init__(self, name, address, source=None):
        self.name, self.sent, self.reader, self.frames = name, 0, Reader(), []
        self.stream = socket.create_connection(("127.0.0.1", address), 5, source and (source, 0))

    def send(self, kind, *body):
        self.sent += 1
        head = [(35, kind), (49, self.name), (56, b"GATE"), (34, b"%d" % self.sent), (52, stamp())]
        self.stream.sendall(written(head + list(body)))

    def log_on(self, *more):
        self.send(b"A", (98, b"0"), (108, b"30"), *more)
        return self.wait(lambda frame: frame.kind == b"A", 5)

    def order(self, name, price=b"23"):
        self.send(b"D", (11, name), (54, b"1"), (55, b"INTC"), (38, b"100"), (40, b"2"), (44, price))

    def wait(self, holds, seconds):
        """The first frame, from now on or from before, of which that holds; None where none comes."""
        end = time.monotonic() + seconds
        while True:
            for frame in self.frames:
                if holds(frame):
                    return frame
            self.stream.settimeout(max(0.01, end - time.monotonic()))
            try:
                data = self.stream.recv(65536)
            except (TimeoutError, OSError):
                data = b""
            if not data and time.monotonic() >= end:
                return None
            if not data:
                time.sleep(0.01)
            self.frames += self.reader.feed(data)

    def told(self, name, what, seconds=5):
        """A report of this ClOrdID with this ExecType."""
        return self.wait(lambda frame: frame.kind == b"8" and (frame[11], frame[150]) == (name, what), seconds)

    def is_over(self, seconds):
        """Whether the link comes to its end."""
        self.stream.settimeout(seconds)
        try:
            while self.stream.recv(65536):
                pass
            return True
        except TimeoutError:
            return False
        except OSError:
            return True


class Day:
    """The steps of a day, and what was wrong of them."""

    def __init__(self, gateway, folder):
        self.gateway, self.folder, self.wrong = gateway, Path(folder), 0
        names = ("control", "market", "bank", "fund")
        self.at = dict(zip(names, free_addresses(len(names))))
        self.settings = self.folder / "settings.toml"
        self.settings.write_text(SETTINGS.format(**self.at))
        self.journal = self.folder / "day.journal"
        self.market = Market(self.at["market"])

    def is_so(self, what, holds):
        print("ok    " if holds else "WRONG ", what)
        self.wrong += not holds
        return holds

    def start(self, *more):
        words = [self.gateway, "serve", "--settings", str(self.settings), *more]
        self.output, self.errors = self.folder / "output", self.folder / "errors"
        with self.output.open("w") as output, self.errors.open("w") as errors:
            return subprocess.Popen(words, stdout=output, stderr=errors)

    def end(self, *more):
        return subprocess.run([self.gateway, "end", "--settings", str(self.settings), *more], capture_output=True,
                              text=True)

    def says(self, text, seconds=5):
        """Whether standard error has this text."""
        end = time.monotonic() + seconds
        while text not in self.errors.read_text():
            if time.monotonic() > end:
                return False
            time.sleep(0.02)
        return True

    def an_address_in_use(self):
        held = listener(self.at["fund"])
        market = listener(self.at["market"])
        gateway = self.start()
        status = gateway.wait(10)
        market.settimeout(0.3)
        try:
            market.accept()
            is_connected = True
        except TimeoutError:
            is_connected = False
        self.is_so("an address in use: status 2, address and reason are told",
                   status == 2 and self.says(f"cannot listen at 127.0.0.1:{self.at['fund']}: "))
        self.is_so("an address in use: nothing is connected", not is_connected)
        held.close()
        market.close()

    def nobody_to_end(self):
        ran = self.end()
        self.is_so("gateway end with nobody there: status 2", ran.returncode == 2 and "nobody answers" in ran.stderr)

    def before_the_market(self):
        self.running = self.start("--journal", str(self.journal))
        self.is_so("a port that isn't there is told with address and reason",
                   self.says(f"P1 127.0.0.1:{self.at['market']}: Connection refused") and self.says("next try in 1 s"))
        self.is_so("the journal is its owner's alone",
                   stat.S_IMODE(os.stat(self.journal).st_mode) == 0o600)
        bank = self.bank = Client(b"BANK", self.at["bank"])
        self.is_so("a client logs on", bank.log_on() is not None)
        bank.order(b"A1")
        self.is_so("its order waits", bank.told(b"A1", b"A") is not None)
        self.market.begin()
        self.is_so("its order is filled once the market is there", bank.told(b"A1", b"F", 70) is not None)
        bank.stream.close()
        self.is_so("its going is told", self.says("C1 gone"))

    def bare_connects(self):
        begin = time.monotonic()
        for _ in range(1500):
            socket.create_connection(("127.0.0.1", self.at["bank"])).close()
        silent = [socket.create_connection(("127.0.0.1", self.at["bank"])) for _ in range(20)]
        bank = Client(b"BANK", self.at["bank"])
        bank.sent = self.bank.sent
        begin = time.monotonic()
        answer = bank.log_on()
        self.is_so(f"behind 1,520 bare connects a Logon is answered ({1000 * (time.monotonic() - begin):.0f} ms)",
                   answer is not None)
        self.is_so("they are told as a count", self.says("connects without a byte before"))
        for one in silent:
            one.close()
        self.bank = bank

    def refused_logons(self):
        self.bank.stream.close()
        answered = 0
        for _ in range(100):
            stranger = Client(b"NOBODY", self.at["bank"])
            stranger.send(b"A", (98, b"0"), (108, b"30"))
            answered += stranger.is_over(10)
            stranger.stream.close()
        self.is_so(f"100 refused Logons end their links ({answered})", answered == 100)
        bank = Client(b"BANK", self.at["bank"])
        bank.sent = self.bank.sent
        self.is_so("the client logs on behind them", bank.log_on() is not None)
        why, until = "C1 Logon refused: 49=NOBODY isn't this client's name\n", time.monotonic() + 5
        while (count := self.errors.read_text().count(why)) < 100 and time.monotonic() < until:
            time.sleep(0.02)
        self.is_so(f"why is told, of each ({count})", count == 100)
        self.bank = bank

    def foreign_addresses(self):
        fund = Client(b"FUND", self.at["fund"])
        self.is_so("who comes from another address is closed", fund.is_over(5))
        fund = self.fund = Client(b"FUND", self.at["fund"], "127.0.0.2")
        self.is_so("who comes from a client's own address logs on", fund.log_on() is not None)
        self.is_so("the other is told as a count", self.says("1 from other addresses before"))

    def fetched(self, path, method="GET", more=""):
        """Status, fields and body of the endpoint's answer to a request with host and token."""
        head = f"{method} {path} HTTP/1.1\nHost: localhost:{self.at['control']}\n" \
               f"Authorization: Bearer 0123456789abcdef\n{more}Connection: close\n\n"
        stream = socket.create_connection(("127.0.0.1", self.at["control"]), 5)
        stream.sendall(head.replace("\n", "\r\n").encode())
        answer = b""
        while data := stream.recv(65536):
            answer += data
        stream.close()
        head, _, body = answer.partition(b"\r\n\r\n")
        first, *lines = head.decode().split("\r\n")
        fields = dict(line.lower().split(": ", 1) for line in lines)
        return int(first.split()[1]), fields, body.decode()

    def status_where(self, holds, seconds=5):
        """The status of which that holds, or the last one."""
        end = time.monotonic() + seconds
        while True:
            status = json.loads(self.fetched("/status.json")[2])
            if "clients" in status and holds(status) or time.monotonic() > end:
                return status
            time.sleep(0.1)

    def what_is_shown(self):
        bank, fund, port = self.bank, self.fund, self.market
        bank.wait(lambda frame: False, 0.3)
        wanted = {"client": "C1", "name": "BANK", "logged_on": True, "next_in": bank.sent + 1}
        status = self.status_where(lambda it: it["clients"][0]["next_in"] == bank.sent + 1
                                   and it["ports"][0]["next"] == len(port.said) + 1
                                   and it["ports"][0]["state"] == "up")
        one, two, first = *status["clients"], status["ports"][0]
        self.is_so("status.json has the first client", {key: one[key] for key in wanted} == wanted)
        self.is_so("status.json has its numbers",
                   one["next_out"] == max(int(frame[34]) for frame in bank.frames) + 1 and one["link"] > 100)
        self.is_so("status.json has no order open", (one["open_orders"], two["open_orders"]) == (0, 0))
        self.is_so("status.json has the second client",
                   (two["name"], two["logged_on"], two["next_in"]) == ("FUND", True, fund.sent + 1))
        self.is_so("status.json has the port", (first["state"], first["next"]) == ("up", len(port.said) + 1)
                   and first["address"] == f"127.0.0.1:{self.at['market']}")
        self.is_so("status.json is of just now", status["age_ms"] < 3000 and status["events"] > 100
                   and status["gateway"] == "GATE" and status["ends"] is None)
        code, fields, page = self.fetched("/")
        self.is_so("the page is one of HTML that nothing else may add to",
                   code == 200 and fields["content-type"].startswith("text/html")
                   and fields["content-security-policy"].startswith("default-src 'none'")
                   and fields["x-content-type-options"] == "nosniff" and fields["cache-control"] == "no-store")
        self.is_so("the page has clients and ports, and no alarm", "BANK" in page and page.count("logged on") == 2
                   and "class=\"alarm\"" not in page and "<script" not in page)
        everything = page + self.fetched("/metrics")[2] + json.dumps(status)
        self.is_so("neither user, password nor token is shown",
                   not any(secret in everything for secret in ("USER01", "PASSWORD", "0123456789abcdef")))
        self.metrics(status)

    def metrics(self, status):
        code, fields, text = self.fetched("/metrics")
        self.is_so("metrics are of their format", code == 200 and "version=0.0.4" in fields["content-type"])
        samples, kinds, is_well = {}, {}, True
        for line in text.splitlines():
            if found := re.fullmatch(r"# TYPE (\w+) (counter|gauge)", line):
                is_well = is_well and found[1] not in kinds
                kinds[found[1]] = found[2]
            elif not re.fullmatch(r"# HELP \w+ .+", line):
                found = re.fullmatch(r'(\w+)(?:\{(\w+)="((?:[^"\\\n]|\\["\\n])*)"\})? (\d+)', line)
                is_well = is_well and bool(found) and found[1] in kinds and (found[1], found[3]) not in samples
                samples[found[1], found[3]] = int(found[4])
        self.is_so("metrics are read by their format", is_well and text.endswith("\n"))
        one, two = status["clients"]
        wanted = {("gateway_client_up", "BANK"): 1, ("gateway_client_up", "FUND"): 1,
                  ("gateway_client_next_in", "BANK"): one["next_in"],
                  ("gateway_client_next_in", "FUND"): two["next_in"],
                  ("gateway_client_next_out", "BANK"): one["next_out"],
                  ("gateway_open_orders", "BANK"): one["open_orders"],
                  ("gateway_open_orders", "FUND"): two["open_orders"],
                  ("gateway_executed_shares", "BANK"): int(one["executed_shares"]),
                  ("gateway_executed_value", "BANK"): int(one["value"]),
                  ("gateway_executed_shares", "FUND"): int(two["executed_shares"]),
                  ("gateway_executed_value", "FUND"): int(two["value"]),
                  ("gateway_port_up", status["ports"][0]["address"]): 1,
                  ("gateway_port_faulted", status["ports"][0]["address"]): 0,
                  ("gateway_port_next", status["ports"][0]["address"]): status["ports"][0]["next"]}
        self.is_so("metrics say what status.json says", all(samples.get(key) == value for key, value in wanted.items()))

    def a_disconnect(self):
        origin = "Origin: http://evil.example\n"
        for what, path, method, more, code in (
                ("a disconnect that is got", "/disconnect?client=C2", "GET", "", 405),
                ("a disconnect by another site", "/disconnect?client=C2", "POST", origin, 403),
                ("a disconnect of nobody", "/disconnect", "POST", "", 404),
                ("a disconnect of a client that isn't there", "/disconnect?client=C3", "POST", "", 404),
                ("a disconnect of another's name", "/disconnect?client=FUND", "POST", "", 404)):
            answer = self.fetched(path, method, more)[0]
            self.is_so(f"{what}: {answer}", answer == code)
        self.is_so("nobody was disconnected by these", not self.fund.is_over(0.5))
        before = self.fund.sent
        code, _, body = self.fetched("/disconnect?client=C2", "POST")
        self.is_so("a disconnect is answered", (code, body) == (200, "disconnecting\n"))
        self.is_so("the client's link ends", self.fund.is_over(5))
        self.is_so("another client's doesn't", not self.bank.is_over(0.1))
        status = self.status_where(lambda it: not it["clients"][1]["logged_on"])
        self.is_so("the client isn't logged on then", status["clients"][1]["link"] is None)
        fund = Client(b"FUND", self.at["fund"], "127.0.0.2")
        fund.sent = before
        self.is_so("the client logs on again", fund.log_on() is not None)
        self.fund = fund

    def many_readers(self):
        """Readers of the page, and connections that ask and don't read, while an order is filled."""
        deaf = [socket.create_connection(("127.0.0.1", self.at["control"]), 5) for _ in range(2)]
        for stream in deaf:
            stream.sendall(f"GET / HTTP/1.1\r\nHost: localhost:{self.at['control']}\r\n".encode())
        counts = []

        def reads():
            counts.append(sum(self.fetched("/")[0] == 200 for _ in range(PAGES)))

        threads = [threading.Thread(target=reads) for _ in range(6)]
        begin = time.monotonic()
        for thread in threads:
            thread.start()
        self.bank.order(b"M1")
        is_filled = self.bank.told(b"M1", b"F") is not None
        spent = time.monotonic() - begin
        for thread in threads:
            thread.join()
        self.is_so(f"{6 * PAGES:,} pages are read beside two connections that say half ({time.monotonic() - begin:.1f} s)",
                   counts == [PAGES] * 6)
        self.is_so(f"an order is filled meanwhile ({1000 * spent:.0f} ms)", is_filled and spent < 1)
        status = self.status_where(lambda it: it["age_ms"] < 1500)
        self.is_so("the status is of just now behind that", status["age_ms"] < 1500)
        for stream in deaf:
            stream.close()

    def market_restarts(self):
        for turn in range(3):
            name = b"R%d" % turn
            self.market.end()
            self.bank.order(name)
            waits = self.bank.told(name, b"A") is not None
            if turn == 0:
                status = self.status_where(lambda it: it["ports"][0]["state"] == "down"
                                           and it["clients"][0]["open_orders"] == 1)
                self.is_so("status.json has a port that is down", status["ports"][0]["state"] == "down")
                self.is_so("status.json has the order that waits as open",
                           [client["open_orders"] for client in status["clients"]] == [1, 0])
                page = self.fetched("/")[2]
                self.is_so("the page's alarm says so", "<div class=\"alarm\"><b>P1</b> at " in page and
                           page.index("class=\"alarm\"") < page.index("<table"))
            self.market.begin()
            self.is_so(f"a market that goes and comes again fills what waited ({turn + 1})",
                       waits and self.bank.told(name, b"F", 70) is not None)

    def headers(self):
        def asked(head):
            stream = socket.create_connection(("127.0.0.1", self.at["control"]), 5)
            stream.sendall(head.replace("\n", "\r\n").format(**self.at).encode())
            answer = b""
            while data := stream.recv(4096):
                answer += data
            return answer[:12].decode()
        own = "Host: 127.0.0.1:{control}\n"
        token = "Authorization: Bearer 0123456789abcdef\n"
        close = "Connection: close\n\n"
        for what, head, wanted in (
                ("a foreign Host", "POST /end HTTP/1.1\nHost: evil.example:80\n" + token + close, "403"),
                ("no token", "POST /end HTTP/1.1\n" + own + close, "401"),
                ("a wrong token", "POST /end HTTP/1.1\n" + own + "Authorization: Bearer 0123456789abcdeF\n" + close,
                 "401"),
                ("a foreign Origin", "POST /end HTTP/1.1\n" + own + token + "Origin: http://evil.example\n" + close,
                 "403"),
                ("GET of /end", "GET /end HTTP/1.1\n" + own + token + close, "405"),
                ("no such path", "POST /stop HTTP/1.1\n" + own + token + close, "404"),
                ("a head of 20 KB", "POST /end HTTP/1.1\n" + own + "X-Long: " + "a" * 20000 + "\n" + close, "431"),
        ):
            answer = asked(head)
            self.is_so(f"{what}: {answer}", answer.endswith(wanted))
        stream = socket.create_connection(("127.0.0.1", self.at["control"]), 10)
        begin = time.monotonic()
        try:
            for byte in b"POST /end HTTP/1.1\r\n" * 3:
                stream.sendall(bytes([byte]))
                time.sleep(0.3)
        except OSError:
            pass
        spent = time.monotonic() - begin
        self.is_so(f"a byte each 0.3 s is closed after {spent:.1f} s", 4.0 < spent < 7.0)

    def the_end(self):
        self.bank.order(b"OPEN", b"1")
        self.is_so("an order is open at the market", self.bank.told(b"OPEN", b"0") is not None)
        status = self.status_where(lambda it: it["clients"][0]["open_orders"] == 1)
        self.is_so("status.json has it as open", [client["open_orders"] for client in status["clients"]] == [1, 0])
        executed = [(client["executed_shares"], client["value"]) for client in status["clients"]]
        self.is_so("status.json has what was executed", executed == [("500", "115000000"), ("0", "0")])
        begin = time.monotonic()
        ran = self.end()
        spent = time.monotonic() - begin
        status = self.running.wait(20)
        self.is_so(f"gateway end: status {ran.returncode} after {spent:.1f} s", ran.returncode == 0 and 1.5 < spent < 8)
        self.is_so(f"the gateway ends with status {status}", status == 0)
        self.is_so("each client's link comes to its end", self.bank.is_over(1) and self.fund.is_over(1))
        told, audit = self.errors.read_text(), self.output.read_text()
        self.is_so("the open order is named", "OPEN of BANK: 100 of 100 open at the market\n" in told)
        self.is_so("and counted", "1 orders are open at the market, 0 weren't answered" in told)
        self.is_so("the audit has all orders, and all agree", audit.endswith("orders 6 agree 6\n"))
        ran = subprocess.run([self.gateway, "audit", "--journal", str(self.journal), "--settings", str(self.settings)],
                             capture_output=True, text=True)
        self.is_so("the journal has the same audit", (ran.returncode, ran.stdout) == (0, audit))
        self.market.end()

    def exported(self, *more):
        return subprocess.run([self.gateway, "export", "--journal", str(self.journal), *more], capture_output=True, text=True)

    def an_export(self):
        orders = [b"A1", b"R0", b"R1", b"R2", b"M1", b"OPEN"]
        wanted = [("C1", "in", name.decode()) for name in orders]
        table, objects, lines = (self.exported("--format", name) for name in ("csv", "json", "messages"))
        self.is_so("exports have status 0, and csv is the form where none is named",
                   [ran.returncode for ran in (table, objects, lines)] == [0, 0, 0] and self.exported().stdout == table.stdout)
        rows = list(csv.DictReader(io.StringIO(table.stdout, newline="")))
        self.is_so("csv has each new order", [(row["who"], row["way"], row["11"]) for row in rows if row["35"] == "D"] == wanted)
        said = [json.loads(line) for line in objects.stdout.splitlines()]
        self.is_so("json has each new order",
                   [(row["who"], row["way"], row["11"]) for row in said if row.get("35") == "D"] == wanted)
        self.is_so("json has what csv has", [{key: value for key, value in row.items() if value} for row in rows] == said)
        self.is_so("a message a line has as many", len(lines.stdout.splitlines()) == len(said)
                   and sum("C1 < 35=D|" in line for line in lines.stdout.splitlines()) == len(orders))
        asked, filled = (len({row["token"] for row in said if (row["who"], row["way"], row.get("ouch")) == key})
                         for key in (("P1", "out", "O"), ("P1", "in", "E")))
        self.is_so("each order was asked, and all but one filled", (asked, filled) == (len(orders), len(orders) - 1))
        everything = table.stdout + objects.stdout + lines.stdout
        self.is_so("neither user nor password is handed on",
                   "USER01" not in everything and "PASSWORD" not in everything)
        ran = self.exported("--format", "xml")
        self.is_so("another form is refused", (ran.returncode, ran.stdout) == (2, ""))

    def orders_that_wait(self):
        """A day on which the market never comes."""
        self.running = self.start()
        self.says("next try in")
        bank = Client(b"BANK", self.at["bank"])
        bank.log_on()
        bank.order(b"W1")
        begin = time.monotonic()
        is_told = self.says(" P1 1 orders wait, since ", 14)
        spent = time.monotonic() - begin
        self.is_so(f"that an order waits is told after ten seconds ({spent:.1f} s)", is_told and 8.5 < spent)
        ran, status = self.end("--now"), self.running.wait(20)
        self.is_so("and at the end that it wasn't answered", (ran.returncode, status) == (0, 0)
                   and self.says("W1 of BANK: asked, not answered\n"))

    def unwilling_markets(self):
        """Markets that reject each login, or end the session at once."""
        ended = ouch.login_accepted(b"DAY", 1) + ouch.packet(b"Z")
        for what, answer, seconds, logins, line in (
                ("a login rejected by A isn't tried again for a minute", ouch.packet(b"J", b"A"), 20, 1,
                 " P1 login rejected: A, user or password\n"),
                ("a login rejected by S is tried again after ten seconds", ouch.packet(b"J", b"S"), 20, 2,
                 " P1 next login in 10 s\n"),
                ("a port whose session is ended is left alone", ended, 8, 1, " P1 session ended by the market\n")):
            market = Unwilling(self.at["market"], answer)
            market.begin()
            self.running = self.start()
            self.is_so(what + ": the reason is told", self.says(line))
            time.sleep(seconds)
            gaps = [round(later - earlier, 1) for earlier, later in zip(market.asked, market.asked[1:])]
            self.is_so(f"{what} ({len(market.asked)} logins in {seconds} s, between them {gaps} s)",
                       len(market.asked) == logins and all(gap > 10 for gap in gaps))
            begin = time.monotonic()
            ran, status = self.end("--now"), self.running.wait(20)
            spent = time.monotonic() - begin
            self.is_so(f"the day ends meanwhile ({spent:.1f} s)", (ran.returncode, status) == (0, 0) and spent < 3)
            market.end()

    def a_pipe_that_nobody_reads(self):
        words = [self.gateway, "serve", "--settings", str(self.settings)]
        self.market = Market(self.at["market"])
        self.market.begin()
        with self.output.open("w") as output:
            self.running = subprocess.Popen(words, stdout=output, stderr=subprocess.PIPE)
        time.sleep(0.5)
        bank = Client(b"BANK", self.at["bank"])
        self.is_so("a client logs on, while nobody reads standard error", bank.log_on() is not None)
        longest, begin = 0.0, time.monotonic()
        for turn in range(1500):
            stranger = Client(b"FUND", self.at["fund"], "127.0.0.2")
            stranger.send(b"D", (11, b"%0200d" % turn))
            stranger.is_over(10)
            stranger.stream.close()
            if turn % 100 == 0:
                name, asked = b"Q%d" % turn, time.monotonic()
                bank.order(name)
                filled = bank.told(name, b"F")
                longest = max(longest, time.monotonic() - asked if filled else 99.0)
        self.is_so(f"1,500 links of another client in {time.monotonic() - begin:.0f} s; an order takes"
                   f" {1000 * longest:.0f} ms at most", longest < 1.0)
        ran = self.end("--now")
        told = self.running.communicate(timeout=20)[1].decode()
        self.is_so(f"gateway end: status {ran.returncode}, {self.running.returncode}",
                   (ran.returncode, self.running.returncode) == (0, 0))
        lost = [int(line.split()[1]) for line in told.splitlines() if "lines are lost here" in line]
        self.is_so(f"{sum(lost)} lines are lost, and told as lost", sum(lost) > 0)
        kept = sum(" C2 up" in line or " C2 Logon refused" in line or " C2 closed" in line for line in told.splitlines())
        self.is_so(f"{kept} lines of that client are there: with those that are lost about all of 4,500",
                   4400 < kept + sum(lost) < 4600)
        self.market.end()

    def run(self):
        for step in (self.an_address_in_use, self.nobody_to_end, self.before_the_market, self.bare_connects,
                     self.refused_logons, self.foreign_addresses, self.market_restarts, self.what_is_shown,
                     self.a_disconnect, self.many_readers, self.headers, self.the_end, self.an_export,
                     self.orders_that_wait, self.unwilling_markets, self.a_pipe_that_nobody_reads):
            step()
        print("all is right" if self.wrong == 0 else f"{self.wrong} wrong")
        return 1 if self.wrong else 0


def main():
    with tempfile.TemporaryDirectory() as folder:
        day = Day(sys.argv[1], folder)
        try:
            return day.run()
        finally:
            running = getattr(day, "running", None)
            if running and running.poll() is None:
                running.kill()
                print(day.errors.read_text()[-3000:])


if __name__ == "__main__":
    sys.exit(main())
