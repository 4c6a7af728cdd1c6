#!/usr/bin/env python3
"""A day of random events as a script: orders, requests, refusals, fills that cross them, lost links and resumptions.

    scripts/random-day.py PROGRAM SEED LINES > FILE

PROGRAM is a built gate_script. Each line is tried behind those before it: what the gateway asks of the market is read
from what the program prints, and the market here answers it at random. A line that faults a port is left out, but for
one in fifty.
"""
import random
import subprocess
import sys

CLIENTS = {1: 1, 2: 1, 3: 2}
STOCKS = ["INTC", "MSFT", "QQQ"]


class Market:
    """What a port's market has been asked and has said."""

    def __init__(self):
        self.seen = 0
        self.said = 1
        self.asked = []
        self.live = {}
        self.trades = []
        self.up = True


class Day:
    def __init__(self, program, seed):
        self.program = program
        self.random = random.Random(seed)
        self.lines = []
        self.printed = self.run([])
        self.moment = 0
        self.ids = 0
        self.known = {1: [], 2: [], 3: []}
        self.orders = {1: [], 2: [], 3: []}
        self.number = {1: 2, 2: 2, 3: 2}
        self.away = set()
        self.markets = {1: Market(), 2: Market()}
        self.matches = 0

    def run(self, lines):
        script = "\n".join(lines) + "\n"
        done = subprocess.run([self.program, "--num"], input=script, capture_output=True, text=True)
        if done.returncode != 0:
            return None
        return done.stdout.splitlines()

    def take(self, line):
        """Takes a line, unless the program stops at it or a port is at fault for it."""
        printed = self.run(self.lines + [line])
        if printed is None:
            return False
        new = printed[len(self.printed):]
        if any(" fault " in it for it in new) and self.random.random() > 0.02:
            return False
        self.lines.append(line)
        self.printed = printed
        for it in new:
            words = it.split()
            if words[0] in ("P1", "P2") and words[1] == ">" and words[2] in "OUX" and len(words[2]) == 1:
                asked = self.markets[int(words[0][1])].asked
                if words[2:] not in asked:
                    asked.append(words[2:])
        return True

    # ---- clients

    def new_id(self, client):
        if self.known[client] and self.random.random() < 0.05:
            return self.random.choice(self.known[client])
        self.ids += 1
        self.known[client].append(f"D{self.ids}")
        return f"D{self.ids}"

    def message(self, client, fields):
        skip = self.random.random()
        number = self.number[client]
        if skip < 0.03:
            fields += f"|34={number + self.random.randint(1, 3)}"
        if self.take(f"C{client} msg {fields}") and skip >= 0.03:
            self.number[client] += 1

    def order(self, client):
        pick = self.random.choice
        shares = pick(["1", "100", "300", "1000", "999999", "0", "1.5", "1000000"] + ["200"] * 8)
        price = pick(["23.45", "10", "1.5", "0.0001", "199999.99", "200000", "1.23456", "-1"] + ["12.5"] * 8)
        self.orders[client].append(self.new_id(client))
        fields = f"35=D|11={self.orders[client][-1]}|54={pick('1122255')}|55={pick(STOCKS)}|38={shares}|40=2|44={price}"
        fields += pick(["", "", "|59=0", "|59=3", "|59=7", "|528=P", "|110=100|59=3", "|18=P"])
        self.message(client, fields)

    def replace(self, client):
        fields = f"35=G|41={self.some_id(client)}|11={self.new_id(client)}"
        fields += f"|38={self.random.choice([50, 150, 400, 1000])}|40=2|44=24"
        self.message(client, fields + self.random.choice(["", "|54=1|55=INTC", "|59=0"]))

    def cancel(self, client):
        self.message(client, f"35=F|41={self.some_id(client)}|11={self.new_id(client)}")

    def some_id(self, client):
        known = self.orders[client] if self.random.random() < 0.6 else self.known[client]
        return self.random.choice(known[-5:]) if known and self.random.random() < 0.95 else "NONE"

    def session(self, client):
        pick = self.random.choice
        self.message(client, pick([
            "35=0", "35=1|112=are you there", f"35=2|7={pick([1, 2, 5])}|16={pick([0, 3, 9])}", "35=3|45=2",
            "35=Q|58=no", "35=H|11=D1", "35=D|11=", "35=8|37=1",
        ]))

    def client_link(self, client):
        if client in self.away:
            if self.take(f"C{client} up"):
                self.away.discard(client)
                again = self.random.random() < 0.2
                self.number[client] = 1 if again else self.number[client]
                self.message(client, "35=A|98=0|108=30" + (f"|141=Y" if again else ""))
        elif self.random.random() < 0.3:
            self.take(f"C{client} msg 35=5")
            self.number[client] += 1
        elif self.take(f"C{client} gone"):
            self.away.add(client)

    def client(self):
        client = self.random.choice([1, 1, 2, 3])
        if client in self.away and self.random.random() < 0.7:
            self.client_link(client)
            return
        acts = [self.order, self.replace, self.cancel, self.session, self.client_link]
        self.random.choices(acts, [10, 5, 4, 2, 2])[0](client)

    # ---- the market

    def says(self, port, line):
        market = self.markets[port]
        if market.up and self.take(f"P{port} {line}"):
            market.said += 1
            return True
        return False

    def answer(self, port):
        market = self.markets[port]
        if not market.asked:
            return
        asked = market.asked[0]
        token = int(asked[1][1:])
        if asked[0] == "O":
            _, _, side, shares, stock, price, life = asked[:7]
            state = self.random.choice("LLLLLLD")
            said = f"A {token} {side} {shares} {stock} {price} {life} {state}"
            if self.random.random() < 0.1:
                said = f"J {token} {self.random.choice('HOZ')}"
            elif state == "L":
                market.live[token] = [side, stock, int(shares), 0]
        elif asked[0] == "U":
            new, shares, price, life = int(asked[2][1:]), asked[3], asked[4], asked[5]
            order = market.live.get(token)
            if order is None:
                said = f"J {new} {self.random.choice('HO')}"
            elif self.random.random() < 0.8:
                said = f"U {new} {token} {order[0]} {shares} {order[1]} {price} {life} L"
            else:
                said = f"J {new} O"
        else:
            order = market.live.get(token)
            said = f"I {token}"
            if order:
                said = self.random.choice([f"C {token} {order[2]} U", f"P {token}", f"I {token}"])
        if not self.says(port, said):
            if self.random.random() < 0.5:
                market.asked.pop(0)
            return
        market.asked.pop(0)
        words = said.split()
        if words[0] == "U":
            order = market.live.pop(token)
            left = int(words[4]) - order[3]
            if left > 0:
                market.live[int(words[1])] = [order[0], order[1], left, order[3]]
        if words[0] == "C":
            market.live.pop(token, None)

    def fill(self, port):
        market = self.markets[port]
        if not market.live:
            return
        token = self.random.choice(list(market.live))
        order = market.live[token]
        shares = self.random.randint(1, max(1, order[2]))
        self.matches += 1
        if self.says(port, f"E {token} {shares} {self.random.randint(1, 300000)} {self.matches}"):
            market.trades.append((token, self.matches))
            order[2] -= shares
            order[3] += shares
            if order[2] <= 0:
                del market.live[token]

    def other(self, port):
        market = self.markets[port]
        pick = self.random.choice
        if market.trades and self.random.random() < 0.4:
            token, match = pick(market.trades)
            self.says(port, f"B {token} {match} {pick('ECSX')}")
        elif market.live and self.random.random() < 0.4:
            token = pick(list(market.live))
            if self.says(port, f"C {token} {market.live[token][2]} {pick('UTSQ')}"):
                del market.live[token]
        else:
            self.says(port, f"S {pick('SQM')}")

    def port_link(self, port):
        market = self.markets[port]
        if not market.up:
            if self.take(f"P{port} up") and self.take(f"P{port} login SESSION001 {market.said}"):
                market.up = True
        elif self.take(f"P{port} gone"):
            market.up = False

    def port(self):
        port = self.random.choice([1, 1, 2])
        if not self.markets[port].up:
            self.port_link(port)
            return
        self.random.choices([self.answer, self.fill, self.other, self.port_link], [10, 7, 2, 1])[0](port)

    def time(self):
        self.moment += self.random.choice([10, 500, 5000, 31000])
        self.take(f"at {self.moment}")
        self.take(self.random.choice(["C1 tick", "C2 tick", "C3 tick", "P1 tick", "P2 tick"]))

    def go(self, lines):
        while len(self.lines) < lines:
            self.random.choices([self.client, self.port, self.time], [10, 10, 1])[0]()


def main():
    day = Day(sys.argv[1], int(sys.argv[2]))
    day.go(int(sys.argv[3]))
    print("\n".join(day.lines[: int(sys.argv[3])]))


main()
