"""What a gateway that is served shows of itself, and what it tells at the end, beside the books of the day."""
import json
import re
import socket
import subprocess
import time

from .compare import account, audited
from .fix import worth

FAULTS = {b"1": "a packet or payload that can't be read", b"2": "a token that no order of this port has",
          b"3": "a message that its order doesn't allow", b"4": "a message outside the profile",
          b"5": "a login with a number above the next one", b"6": "a login of another session"}
SAMPLE = re.compile(r'(gateway_\w+)(?:\{\w+="([^"]*)"\})? (\d+)')
STANDING = re.compile(rb"(.*) of C(\d+): (?:\d+ of \d+ open at the market|asked, not answered)", re.S)
SUM = re.compile(rb"gateway: \d+ orders are open at the market, \d+ weren't answered")
# reports of an order that its market hasn't answered
PENDING = ("A", "6", "E")


def fetched(address, path):
    """The body that the control endpoint on loopback answers with."""
    stream = socket.create_connection(("127.0.0.1", address), 5)
    stream.sendall(f"GET {path} HTTP/1.1\r\nHost: localhost:{address}\r\nConnection: close\r\n\r\n".encode())
    answer = b""
    while data := stream.recv(65_536):
        answer += data
    stream.close()
    head, _, body = answer.partition(b"\r\n\r\n")
    if not head.startswith(b"HTTP/1.1 200 "):
        raise OSError(f"{path}: {head[:40]!r}")
    return body.decode()


def shown(address, seconds):
    """Status and metrics of one moment, once nothing but time moves any more: the same rows on two boards."""
    end, before = time.monotonic() + seconds, None
    while time.monotonic() < end:
        status, metrics = json.loads(fetched(address, "/status.json")), fetched(address, "/metrics")
        rows = status.get("clients"), status.get("ports")
        if before and rows == before[0] and status["at"] != before[1] and samples(metrics)[0] == status["events"]:
            return status, metrics
        if before is None or rows != before[0]:
            before = rows, status.get("at")
        time.sleep(0.3)
    return None


def samples(metrics):
    """How many events there were, and each other sample by its name and whose it is."""
    found = {(it[1], it[2]): int(it[3]) for it in map(SAMPLE.fullmatch, metrics.splitlines()) if it}
    return found.get(("gateway_events_total", None)), found


def compare_shown(now, clients, markets, wanted, output, told, rows):
    """What is wrong of the status at the day's end, beside clients, markets, audit, last lines and journal."""
    if now is None:
        yield "the status doesn't come to rest"
        return
    status, metrics = now
    still_open = open_by_client(output, told)
    exported = {}
    for (client, _), order in orders_of(rows).items():
        exported[client] = exported.get(client, 0) + order.is_open()
    executed = {"the markets": executed_at(clients, markets), "the audit": executed_by_audit(output),
                "the journal": executed_by_journal(rows)}
    for number, (client, row) in enumerate(zip(clients, status["clients"], strict=True), 1):
        opens = sum(not it.closed for it in client["orders"].values())
        yield from differs(f"client {number}", row, client_row(number, client, opens))
        for what, count in (("the audit with the last lines", still_open), ("the journal", exported)):
            if count.get(number, 0) != row["open_orders"]:
                yield f"client {number} has {row['open_orders']} open orders, by {what} {count.get(number, 0)}"
        shown = int(row["executed_shares"]), int(row["value"])
        for what, sums in executed.items():
            if sums.get(number, (0, 0)) != shown:
                yield f"client {number} has executed {shown}, by {what} {sums.get(number, (0, 0))}"
    for number, (market, state, row) in enumerate(zip(markets, wanted, status["ports"], strict=True), 1):
        yield from differs(f"port {number}", row, port_row(number, market, state))
    yield from compare_metrics(status, samples(metrics)[1])


def client_row(number, client, opens):
    """A client that has left: no link, all that it sent was handled, and all that it was sent it has."""
    shares, value = summed((number, it.executed, it.value) for it in client["orders"].values()).get(number, (0, 0))
    return {"client": f"C{number}", "name": f"C{number}", "link": None, "logged_on": False, "open_orders": opens,
            "executed_shares": str(shares), "value": str(value), "next_in": client["next_out"],
            "next_out": client["expected"]}


# What was executed: shares and their value in 1/10,000, by client.

def summed(orders):
    """The sums of each client, of the client, shares and value of each order."""
    sums = {}
    for client, shares, value in orders:
        before = sums.get(client, (0, 0))
        sums[client] = before[0] + shares, before[1] + value
    return sums


def executed_at(clients, markets):
    """By the markets' books; each order has a symbol of its own."""
    owner = {order.symbol: order.client for client in clients for order in client["orders"].values()}
    entered = [(stock.rstrip(), it) for market in markets for stock, it in market["orders"].items()]
    return summed((owner.get(symbol), it.executed, it.value) for symbol, it in entered)


def executed_by_audit(output):
    return summed((client, shares, value)
                  for (client, _), (_, shares, _, _, value, _) in audited(output)[0].items())


def executed_by_journal(rows):
    return summed((client, it.executed, it.value) for (client, _), it in orders_of(rows).items())


def port_row(number, market, state):
    """A port: up with all that its market said, or faulted, or ended."""
    row = {"port": f"P{number}", "address": f"127.0.0.1:{market['address']}", "state": "up"}
    if state in FAULTS:
        return {**row, "state": "faulted", "reason": FAULTS[state], "link": None}
    if state:
        return {**row, "state": "ended by the market", "link": None}
    return {**row, "next": market["history"] + 1}


def differs(whose, row, wanted):
    found = {key: row.get(key) for key in wanted}
    if found != wanted:
        yield f"{whose} is shown as {found}, not {wanted}"


def compare_metrics(status, found):
    """Each number of the status is the same in the metrics."""
    for row in status["clients"]:
        numbers = {"client_up": row["logged_on"], "open_orders": row["open_orders"], "client_next_in": row["next_in"],
                   "client_next_out": row["next_out"], "executed_shares": int(row["executed_shares"]),
                   "executed_value": int(row["value"])}
        yield from ((f"metrics have {found.get((f'gateway_{name}', row['name']))} as {name} of {row['name']}, "
                     f"the status {value}") for name, value in numbers.items()
                    if found.get((f"gateway_{name}", row["name"])) != value)
    for row in status["ports"]:
        numbers = {"port_up": row["state"] == "up", "port_faulted": row["state"] == "faulted", "port_next": row["next"]}
        yield from ((f"metrics have {found.get((f'gateway_{name}', row['address']))} as {name} of {row['port']}, "
                     f"the status {value}") for name, value in numbers.items()
                    if found.get((f"gateway_{name}", row["address"])) != value)


# The lines at the end.

def last_lines(errors):
    """What standard error has of orders that aren't over, as it was told."""
    lines = [it for it in errors.split(b"\n") if STANDING.fullmatch(it) or SUM.fullmatch(it)]
    return b"".join(it + b"\n" for it in lines)


def compare_last_lines(clients, told):
    """They are those of all orders that aren't over, by client and OrderID, and how many there are."""
    orders = sorted((order for client in clients for order in client["orders"].values() if not order.closed),
                    key=lambda it: (it.client, it.number))
    lines, counts = [], [0, 0]
    for it in orders:
        executed, still, cancelled, _ = account(it)
        counts[still == 0] += 1
        shares = b": %d of %d open at the market" % (still, executed + still + cancelled)
        what = shares if still else b": asked, not answered"
        lines.append(b"%s of C%d%s\n" % (it.first_name, it.client, what))
    if orders:
        lines.append(b"gateway: %d orders are open at the market, %d weren't answered\n" % tuple(counts))
    if b"".join(lines) != told:
        yield f"the last lines are {told[:300]!r} .., not {b''.join(lines)[:300]!r} .."


def open_by_client(output, told):
    """How many orders of each client aren't over: those open by the audit, and those that are told as unanswered."""
    counts = {}
    for (client, _), (_, _, still, *_) in audited(output)[0].items():
        counts[client] = counts.get(client, 0) + (still > 0)
    for line in told.split(b"\n"):
        found = STANDING.fullmatch(line)
        if found and line.endswith(b": asked, not answered"):
            counts[int(found[2])] = counts.get(int(found[2]), 0) + 1
    return counts


# The journal.

class Told:
    """An order as the reports in the journal give it."""

    def __init__(self):
        self.is_answered = False
        self.executed = self.left = self.value = 0
        self.trades = {}

    def take(self, row, match):
        """A report, and the match number of what came before it: a broken trade's report doesn't name the trade."""
        kind = row["150"]
        self.is_answered = self.is_answered or kind not in PENDING
        self.executed, self.left = int(row["14"]), int(row["151"])
        if kind == "F":
            self.trades[match] = int(row["32"]) * int(worth(row["31"].encode()) * 10_000)
            self.value += self.trades[match]
        elif kind == "H":
            self.value -= self.trades.pop(match)

    def is_open(self):
        return not self.is_answered or self.left > 0


def journal_rows(gateway, journal):
    """The messages of the order level in a journal, as its export has them."""
    words = [gateway, "export", "--journal", str(journal), "--format", "json"]
    ran = subprocess.run(words, capture_output=True)
    if ran.returncode != 0:
        raise OSError(f"the export has status {ran.returncode}: {ran.stderr[:200]!r}")
    return [json.loads(line) for line in ran.stdout.splitlines()]


def orders_of(rows):
    """The accepted orders of the journal's reports, by client and OrderID."""
    orders, match = {}, None
    for row in rows:
        if row["way"] == "in":
            match = row.get("match")
        elif row.get("35") == "8":
            key = int(row["who"][1:]), int(row["37"])
            if row["150"] == "A":
                orders[key] = Told()
            if key in orders:
                orders[key].take(row, match)
    return orders


def compare_journal(clients, rows):
    """Each accepted order has the same numbers by the journal's reports as in its client's book."""
    orders, count = orders_of(rows), 0
    for client in clients:
        for order in client["orders"].values():
            count += 1
            wanted, found = (order.executed, order.open, not order.closed), orders.get((order.client, order.number))
            numbers = found and (found.executed, found.left, found.is_open())
            if numbers != wanted:
                yield f"client {order.client} {order.first_name} has {wanted}, the journal {numbers}"
    if count != len(orders):
        yield f"the journal has {len(orders)} accepted orders, the clients {count}"
