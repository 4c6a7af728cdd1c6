"""Three books of a day, order by order: the clients', the markets', and the gateway's own audit."""
import re

from . import rules
from .fix import worth

LINE = re.compile(rb"C(\d+) (.*) side (.) executed (\d+) open (\d+) cancelled (\d+) value (\d+) (agree|differ)", re.S)
TOTALS = re.compile(rb"orders (\d+) agree (\d+)")


def audited(output):
    """The audit's accounts by client and ClOrdID, what it says of all, and the lines that aren't lines of it."""
    accounts, totals, others = {}, None, []
    for line in output.split(b"\n")[:-1]:
        found, last = LINE.fullmatch(line), TOTALS.fullmatch(line)
        if found:
            side, verdict = found[3], found[8]
            accounts[int(found[1]), found[2]] = (side, *map(int, found.group(4, 5, 6, 7)), verdict)
        elif last:
            totals = (int(last[1]), int(last[2]))
        else:
            others.append(line)
    return accounts, totals, others


def account(order):
    """Executed, open, cancelled, value; nothing is open of a client's order that waits for the market."""
    return (order.executed, 0 if getattr(order, "waiting", False) else order.open, order.cancelled, order.value)


def compare(clients, markets, output):
    """What is wrong between the three books, as texts."""
    accounts, totals, others = audited(output)
    entered = {stock.rstrip(): order for market in markets for stock, order in market["orders"].items()}
    orders = [order for client in clients for order in client["orders"].values()]
    yield from (f"the audit has a line {line!r}" for line in others)
    if totals != (len(orders), len(orders)):
        yield f"the audit says {totals}, the clients have {len(orders)} orders"
    if list(accounts) != [(it.client, it.first_name) for it in sorted(orders, key=lambda it: (it.client, it.number))]:
        yield "the audit's lines aren't the clients' orders by client and OrderID"
    for order in orders:
        yield from audit_differs(order, accounts.pop((order.client, order.first_name), None))
        yield from market_differs(order, entered.pop(order.symbol, None))
    yield from (f"only the audit has {it}" for it in accounts)
    yield from (f"only a market has {it}" for it in entered)
    yield from gaps("17", [it for client in clients for it in client["exec_ids"]])
    yield from gaps("37", [it for client in clients for it in client["order_ids"]])


def audit_differs(order, found):
    wanted = (order.side, *account(order), b"agree")
    if found != wanted:
        yield f"client {order.client} {order.first_name} has {wanted}, the audit {found}; waiting: {order.waiting}"


def market_differs(order, found):
    """The market's account, and whether each thing that it was asked is what a message of the client asked."""
    if found is None:
        if not order.waiting:
            yield f"client {order.client} {order.first_name} is no order of a market"
        return
    if not order.waiting and account(order) != account(found):
        yield f"client {order.client} {order.first_name} has {account(order)}, the market {account(found)}"
    wanted, entered = terms(order.asked), found.entered
    if (rules.SIDES[order.side], order.capacity) != (entered.side, entered.capacity) or wanted != asked(entered):
        yield f"client {order.client} {order.first_name} asked {order.asked}, entered was {entered}"
    changes = iter([terms(it) for it in order.changes])
    if not all(asked(it) in changes for it in found.replaces):
        yield f"client {order.client} {order.first_name} asked {order.changes}, the market {found.replaces}"
    if found.cancels and not order.cancels:
        yield f"client {order.client} {order.first_name} is cancelled without a request"


def terms(given):
    """What a D or G asks: shares, price, time in force, display, minimum quantity."""
    whole = given.get(59) == rules.FILL_OR_KILL
    return (worth(given[38]), worth(given[44]) * 10_000, 0 if whole or given.get(59) == b"3" else 99_998,
            b"P" if given.get(18) == b"6" else b"Y", worth(given[38]) if whole else worth(given.get(110, b"0")))


def asked(it):
    return (it.shares, it.price, it.life, it.display, it.minimum)


def gaps(tag, numbers):
    if sorted(numbers) != list(range(1, len(numbers) + 1)):
        missing = sorted(set(range(1, max(numbers, default=0) + 1)) - set(numbers))
        yield f"{tag} isn't each number once: {len(numbers)} of them, missing {missing[:20]}"
