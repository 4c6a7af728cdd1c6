"""`python3 -m stress.gate_days.promptness GATEWAY`: how soon links of a gateway are told something.

A program of its own, since it looks at milliseconds: the threads of other steps would hold its own up. The status is 0
where all is soon, 1 where something isn't, and 3 where this machine is too slow to tell."""
import subprocess
import sys
import tempfile
import time

from .peers import holds_within
from .stage import Addresses, LeftOut, Stage, Wrong, since

# orders of a round, how many of them have to be soon, and how many rounds show that a machine can tell
EACH, SOON, ABLE = 30, 26, 10
WRONG, TOO_SLOW = 1, 3


def told_at_once(stage):
    """of 64 clients and 16 ports the first and the last are told at once: an order is soon at its market, and its fill at
    its client"""
    ran = subprocess.run([sys.executable, "-m", "stress.gate_days.promptness", stage.program], capture_output=True,
                         text=True, check=False)
    if ran.returncode == TOO_SLOW:
        raise LeftOut(ran.stderr.strip())
    stage.same("what it comes to", (0, ""), (ran.returncode, ran.stderr))


def play(stage):
    """The first and the last of 64 clients and 16 ports, one after the other."""
    clients, addresses = stage.set_up(64, 16)
    stage.gateway("serve")
    for client, address in ((clients[0], addresses[0]), (clients[-1], addresses[-1])):
        market = stage.market(address)
        stage.holds(f"{client.name} is logged on", client.connect().log_on() is not None)
        stage.holds("its port is up", holds_within(lambda it=market: len(it.came) == 1))
        # a writer that isn't woken looks every ten milliseconds; a busy machine is slow too, but not in all rounds
        rounds, end = [], time.monotonic() + 30
        while not (rounds and soon(rounds, "market") and soon(rounds, "client")):
            if time.monotonic() > end:
                told = ", ".join(f"{soon(rounds, it)} ({it})" for it in rounds[0])
                if max(soon(rounds, it) for it in rounds[0]) < ABLE:
                    raise LeftOut(f"this machine is too slow for it: of {len(rounds)} rounds {told}")
                raise Wrong(f"{client.name}: of {len(rounds)} rounds nearly all is soon in {told}")
            rounds.append(round_of(stage, client, market))


def round_of(stage, client, market):
    """The seconds until Test Requests are answered by the client's own reader, orders are at their market, and their
    fills then at the client."""
    spent = {"answers": [], "market": [], "client": []}
    for _ in range(EACH):
        begin, before, name = time.monotonic(), len(client.frames), b"%d" % client.sent
        client.send(b"1", (112, name))
        heard = client.wait(lambda frame, it=name: frame.kind == b"0" and frame[112] == it, begin=before)
        stage.holds("a Test Request is answered", heard is not None)
        spent["answers"].append(since(begin))
        begin, before = time.monotonic(), len(market.asked)
        client.order(name)
        stage.holds("an order is filled", client.told(name, b"F") is not None)
        spent["market"].append(market.asked[before] - begin)
        spent["client"].append(since(market.asked[before]))
    return spent


def soon(rounds, what):
    """In how many rounds nearly all of it takes less than four milliseconds."""
    return sum(sum(it < 0.004 for it in spent[what]) >= SOON for spent in rounds)


def main():
    with tempfile.TemporaryDirectory() as folder:
        stage = Stage(sys.argv[1], Addresses(), folder)
        try:
            play(stage)
        except (Wrong, LeftOut) as it:
            print(it, file=sys.stderr)
            return WRONG if isinstance(it, Wrong) else TOO_SLOW
        finally:
            stage.clear()
    return 0


STEPS_OF_PROMPTNESS = (told_at_once,)

if __name__ == "__main__":
    sys.exit(main())
