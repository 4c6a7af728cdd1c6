"""python3 -m stress --gateway PATH --seed N: a day of random traffic, or several; see README.md."""
import argparse
import signal
import sys
from collections import Counter

from .day import Day, show
from .plan import HOSTILE


def options():
    it = argparse.ArgumentParser(prog="stress", description="Days of random traffic for a gateway that runs.")
    it.add_argument("--gateway", required=True, help="the built program")
    it.add_argument("--seed", type=int, required=True, help="of the first day; each further day has the next one")
    it.add_argument("--days", type=int, default=1)
    it.add_argument("--seconds", type=float, default=20, help="of traffic, before it settles")
    it.add_argument("--clients", type=int, help="2 to 16; by the seed where it isn't said")
    it.add_argument("--ports", type=int, help="1 to 16; by the seed where it isn't said")
    it.add_argument("--rate", type=float, default=30, help="messages of a client a second, about")
    it.add_argument("--hostile", choices=["", "any", *HOSTILE], help="what one port says; nothing with ''")
    it.add_argument("--refuse", type=int, nargs="?", const=2000, metavar="R", help="one request for memory in R fails")
    it.add_argument("--run", action="store_true", help="by gateway run, with a counted number of links")
    it.add_argument("--kill", type=int, default=0, metavar="N", help="the gateway is killed N times, and started again")
    it.add_argument("--machine", action="store_true", help="with --kill: the machine stops, and what wasn't synced is lost")
    it.add_argument("--sync", metavar="WHEN", help="when the journal is synced; with --machine each alone loses nothing")
    it.add_argument("--show", type=int, default=6, help="how many complaints are printed")
    it.add_argument("--details", action="store_true", help="counts by kind, also where nothing is wrong")
    it.add_argument("--keep", action="store_true", help="the folder of the day's files stays")
    given = it.parse_args()
    if given.run and given.kill:
        it.error("--kill is of a gateway that is served, --run of one that isn't")
    return given


def main():
    given = options()
    signal.signal(signal.SIGTERM, lambda *_: sys.exit(143))
    wrong, totals = 0, Counter()
    for given.seed in range(given.seed, given.seed + given.days):
        report = Day(given).run()
        print("\n".join(report.lines()), flush=True)
        wrong += not report.is_right()
        totals += report.totals()
    if given.days > 1:
        print(f"{given.days} days, {wrong} of them wrong: {show(totals)}")
    return 1 if wrong else 0


if __name__ == "__main__":
    sys.exit(main())
