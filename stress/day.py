"""One day: starts markets, gateway and clients, moves them from stage to stage, and judges what was left."""
import multiprocessing
import os
import pickle
import random
import re
import shutil
import subprocess
import tempfile
import time
from collections import Counter
from pathlib import Path

from . import operated
from .client import CLOSED, LEFT, SETTLED, Client
from .compare import compare
from .link import free_addresses, listener
from .plan import CLOSING, HOSTILE, LEAVING, OVER, SETTLING, TRADING, planned
from .refusing import Refusing
from .server import PASSWORD, USER, Server
from .stopping import Stopping

FORK = multiprocessing.get_context("fork")
EVENT = re.compile(r"\d{8}-\d\d:\d\d:\d\d\.\d{3} ([CP]\d+) "
                   r"(up|gone|closed by the gateway|link fault [123]|port fault [1-6]|sent 35=[235])(: [^:]*|\|49=[ -~]*)?")
SKIPPED = re.compile(r"\d{8}-\d\d:\d\d:\d\d\.\d{3} (C\d+) skipped (\d+) bytes")
# what is told in place of a frame that there was no memory for
UNSHOWN = re.compile(r"\d{8}-\d\d:\d\d:\d\d\.\d{3} C\d+ sent a Reject, a ResendRequest or a Logout")
# why a link's session is refused, and that events wait for memory
WHY = re.compile(r"\d{8}-\d\d:\d\d:\d\d\.\d{3} ([CP])\d+ (Logon refused|login rejected): [ -~]+")
# what the audit of a day that goes on tells beside its accounts, and how it ends
GOES_ON = re.compile(rb"the day goes on: its file (has no end|ends with \d+ bytes of a write that was cut short)\n")
ALL_AGREE = re.compile(rb"(.*\n)*orders (\d+) agree \2\n")
# what is told of a gateway that is served: links with their addresses, orders that wait, and its end
UP = re.compile(r"\d{8}-\d\d:\d\d:\d\d\.\d{3} (C\d+) up from [0-9.:]+(, \d+ connects without a byte before)?")
SERVED = [re.compile(it) for it in (
    r"\d{8}-\d\d:\d\d:\d\d\.\d{3} P\d+ (up at [0-9.:]+|[0-9.:]+: [ -~]+; next try in \d+ s)",
    r"\d{8}-\d\d:\d\d:\d\d\.\d{3} P\d+ \d+ orders wait, since \d\d:\d\d:\d\d",
    r"\d{8}-\d\d:\d\d:\d\d\.\d{3} P\d+ (next login in \d+ s|session ended by the market)",
    r"gateway: the day ends: no further link is taken", r"gateway: journal: \S+ (goes on|ends) behind \d+ events",
    r"gateway: journal: \d+ bytes of a write that was cut short are cut off")]
MEMORY = re.compile(r"\d{8}-\d\d:\d\d:\d\d\.\d{3} gateway: (out of memory: events wait|memory is back after \d+\.\d s)")
SETTLES, CLOSES, LEAVES, SHOWS = 90.0, 40.0, 60.0, 15.0


def serve(path, made, *words):
    """The body of a process: what is made runs, and its result is a file."""
    Path(path).write_bytes(pickle.dumps(made(*words).run().result()))


def settings(plan, markets, addresses, control):
    """The gateway's settings file."""
    lines = ['comp = "GATE"', "[day]", "linger = 0", "[control]", f'listen = "127.0.0.1:{control}"']
    for i, it in enumerate(markets):
        lines += ["[[port]]", f'name = "P{i + 1}"', f'address = "127.0.0.1:{it}"',
                  f'user = "{USER.decode()}"', f'password = "{PASSWORD.decode()}"']
    for i, (it, address) in enumerate(zip(plan.clients, addresses)):
        lines += ["[[client]]", f'comp = "C{i + 1}"', f'listen = "127.0.0.1:{address}"', f'port = "P{it.port + 1}"',
                  f'firm = "{it.firm.decode()}"', f'capacity = "{it.capacity.decode()}"',
                  f'customer = "{it.customer.decode()}"']
    return "\n".join(lines) + "\n"


def kind_of(found):
    """What a line says behind its event, where that tells its kind: not the fields of a frame."""
    return "" if found[2].startswith("sent") else found[3] or ""


class Day:
    """The processes of a day, and the folder of its files."""

    def __init__(self, options):
        self.options, self.plan = options, planned(options)
        self.plan.killed = FORK.Value("i", 0)
        self.folder = Path(tempfile.mkdtemp(prefix="stress."))
        self.stage = FORK.Value("i", TRADING)
        self.moods = [FORK.Value("i", 0) for _ in self.plan.clients]
        self.quiet = [FORK.Value("b", False) for _ in self.plan.markets]
        self.complaints, self.processes = [], []
        self.wanted = [HOSTILE.get(it.hostile, b"") for it in self.plan.markets]
        self.refusing = Refusing(self.folder, options.refuse, self.plan.seed) if options.refuse else None
        self.journal, self.settings = Path(self.folder, "journal"), Path(self.folder, "settings")
        self.stopping = Stopping(self.folder, self.journal, self.plan.seed) if options.machine else None
        self.is_served, self.shown = not options.run, None

    def run(self):
        """The report of the day."""
        try:
            self.start()
            self.go()
            return self.report()
        finally:
            self.stop()

    # Processes.

    def start(self):
        markets = [self.start_market(i, plan) for i, plan in enumerate(self.plan.markets)]
        self.control, *addresses = free_addresses(len(self.plan.clients) + 1)
        self.settings.write_text(settings(self.plan, markets, addresses, self.control))
        self.start_gateway()
        for i, (address, plan) in enumerate(zip(addresses, self.plan.clients)):
            may_fault = HOSTILE.get(self.plan.markets[plan.port].hostile, b"") != b""
            self.fork(f"client{i}", Client, i, address, plan, self.plan, self.stage, self.moods[i], may_fault)

    def start_market(self, index, plan):
        """The TCP port that it listens on; no other process holds it."""
        firms = {client.firm.ljust(4) for client in self.plan.clients if client.port == index}
        held = listener()
        self.fork(f"market{index}", Server, index, held, plan, self.plan, firms, self.stage, self.quiet[index])
        address = held.getsockname()[1]
        held.close()
        return address

    def fork(self, name, *words):
        process = FORK.Process(target=serve, args=(Path(self.folder, name), *words), name=name, daemon=True)
        process.start()
        self.processes.append(process)

    def start_gateway(self):
        more = ["--sync", self.options.sync] if self.options.sync else []
        if self.is_served:
            self.begin("serve", *more)
        else:
            self.begin("run", "--links", str(self.plan.links), *more)

    def begin(self, *words):
        """The gateway's process, by these words and the day's settings and journal."""
        words = [self.options.gateway, *words, "--settings", str(self.settings), "--journal", str(self.journal)]
        layers = [it.environment() for it in (self.refusing, self.stopping) if it]
        more = {name: value for it in layers for name, value in it.items()}
        if layers:
            more["LD_PRELOAD"] = ":".join(it["LD_PRELOAD"] for it in layers)
        with open(Path(self.folder, "output"), "wb") as output, open(Path(self.folder, "errors"), "ab") as errors:
            self.gateway = subprocess.Popen(words, stdout=output, stderr=errors, env={**os.environ, **more})
        self.status, self.usage = None, None

    def lose_gateway(self):
        """The gateway is gone at once, or its machine stops."""
        self.audit_so_far("runs")
        self.plan.killed.value += 1
        self.gateway.kill()
        self.gateway.wait()
        if self.stopping:
            self.stopping.stop()
        self.plan.killed.value += 1
        self.audit_so_far("is killed")

    def kill_gateway(self):
        """The gateway is lost, and begun again with the same journal."""
        self.lose_gateway()
        self.start_gateway()

    def audit_so_far(self, when):
        """The audit of the day so far: each order has both accounts the same at any moment."""
        words = [self.options.gateway, "audit", "--so-far", "--journal", str(self.journal), "--settings", str(self.settings)]
        ran = subprocess.run(words, capture_output=True)
        if ran.returncode != 0 or not GOES_ON.fullmatch(ran.stderr) or not ALL_AGREE.fullmatch(ran.stdout):
            self.complaints.append(f"seed {self.plan.seed}: the audit so far, as the gateway {when}: "
                                   f"{ran.returncode} {ran.stderr[:200]!r} {ran.stdout[-200:]!r}")

    def trade(self, seconds):
        """So many seconds of traffic, in which the gateway is killed as often as is asked for."""
        chance, begin = random.Random(f"{self.plan.seed} kills"), time.monotonic()
        for moment in sorted(chance.uniform(0.5, seconds) for _ in range(self.options.kill)):
            self.wait(begin + moment - time.monotonic(), lambda: False)
            if self.poll():
                return
            self.kill_gateway()
        self.wait(begin + seconds - time.monotonic(), lambda: False)

    def end_gateway(self):
        """What a gateway that is served shows is kept, and it is told to end; or, one day in two on which it is killed, it
        is lost once more, and its day ended by its journal."""
        if not self.is_served or self.poll():
            return
        try:
            self.shown = operated.shown(self.control, SHOWS)
        except (OSError, ValueError) as why:
            self.complaints.append(f"seed {self.plan.seed}: the status can't be had: {why}")
        if not self.options.kill or self.plan.seed % 2 == 0:
            words = [self.options.gateway, "end", "--now", "--settings", str(self.settings)]
            subprocess.run(words, capture_output=True)
            return
        self.lose_gateway()
        self.begin("end")

    def poll(self):
        """The gateway's end, once it is there, with what it has used."""
        if self.status is None:
            pid, status, usage = os.wait4(self.gateway.pid, os.WNOHANG)
            if pid:
                self.status, self.usage = os.waitstatus_to_exitcode(status), usage
                self.gateway.returncode = self.status
        return self.status is not None

    def stop(self):
        self.stage.value = OVER
        if not self.poll():
            self.gateway.kill()
        for it in self.processes:
            it.join(2)
            if it.is_alive():
                it.kill()
        if not self.options.keep:
            shutil.rmtree(self.folder)

    # Stages.

    def go(self):
        """From stage to stage: each has its time, and what it has to come to."""
        begin = time.monotonic()
        self.wait(2.0, lambda: False)
        self.switch(True)
        self.trade(self.plan.seconds - 2)
        self.stage.value = SETTLING
        self.need("traffic settles", SETTLES, lambda: self.are_at(SETTLED) and all(it.value for it in self.quiet))
        self.switch(False)
        self.stage.value = CLOSING
        self.need("last orders are filled", CLOSES, lambda: self.are_at(CLOSED))
        self.stage.value = LEAVING
        self.need("all clients leave", LEAVES, lambda: self.are_at(LEFT))
        self.end_gateway()
        self.need("the gateway ends", LEAVES, self.poll)
        self.took = time.monotonic() - begin
        self.stage.value = OVER
        for it in self.processes:
            it.join(10)

    def switch(self, is_on):
        if self.refusing:
            self.refusing.switch(is_on)

    def are_at(self, mood):
        return all(it.value == mood for it in self.moods)

    def wait(self, seconds, holds):
        """Whether it held before so many seconds had passed; not where a process died."""
        end = time.monotonic() + seconds
        while time.monotonic() < end:
            if holds():
                return True
            if self.poll() and self.stage.value < LEAVING:
                return False
            time.sleep(0.05)
        return False

    def need(self, what, seconds, holds):
        if not self.wait(seconds, holds):
            moods, quiet = [it.value for it in self.moods], [it.value for it in self.quiet]
            self.complaints.append(f"seed {self.plan.seed}: not in {seconds:.0f} s: {what}; {moods} {quiet}")

    # Judgement.

    def result(self, name):
        path = Path(self.folder, name)
        if path.exists():
            return pickle.loads(path.read_bytes())
        self.complaints.append(f"seed {self.plan.seed}: {name} left no result")
        return None

    def report(self):
        clients = [self.result(f"client{i}") for i in range(len(self.plan.clients))]
        markets = [self.result(f"market{i}") for i in range(len(self.plan.markets))]
        whole = None not in clients + markets
        clients, markets = [it for it in clients if it], [it for it in markets if it]
        for it in clients + markets:
            self.complaints += it["complaints"]
        output = Path(self.folder, "output").read_bytes()
        if whole:
            self.wanted = [HOSTILE.get(it["hostile"], b"") if it["said"] else b"" for it in markets]
            self.complaints += [f"seed {self.plan.seed}: {it}" for it in compare(clients, markets, output)]
            self.complaints += self.port_states(clients)
            self.complaints += [f"seed {self.plan.seed}: {it}" for it in self.operated(clients, markets, output)]
        if self.status != 0:
            self.complaints.append(f"seed {self.plan.seed}: the gateway's status is {self.status}")
        self.complaints += self.read_again(output)
        return Report(self, clients, markets)

    def operated(self, clients, markets, output):
        """What is wrong of what the gateway shows and tells at the end, and of its journal's messages."""
        if not self.is_served:
            return
        told = operated.last_lines(Path(self.folder, "errors").read_bytes())
        rows = operated.journal_rows(self.options.gateway, Path(self.folder, "journal"))
        yield from operated.compare_last_lines(clients, told)
        yield from operated.compare_journal(clients, rows)
        yield from operated.compare_shown(self.shown, clients, markets, self.wanted, output, told, rows)

    def read_again(self, output):
        """The audit of the day's journal has to be the gateway's own."""
        words = [self.options.gateway, "audit", "--journal", str(self.journal), "--settings", str(self.settings)]
        ran = subprocess.run(words, capture_output=True)
        if ran.returncode != 0 or ran.stdout != output or ran.stderr:
            yield f"seed {self.plan.seed}: the journal's audit is another: {ran.returncode} {ran.stderr[:200]!r}"

    def port_faults(self, faults):
        """Each port that is faulted is told of once, by its fault's number, and no other."""
        states = {f"P{i + 1}": it.decode() for i, it in enumerate(self.wanted)}
        wanted = Counter(each for each in states.items() if each[1].isdigit())
        if faults != wanted:
            self.complaints.append(f"seed {self.plan.seed}: told of port faults {dict(faults)}, not {dict(wanted)}")

    def port_states(self, clients):
        for client, plan in zip(clients, self.plan.clients):
            wanted = self.wanted[plan.port]
            if client["port_state"] != wanted:
                yield f"seed {self.plan.seed}: a port's state is {client['port_state']}, not {wanted}"

    def events(self):
        """The lines on standard error by kind; another line is a complaint."""
        counts, ups, faults, skipped = Counter(), Counter(), Counter(), Counter()
        self.logouts = []
        errors = Path(self.folder, "errors").read_bytes()
        last = set(operated.last_lines(errors).split(b"\n"))
        for line in (it.decode("latin-1") for it in errors.split(b"\n") if it and it not in last):
            if self.refusing and UNSHOWN.fullmatch(line):
                counts["C sent what isn't shown"] += 1
                continue
            if self.refusing and MEMORY.fullmatch(line):
                counts["of memory"] += 1
                continue
            if why := WHY.fullmatch(line):
                counts[f"{why[1]} {why[2]}"] += 1
                continue
            if skips := SKIPPED.fullmatch(line):
                counts["C skipped"] += 1
                skipped[skips[1], ups[skips[1]]] = int(skips[2])
                continue
            if up := UP.fullmatch(line):
                counts["C up"] += 1
                ups[up[1]] += 1
                continue
            if self.is_served and any(it.fullmatch(line) for it in SERVED):
                counts["of a gateway that is served"] += 1
                continue
            found = EVENT.fullmatch(line)
            counts[f"{found[1][0]} {found[2]}{kind_of(found)}" if found else "unforeseen"] += 1
            if not found:
                self.complaints.append(f"seed {self.plan.seed}: on standard error: {line[:300]}")
            elif found[2] == "up":
                ups[found[1]] += 1
            elif found[2] == "sent 35=5":
                self.logouts.append((found[1], found[3].rpartition("|58=")[2]))
            elif found[2].startswith("port fault"):
                faults[found[1], found[2][-1:]] += 1
        counts["bytes skipped"] = sum(skipped.values())
        if not self.options.kill:
            self.port_faults(faults)
        for name, count in ups.items():
            if not self.is_served and (count > self.plan.links or name[0] == "C" and count < self.plan.links):
                self.complaints.append(f"seed {self.plan.seed}: {name} had {count} links of {self.plan.links}")
        return counts


class Report:
    """What is printed of a day."""

    def __init__(self, day, clients, markets):
        self.events = day.events()
        self.day, self.clients, self.markets = day, clients, markets
        self.complaints = day.complaints
        self.skipped()
        for number, client in enumerate(clients, 1):
            self.unread_logouts(f"C{number}", client["unread_logouts"])

    def unread_logouts(self, name, texts):
        """What a client couldn't read, since its link was reset, was sent, or isn't shown for want of memory."""
        for text in texts:
            sent = [it for it in self.day.logouts if it[0] == name and it[1].startswith(text)]
            if sent:
                self.day.logouts.remove(sent[0])
            elif not self.events["C sent what isn't shown"]:
                self.complaints.append(f"seed {self.day.plan.seed}: {name} wasn't sent a Logout: {text}")

    def skipped(self):
        """Bytes that are no frame are told of, and no others."""
        garbage, skipped = self.sum(self.clients, "session")["bytes of garbage"], self.events["bytes skipped"]
        if skipped > garbage or garbage > 5_000 and not skipped:
            self.complaints.append(f"seed {self.day.plan.seed}: {skipped} bytes told as skipped, of {garbage} of garbage")

    def is_right(self):
        return not self.complaints

    def sum(self, which, key):
        return sum((it[key] for it in which), Counter())

    def totals(self):
        """What is summed up over days."""
        session, client = self.sum(self.clients, "session"), self.sum(self.clients, "counts")
        market, refused = self.sum(self.markets, "counts"), self.day.refusing.counted()[0] if self.day.refusing else 0
        return Counter({
            "orders": sum(len(it["orders"]) for it in self.clients),
            "frames to": session["frames sent"], "frames from": session["frames received"],
            "asked of markets": sum(count for name, count in market.items() if len(name) == 7 and name[:6] == "asked "),
            "said by markets": sum(count for name, count in market.items() if name.startswith("said ")),
            "client links lost": client["links cut"] + client["links that the gateway closed"],
            "port links cut": market["links cut"], "bytes of garbage": session["bytes of garbage"],
            "stalls": client["stalls"], "hostile ports": sum(it["said"] for it in self.markets),
            "refused requests": refused,
            "stops that lost bytes": self.day.stopping.losses if self.day.stopping else 0,
            "bytes lost": self.day.stopping.lost if self.day.stopping else 0})

    def lines(self):
        plan, usage = self.day.plan, self.day.usage
        hostile = "".join(it.hostile for it in plan.markets) or "none"
        yield (f"seed {plan.seed}: {len(plan.clients)} clients, {len(plan.markets)} ports, {plan.links} links each"
               f"{'' if self.day.is_served else ' and no more'}, "
               f"hostile {hostile}, {getattr(self.day, 'took', 0):.0f} s")
        yield f"  {show(self.totals())}"
        if usage:
            seconds, size, orders = usage.ru_utime + usage.ru_stime, usage.ru_maxrss * 1024, self.totals()["orders"]
            yield (f"  gateway: {seconds:.2f} s of a processor, {1e6 * seconds / max(1, orders):.0f} us an order; "
                   f"{size >> 20} MB at most, {size // max(1, orders)} bytes an order")
        if self.day.options.details or self.complaints:
            yield from self.details()
        yield from (f"  WRONG {it}" for it in self.complaints[:self.day.options.show])
        yield f"  {len(self.complaints)} complaints" if self.complaints else "  nothing is wrong"

    def details(self):
        yield f"  told: {show(self.sum(self.clients, 'told'))}"
        yield f"  sessions: {show(self.sum(self.clients, 'session'))}"
        yield (f"  clients: {show(self.sum(self.clients, 'counts'))}; silent beyond 108 for "
               f"{max((it['silence'] for it in self.clients), default=0):.1f} s at most")
        yield f"  markets: {show(self.sum(self.markets, 'counts'))}"
        yield f"  standard error: {show(self.events)}"
        if self.day.refusing:
            yield "  memory: refused {} of {} requests".format(*self.day.refusing.counted())
        if self.day.stopping:
            it = self.day.stopping
            yield f"  machine: {it.stops} stops, {it.losses} of them lost {it.lost} bytes that weren't synced"


def show(counts):
    return ", ".join(f"{name} {count}" for name, count in sorted(counts.items()) if count)
