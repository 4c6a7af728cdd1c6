"""`python3 -m stress.stopped_day GATEWAY`: a day whose gateway is killed, as an operator sees it, step by step.

A gateway with a journal is looked at while it runs, is killed, goes on, is killed again, and its day is ended by its
journal. Then what is refused, and a journal that is synced later, also where that fails. Each step prints what came;
the status is 0 where all came that has to."""
import os
import shutil
import subprocess
import sys
import tempfile
import time
from pathlib import Path

from .refusing import compiler
from .served_day import Client, Day, Market

# fails each sync of a file's data from the twelfth one on
FAILING = """
#define _GNU_SOURCE
#include <dlfcn.h>
#include <errno.h>
static int calls;
int fdatasync(int fd) {
    int (*real)(int) = (int (*)(int))dlsym(RTLD_NEXT, "fdatasync");
    if (++calls < 12) {
        return real(fd);
    }
    errno = EIO;
    return -1;
}
"""
GOES_ON = "the day goes on: its file has no end\n"


class StoppedDay(Day):
    """The steps of such days."""

    def of_journal(self, *words):
        return subprocess.run([self.gateway, *words, "--journal", str(self.journal), "--settings", str(self.settings)],
                              capture_output=True, text=True)

    def begin(self, *more):
        """A gateway with a journal, a market, and a client that is logged on."""
        self.running = self.start("--journal", str(self.journal), *more)
        self.bank = None
        for _ in range(200):
            try:
                self.bank = Client(b"BANK", self.at["bank"])
                break
            except OSError:
                time.sleep(0.02)
        return self.bank is not None

    def trade(self, name, *price):
        self.bank.order(name, *price)
        return self.bank.told(name, b"0" if price else b"F", 10) is not None

    def kill(self):
        self.running.kill()
        self.running.wait()
        self.bank.stream.close()

    def a_day_that_runs(self):
        self.market = Market(self.at["market"])
        self.market.begin()
        self.is_so("a client logs on", self.begin() and self.bank.log_on() is not None)
        self.is_so("an order is filled, another is open", self.trade(b"A1") and self.trade(b"A2", b"1"))
        ran = self.of_journal("audit", "--so-far")
        self.is_so("audit --so-far has both while it runs: " + ran.stderr.strip(),
                   ran.returncode == 0 and ran.stdout.endswith("orders 2 agree 2\n") and "the day goes on" in ran.stderr)
        ran = self.of_journal("audit")
        self.is_so("audit without --so-far refuses it", (ran.returncode, ran.stdout) == (2, ""))
        ran = self.of_journal("end")
        self.is_so("end --journal refuses it: " + ran.stderr.strip(),
                   (ran.returncode, ran.stdout) == (2, "") and ran.stderr.endswith(": in use\n"))

    def a_day_that_was_killed(self):
        self.kill()
        ran = self.of_journal("audit", "--so-far")
        self.is_so("audit --so-far has both once it is killed",
                   (ran.returncode, ran.stdout[-17:], ran.stderr) == (0, "orders 2 agree 2\n", GOES_ON))
        with self.journal.open("ab") as file:
            file.write(b"\0\0\0\0\0\0\1\0 a part")
        ran = self.of_journal("audit", "--so-far")
        self.is_so("a torn end is told with its length: " + ran.stderr.strip(), ran.returncode == 0
                   and ran.stdout.endswith("orders 2 agree 2\n") and "ends with 15 bytes of a write" in ran.stderr)
        shutil.copy(self.journal, self.folder / "copy")

    def its_end(self):
        before = self.settings.read_text()
        self.settings.write_text(before.replace('firm = "FIRM"', 'firm = "ELSE"'))
        ran = self.of_journal("end")
        self.is_so("with other settings it isn't ended: " + ran.stderr.strip().splitlines()[-1],
                   (ran.returncode, ran.stdout) == (2, "") and "isn't what these settings give" in ran.stderr)
        self.settings.write_text(before)
        ran = self.of_journal("end")
        self.is_so("end --journal ends it, and has its audit",
                   ran.returncode == 0 and ran.stdout.endswith("orders 2 agree 2\n"))
        self.is_so("and names the open order", "A2 of BANK: 100 of 100 open at the market\n" in ran.stderr
                   and "1 orders are open at the market, 0 weren't answered" in ran.stderr)
        self.is_so("and says behind how many events", " ends behind " in ran.stderr)
        audit = self.of_journal("audit")
        self.is_so("the journal is over, with the same audit",
                   (audit.returncode, audit.stdout, audit.stderr) == (0, ran.stdout, ""))
        audit = self.of_journal("audit", "--so-far")
        self.is_so("so far it has it, too", (audit.returncode, audit.stdout, audit.stderr) == (0, ran.stdout, ""))
        again = self.of_journal("end")
        self.is_so("it can't be ended again: " + again.stderr.strip(),
                   (again.returncode, again.stdout) == (2, "") and "the day is over" in again.stderr)

    def a_day_that_goes_on(self):
        """The copy goes on, with the torn end, and is ended then."""
        shutil.copy(self.folder / "copy", self.journal)
        self.begin()
        self.bank.sent = 3
        self.is_so("what was killed goes on, and takes an order", self.bank.log_on() is not None and self.trade(b"A3"))
        self.kill()
        ran = self.of_journal("end")
        self.is_so("its day ends with all orders", ran.returncode == 0 and ran.stdout.endswith("orders 3 agree 3\n"))

    def what_is_refused(self):
        self.journal = self.folder / "none.day"
        ran = self.of_journal("end")
        self.is_so("a journal that isn't there: " + ran.stderr.strip(),
                   ran.returncode == 2 and ran.stderr.endswith(": no such file\n") and not self.journal.exists())
        self.journal.write_bytes(b"no journal at all, but long enough to be one of none")
        ran = self.of_journal("audit", "--so-far")
        self.is_so("bytes that are a torn end alone: " + ran.stderr.strip(), ran.returncode == 0)
        damaged = bytearray((self.folder / "copy").read_bytes())
        damaged[40] ^= 1
        self.journal.write_bytes(damaged)
        ran, far = self.of_journal("end"), self.of_journal("audit", "--so-far")
        self.is_so("a damaged one: " + ran.stderr.strip(), (ran.returncode, far.returncode, far.stdout) == (2, 2, "")
                   and "page 0: sum" in ran.stderr and far.stderr == "page 0: sum\n")
        self.journal.unlink()
        for words, why in ((("--sync", "100"), "--sync is each, never, or milliseconds from 1ms to 60000ms"),
                           (("--sync", "0ms"), "--sync is each"), (("--sync", "60001ms"), "--sync is each")):
            ran = self.of_journal("run", *words)
            self.is_so(f"{' '.join(words)}: {ran.stderr.strip()}", ran.returncode == 2 and why in ran.stderr
                       and not self.journal.exists())
        ran = subprocess.run([self.gateway, "run", "--settings", str(self.settings), "--sync", "never"],
                             capture_output=True, text=True)
        self.is_so("--sync without a journal: " + ran.stderr.strip(), ran.returncode == 2)

    def another_market(self):
        """A market day of its own, for a journal of its own."""
        self.market.end()
        self.market = Market(self.at["market"])
        self.market.begin()

    def syncs_later(self):
        for sync in ("50ms", "never"):
            self.another_market()
            self.journal = self.folder / f"{sync}.day"
            self.is_so(f"--sync {sync}: an order is filled",
                       self.begin("--sync", sync) and self.bank.log_on() is not None and self.trade(b"S1"))
            self.kill()
            self.begin("--sync", sync)
            self.bank.sent = 2
            self.is_so(f"--sync {sync}: killed, it goes on", self.bank.log_on() is not None and self.trade(b"S2"))
            self.end("--now")
            self.is_so(f"--sync {sync}: its day ends", self.running.wait(20) == 0
                       and self.output.read_text().endswith("orders 2 agree 2\n"))

    def a_later_sync_fails(self):
        source, library = self.folder / "failing.c", self.folder / "failing.so"
        source.write_text(FAILING)
        subprocess.run([compiler(), "-O2", "-shared", "-fPIC", "-o", str(library), str(source), "-ldl"], check=True)
        self.another_market()
        self.journal = self.folder / "failing.day"
        os.environ["LD_PRELOAD"] = str(library)
        is_there = self.begin("--sync", "200ms")
        del os.environ["LD_PRELOAD"]
        self.is_so("a client logs on before a later sync fails", is_there and self.bank.log_on() is not None)
        told = self.says("journal: write failed: nothing more is told")
        try:
            self.bank.order(b"L1")
            is_told = self.bank.told(b"L1", b"A", 1) is not None
        except OSError:
            is_told = False
        self.is_so("a later sync that fails is told, and nobody is told anything", told and not is_told)
        self.is_so("the gateway ends by itself, with status 1", self.running.wait(20) == 1)
        ran = self.of_journal("end")
        self.is_so("its day ends by its journal", ran.returncode == 0 and ran.stdout == "orders 0 agree 0\n")
        self.market.end()

    def run(self):
        for step in (self.a_day_that_runs, self.a_day_that_was_killed, self.its_end, self.a_day_that_goes_on,
                     self.what_is_refused, self.syncs_later, self.a_later_sync_fails):
            step()
        print("all is right" if self.wrong == 0 else f"{self.wrong} wrong")
        return 1 if self.wrong else 0


def main():
    with tempfile.TemporaryDirectory() as folder:
        day = StoppedDay(sys.argv[1], folder)
        try:
            return day.run()
        finally:
            running = getattr(day, "running", None)
            if running and running.poll() is None:
                running.kill()
            if day.wrong:
                print(Path(folder, "errors").read_text()[-3000:])


if __name__ == "__main__":
    sys.exit(main())
