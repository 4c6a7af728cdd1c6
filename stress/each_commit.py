"""`python3 -m stress.each_commit GATEWAY`: a day's journal, cut at each byte of its last commits, and a day each of whose
writes and syncs fails once.

First a gateway with a journal is killed behind some orders. The file is then cut at each byte of its last two pages:
each beginning is ended by `gateway end`, which steps it again, cuts off what is torn, and gives the audit of just the
pages that are whole; some of the last page go on, and fill an order more.

Then the same day is begun anew with the first write of the journal failing, with the second, and so on, with nothing
of it or a half of it written, and likewise with each sync, until a day has no call that fails. Each time nobody may be
told anything that its journal, ended then, doesn't have; the file isn't written again, and synced at most once, before
it is read at the day's end; status 1, and a line, also where it is the day's end that can't be written.

What is wrong is printed; the status is 0 where nothing is."""
import os
import subprocess
import sys
import tempfile
import time
from pathlib import Path

from . import ouch
from .refusing import compiler
from .served_day import Client, Market
from .stopped_day import StoppedDay

# one call on the journal fails: that is noted in the file EACH_NOTE, and so is each one behind it
FAILING = r"""
#define _GNU_SOURCE
#include <dlfcn.h>
#include <errno.h>
#include <fcntl.h>
#include <stdlib.h>
#include <string.h>
#include <sys/stat.h>
#include <unistd.h>

static int calls, is_noted;

static int is_journal(int fd) {
    struct stat it, named;
    const char *journal = getenv("EACH_JOURNAL");
    return journal != NULL && fstat(fd, &it) == 0 && stat(journal, &named) == 0 && it.st_dev == named.st_dev
        && it.st_ino == named.st_ino;
}

static void note(char what) {
    int fd = open(getenv("EACH_NOTE"), O_WRONLY | O_APPEND | O_CREAT | O_CLOEXEC, 0600);
    ssize_t (*real)(int, const void *, size_t) = (ssize_t (*)(int, const void *, size_t))dlsym(RTLD_NEXT, "write");
    real(fd, &what, 1);
    close(fd);
}

// whether this call of the kind is the one that fails
static int fails(const char *kind) {
    if (is_noted) {
        note(kind[0]);
    }
    if (strcmp(getenv("EACH_KIND"), kind) != 0 || ++calls != atoi(getenv("EACH_CALL"))) {
        return 0;
    }
    is_noted = 1;
    note('f');
    return 1;
}

ssize_t write(int fd, const void *bytes, size_t count) {
    ssize_t (*real)(int, const void *, size_t) = (ssize_t (*)(int, const void *, size_t))dlsym(RTLD_NEXT, "write");
    if (is_journal(fd) && fails("write")) {
        if (atoi(getenv("EACH_PART"))) {
            real(fd, bytes, count / 2);
        }
        errno = EIO;
        return -1;
    }
    return real(fd, bytes, count);
}

static int synced(int fd, const char *name) {
    int (*real)(int) = (int (*)(int))dlsym(RTLD_NEXT, name);
    if (is_journal(fd) && fails("sync")) {
        errno = EIO;
        return -1;
    }
    return real(fd);
}

int fsync(int fd) { return synced(fd, "fsync"); }
int fdatasync(int fd) { return synced(fd, "fdatasync"); }
"""
LOST, LACKS = "journal: write failed: nothing more is told", "gateway: journal: it doesn't have the day"
# of the beginnings of a file so many go on
GOING_ON = 12
MOST_CALLS = 200


def pages_of(file):
    """Where each page of a journal begins, and the file ends: a length and a sum stand before each, eight bytes both."""
    places = [0]
    while places[-1] < len(file):
        places.append(places[-1] + 16 + int.from_bytes(file[places[-1]:places[-1] + 8], "big"))
    return places


class Remembering(Market):
    """Takes a token once, as a market does; it may begin behind what another one said and took."""

    def __init__(self, address, other=None):
        super().__init__(address)
        self.tokens = set()
        if other is not None:
            self.said, self.reference, self.tokens = list(other.said), other.reference, set(other.tokens)

    def answer(self, payload):
        token = ouch.asked(payload).token
        if token not in self.tokens:
            self.tokens.add(token)
            super().answer(payload)


class EachCommit(StoppedDay):
    """A day of few orders, again and again."""

    def __init__(self, gateway, folder):
        super().__init__(gateway, folder)
        self.market = Remembering(self.at["market"])

    def anew(self, name, other=None):
        """A journal of its own, and a market day of its own, or behind that of another market."""
        self.market.end()
        self.market = Remembering(self.at["market"], other)
        self.market.begin()
        self.journal = self.folder / name

    def ended(self, beginning):
        """What `gateway end` makes of the beginning of a file: its status, audit and standard error."""
        self.journal.write_bytes(beginning)
        ran = self.of_journal("end")
        return ran.returncode, ran.stdout, ran.stderr

    def goes_on(self, beginning, number, market):
        """Whether a beginning of a file goes on, behind such a market's day, and an order is filled then."""
        self.anew(f"on-{number}", market)
        self.journal.write_bytes(beginning)
        name = b"N%d" % number
        is_up = self.begin() and self.bank.log_on((141, b"Y")) is not None
        is_filled = is_up and self.trade(name)
        self.kill()
        ran = self.of_journal("end")
        return is_filled and ran.returncode == 0 and name.decode() in ran.stdout

    def cut_at_each_byte(self):
        self.market.begin()
        self.begin()
        self.bank.log_on()
        is_traded = all(self.trade(b"A%d" % number) for number in range(4)) and self.trade(b"A9", b"1")
        self.is_so("orders are filled, and one is open", is_traded)
        self.kill()
        file = self.journal.read_bytes()
        places = pages_of(file)
        self.is_so(f"the file ends with a page: {len(file)} bytes in {len(places) - 1} pages", places[-1] == len(file))
        first, audits, wrong = places[-3], {}, []
        for size in range(first, len(file) + 1):
            whole = max(place for place in places if place <= size)
            status, audit, errors = self.ended(file[:size])
            torn = f": {size - whole} bytes of a write that was cut short are cut off\n"
            is_right = status == 0 and audits.setdefault(whole, audit) == audit
            is_right = is_right and (torn in errors if size > whole else "cut short" not in errors)
            if not is_right:
                wrong.append(size)
        self.is_so(f"{len(file) + 1 - first} beginnings end as their whole pages do, {wrong[:5]} don't", not wrong)
        self.is_so("and the last has all orders", audits[places[-1]].endswith("orders 5 agree 5\n"))
        step = max(1, (len(file) - places[-2]) // (GOING_ON - 1))
        sizes, market = [*range(places[-2], len(file), step)][:GOING_ON - 1] + [len(file)], self.market
        wrong = [size for number, size in enumerate(sizes) if not self.goes_on(file[:size], number, market)]
        self.is_so(f"{len(sizes)} of them go on, and fill an order more, {wrong[:5]} don't", not wrong)

    def told_of(self):
        """What a client was told of its orders: each that it knows of, and each that was filled."""
        reports = [frame for frame in self.bank.frames if frame.kind == b"8"] if self.bank is not None else []
        return {frame[11] for frame in reports}, {frame[11] for frame in reports if frame[150] == b"F"}

    def fails_at(self, kind, call, part, library):
        """A day on which one call fails: whether one did, and what was wrong then."""
        self.anew(f"{kind}-{call}-{part}")
        note = self.folder / "note"
        note.write_bytes(b"")
        words = {"EACH_JOURNAL": self.journal, "EACH_NOTE": note, "EACH_KIND": kind, "EACH_CALL": call,
                 "EACH_PART": int(part), "LD_PRELOAD": library}
        os.environ.update({name: str(word) for name, word in words.items()})
        self.running, self.bank = self.start("--journal", str(self.journal)), None
        for name in words:
            del os.environ[name]
        try:
            self.play()
        except OSError:
            pass
        if not note.read_bytes():
            self.end("--now")
        status, noted = self.running.wait(20), note.read_bytes()
        if not noted:
            return False, [] if status == 0 else ["a day without a failure ends with another status"]
        errors = self.errors.read_text()
        wrong = [] if status == 1 and (LOST in errors or LACKS in errors) else [f"status {status}, {errors}"]
        wrong += ["it is tried again: " + noted.decode()] if noted not in (b"f", b"fs") else []
        ran = self.of_journal("end")
        if ran.stderr.endswith(": the day is over\n"):
            ran = self.of_journal("audit")
        named, filled = self.told_of()
        orders = {line.split()[1].encode(): line.split()[5] for line in ran.stdout.splitlines()[:-1]}
        wrong += [f"ended with status {ran.returncode}: {ran.stderr}"] if ran.returncode != 0 else []
        wrong += [f"{name} was told and isn't there" for name in named if name not in orders]
        wrong += [f"a fill of {name} was told and isn't there" for name in filled if orders.get(name) != "100"]
        wrong += ["the market was asked more than is there"] if self.market.reference > len(orders) else []
        return True, wrong

    def play(self):
        """A client logs on, and sends two orders, as far as it gets."""
        for _ in range(200):
            if self.running.poll() is not None:
                return
            try:
                self.bank = Client(b"BANK", self.at["bank"])
                break
            except OSError:
                time.sleep(0.01)
        if self.bank is None or self.bank.log_on() is None:
            return
        for name in (b"F1", b"F2"):
            self.bank.order(name)
            end = time.monotonic() + 5
            while self.bank.told(name, b"F", 0.05) is None and time.monotonic() < end:
                if self.running.poll() is not None or LOST in self.errors.read_text():
                    self.bank.told(name, b"F", 0.3)
                    return

    def each_call_fails(self):
        source, library = self.folder / "each.c", self.folder / "each.so"
        source.write_text(FAILING)
        subprocess.run([compiler(), "-O2", "-shared", "-fPIC", "-o", str(library), str(source), "-ldl"], check=True)
        for kind, part in (("write", False), ("write", True), ("sync", False)):
            what = f"{kind} that fails" + (", half of it written" if part else "")
            for call in range(1, MOST_CALLS):
                has_failed, wrong = self.fails_at(kind, call, part, library)
                if wrong:
                    self.is_so(f"{what}, call {call}: {'; '.join(wrong)}", False)
                if not has_failed:
                    break
            self.is_so(f"a {what}, at each of {call - 1} calls of a day: nobody knows what its journal hasn't",
                       1 < call < MOST_CALLS - 1)

    def run(self):
        self.cut_at_each_byte()
        self.each_call_fails()
        self.market.end()
        print("all is right" if self.wrong == 0 else f"{self.wrong} wrong")
        return 1 if self.wrong else 0


def main():
    with tempfile.TemporaryDirectory() as folder:
        day = EachCommit(sys.argv[1], folder)
        try:
            return day.run()
        finally:
            if getattr(day, "running", None) is not None and day.running.poll() is None:
                day.running.kill()


if __name__ == "__main__":
    sys.exit(main())
