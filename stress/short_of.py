"""`python3 -m stress.short_of GATEWAY`: a gateway that the system refuses something, step by step.

Memory, descriptors and room in a file are refused to `gateway serve`, and the journal's file is removed in mid-day. Each
step prints what came; the status is 0 where all came that has to."""
import os
import resource
import signal
import subprocess
import sys
import tempfile
import time

from .link import free_addresses, listener
from .served_day import Client, Day


def held_by(gateway):
    """The address space that a process has, in bytes."""
    with open(f"/proc/{gateway.pid}/statm", encoding="ascii") as file:
        return int(file.read().split()[0]) * resource.getpagesize()


class ShortDay(Day):
    """A day on which something runs short."""

    def begin(self, *more):
        self.market.begin()
        gateway = self.start(*more)
        self.is_so("the market's port is up", self.says("P1 up at "))
        return gateway

    def log_on(self):
        client = Client(b"BANK", self.at["bank"])
        self.is_so("a client logs on", client.log_on() is not None)
        return client

    def is_filled(self, client, name, seconds=20):
        client.order(name)
        return client.told(name, b"F", seconds) is not None

    def ends_well(self, gateway, orders):
        ran = self.end("--now")
        self.is_so(f"it ends with status {gateway.wait(20)}, asked with {ran.returncode}",
                   (gateway.returncode, ran.returncode) == (0, 0))
        self.is_so("all orders agree", self.output.read_text().endswith(f"orders {orders} agree {orders}\n"))
        self.market.end()

    def memory(self):
        """Its address space may grow by 8 MB, and then as it likes again."""
        gateway = self.begin()
        bank = self.log_on()
        self.is_so("an order is filled", self.is_filled(bank, b"M0"))
        resource.prlimit(gateway.pid, resource.RLIMIT_AS, (held_by(gateway) + 8_000_000, resource.RLIM_INFINITY))
        sent, begin = 0, time.monotonic()
        while "gateway: out of memory: events wait" not in self.errors.read_text() and time.monotonic() < begin + 60:
            for _ in range(100):
                sent += 1
                bank.order(b"N%d" % sent)
            bank.wait(lambda frame: False, 0.01)
        self.is_so(f"that memory runs out is told, behind {sent} orders", self.says("gateway: out of memory: events wait"))
        resource.prlimit(gateway.pid, resource.RLIMIT_AS, (resource.RLIM_INFINITY, resource.RLIM_INFINITY))
        self.is_so("that it is back is told", self.says("gateway: memory is back after "))
        self.is_so("each order is filled then",
                   bank.told(b"N%d" % sent, b"F", 60) is not None and self.is_filled(bank, b"M1"))
        self.ends_well(gateway, sent + 2)

    def descriptors(self):
        """It may open no file more, and somebody connects."""
        gateway = self.begin()
        bank = self.log_on()
        most = max(int(number) for number in os.listdir(f"/proc/{gateway.pid}/fd")) + 1
        resource.prlimit(gateway.pid, resource.RLIMIT_NOFILE, (most, 4096))
        kept = Client(b"FUND", self.at["fund"], "127.0.0.2")
        self.is_so("why nobody is let in is told", self.says("C2 cannot accept: Too many open files (os error 24)"))
        self.is_so("an order is filled meanwhile", self.is_filled(bank, b"D0"))
        self.is_so("it is told once", self.errors.read_text().count("cannot accept") == 1)
        resource.prlimit(gateway.pid, resource.RLIMIT_NOFILE, (most + 8, 4096))
        kept.stream.close()
        fund = Client(b"FUND", self.at["fund"], "127.0.0.2")
        self.is_so("a client logs on once there are descriptors again", fund.log_on() is not None)
        self.is_so("the gateway serves on", gateway.poll() is None and self.is_filled(fund, b"D1"))
        self.ends_well(gateway, 2)

    def room_in_a_file(self):
        """Its files may have 64 KB, as by `ulimit -f`; then it is started again without."""
        gateway = self.begin("--journal", str(self.journal))
        bank = self.log_on()
        resource.prlimit(gateway.pid, resource.RLIMIT_FSIZE, (65_536, resource.RLIM_INFINITY))
        sent = 0
        while gateway.poll() is None and sent < 1000:
            sent += 1
            try:
                bank.order(b"F%d" % sent)
            except OSError:
                break
            time.sleep(0.005)
        status = gateway.wait(20)
        bank.wait(lambda frame: False, 0.5)
        filled = {frame[11] for frame in bank.frames if frame.kind == b"8" and frame[150] == b"F"}
        self.is_so(f"a file that may not grow ends the gateway: status {status}", status in (1, -signal.SIGXFSZ))
        again = self.start("--journal", str(self.journal))
        self.is_so("started again it goes on with the day", self.says(" goes on behind ", 20) and self.says("P1 up at ", 20))
        bank.stream.close()
        ran = self.end("--now")
        again.wait(20)
        audit = self.output.read_text()
        told = [line for line in audit.splitlines() if line.startswith("C1 ") and " executed 100 " in line]
        names = {line.split()[1].encode() for line in told}
        self.is_so(f"nothing that was told is forgotten: {len(filled)} fills",
                   len(filled) > 5 and filled <= names and (ran.returncode, again.returncode) == (0, 0))
        self.market.end()

    def a_removed_file(self):
        """The journal's file is removed in mid-day."""
        self.journal.unlink(missing_ok=True)
        gateway = self.begin("--journal", str(self.journal))
        bank = self.log_on()
        self.is_so("an order is filled", self.is_filled(bank, b"R0"))
        self.journal.unlink()
        self.is_so("an order is filled without the file", self.is_filled(bank, b"R1"))
        self.end("--now")
        status = gateway.wait(20)
        last = self.errors.read_text().splitlines()[-3:]
        self.is_so(f"the day's end says so: status {status}, {last}", status != 0 and "journal" in " ".join(last))
        self.market.end()


def main():
    wrong = 0
    for step in (ShortDay.memory, ShortDay.descriptors, ShortDay.room_in_a_file, ShortDay.a_removed_file):
        with tempfile.TemporaryDirectory() as folder:
            day = ShortDay(sys.argv[1], folder)
            print(step.__doc__ or step.__name__)
            step(day)
            wrong += day.wrong
    print("all right" if wrong == 0 else f"{wrong} wrong")
    return 1 if wrong else 0


if __name__ == "__main__":
    sys.exit(main())
