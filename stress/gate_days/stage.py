"""What a step has: a gateway, addresses of its own, a folder, and what it found wrong."""
import os
import socket
import subprocess
import threading
import time
from pathlib import Path

from .peers import PATIENCE, Client, Market, holds_within

TOKEN = "0123456789abcdef"
PORT = '[[port]]\nname = "P{0}"\naddress = "{1}:{2}"\nuser = "USER{0:02}"\npassword = "PASSWORD"\n'
CLIENT = ('[[client]]\ncomp = "C{0}"\nlisten = "{1}:{2}"\nport = "P{3}"\nfirm = "FIRM"\ncapacity = "A"\n'
          'customer = "R"\n')


class Addresses:
    """TCP ports of an address of loopback that is this process's own: nobody else listens or connects from there."""

    def __init__(self):
        number = os.getpid()
        self.host = f"127.{64 + (number >> 16) % 64}.{(number >> 8) % 256}.{number % 256}"
        self.next, self.lock = 20_000, threading.Lock()

    def free(self, count):
        with self.lock:
            found = []
            while len(found) < count:
                self.next += 1
                if self.is_free(self.next):
                    found.append(self.next)
            return found

    def is_free(self, address):
        with socket.socket() as it:
            try:
                it.bind((self.host, address))
            except OSError:
                return False
        return True


class Gateway:
    """A gateway that runs, with what it has told."""

    def __init__(self, words, folder, errors=None):
        self.output, self.errors = folder / "output", folder / "errors"
        with self.output.open("w") as output, self.errors.open("w") as told:
            self.process = subprocess.Popen(words, stdout=output, stderr=errors or told)

    def lines(self):
        """Its lines on standard error, without their moments."""
        told = self.errors.read_text().splitlines()
        return [line[22:] if line[8:9] == "-" else line for line in told]

    def says(self, text, seconds=PATIENCE):
        """Whether standard error has this text, now or within so many seconds."""
        return holds_within(lambda: text in self.errors.read_text(), seconds)

    def status(self, seconds=PATIENCE):
        """The status with which it ends; None where it doesn't."""
        try:
            return self.process.wait(seconds)
        except subprocess.TimeoutExpired:
            return None


class Wrong(Exception):
    """What was wanted, and what came: a step ends at the first of these."""


class LeftOut(Exception):
    """What the machine refuses that a step needs: the step can't be made there, and says so."""


class Stage:
    """A step's gateway, clients and markets."""

    def __init__(self, program, addresses, folder):
        self.program, self.addresses, self.folder = program, addresses, Path(folder)
        self.host, self.gateways, self.markets = addresses.host, [], []
        self.settings = self.folder / "settings.toml"

    def same(self, what, wanted, came):
        """What came is what was wanted."""
        if wanted != came:
            raise Wrong(f"{what}: wanted {wanted!r}, came {came!r}")

    def holds(self, what, is_so, came=""):
        """This is so."""
        if not is_so:
            raise Wrong(f"{what}: it isn't so{came and ', came '}{came}")

    def within(self, what, least, came, most):
        """What came lies between these two."""
        if came is None or not least <= came <= most:
            raise Wrong(f"{what}: wanted {least} to {most}, came {came}")

    def set_up(self, clients, ports=1, control=True, interval=30):
        """Settings of so many clients and ports, the clients in equal parts, or one for each of the first ports, with a
        control endpoint where one is wanted: the clients, which aren't connected yet, and the ports' addresses, at which
        nobody listens."""
        listens, markets, (at,) = self.addresses.free(clients), self.addresses.free(ports), self.addresses.free(1)
        text = 'comp = "GATE"\n'
        if control:
            text += f'[day]\nlinger = 2\n[control]\nlisten = "{self.host}:{at}"\ntoken = "{TOKEN}"\n'
        text += "".join(PORT.format(n + 1, self.host, it) for n, it in enumerate(markets))
        each = max(1, clients // ports)
        text += "".join(CLIENT.format(n + 1, self.host, it, n // each + 1) for n, it in enumerate(listens))
        self.settings.write_text(text)
        return [Client(b"C%d" % (n + 1), self.host, it, interval) for n, it in enumerate(listens)], markets

    def market(self, address, **more):
        it = Market(self.host, address, **more)
        self.markets.append(it)
        return it

    def gateway(self, *words, errors=None, before=()):
        """A gateway by the settings that starts now: `serve`, or `run` with its words; with words before it that set
        something and then run what is behind them."""
        words = [*before, self.program, *words, "--settings", str(self.settings)]
        self.gateways.append(Gateway(words, self.folder, errors))
        return self.gateways[-1]

    def asked(self, *words):
        """What a command comes to that ends by itself: status, standard output and standard error."""
        ran = subprocess.run([self.program, *words], capture_output=True, text=True, cwd=self.folder, timeout=PATIENCE,
                             check=False)
        return ran.returncode, ran.stdout, ran.stderr

    def end(self, gateway, *words):
        """Ends a gateway that is served: the status of `gateway end`, and its own."""
        return self.asked("end", "--settings", str(self.settings), *words)[0], gateway.status()

    def clear(self):
        """Nothing that the step started runs any more."""
        for gateway in self.gateways:
            if gateway.process.poll() is None:
                gateway.process.kill()
                gateway.process.wait()
        for market in self.markets:
            market.is_over = True

    def told(self):
        """The last lines that gateways told, for whoever looks for what is wrong."""
        return [line for gateway in self.gateways for line in gateway.lines()[-8:]]


def behind(command):
    """Words that have a shell do this before it is what the words behind them say."""
    return ["sh", "-c", f'{command} && exec "$@"', "sh"]


def since(moment):
    """The seconds since a moment."""
    return time.monotonic() - moment
