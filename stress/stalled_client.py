"""`python3 -m stress.stalled_client PATH [SECONDS]`: one client asks for long resends and reads nothing; how long do the
markets of two ports hear nothing, and when does the client lose its link?"""
import socket
import struct
import subprocess
import sys
import tempfile
import threading
import time
from pathlib import Path

from .fix import stamp, written
from .link import free_addresses, listener

PORT = '[[port]]\nname = "P{0}"\naddress = "127.0.0.1:{1}"\nuser = "USER0{0}"\npassword = "PASSWORD"\n'
CLIENT = ('[[client]]\ncomp = "C{0}"\nlisten = "127.0.0.1:{1}"\nport = "P{0}"\nfirm = "FIRM"\ncapacity = "A"\n'
          'customer = "R"\n')


class Market:
    """Accepts a login, sends a heartbeat a second, and notes when it hears something."""

    def __init__(self, address, until):
        self.listener, self.until, self.heard = listener(address), until, []
        threading.Thread(target=self.serve, daemon=True).start()

    def serve(self):
        stream, beat = self.listener.accept()[0], 0.0
        stream.settimeout(0.05)
        while time.monotonic() < self.until:
            try:
                if not stream.recv(65536):
                    return
                if not self.heard:
                    stream.sendall(struct.pack(">H", 31) + b"A" + b"SESSION   " + b"%20d" % 1)
                self.heard.append(time.monotonic())
            except TimeoutError:
                pass
            except OSError:
                return
            if self.heard and time.monotonic() - beat > 0.9:
                beat = time.monotonic()
                stream.sendall(struct.pack(">H", 1) + b"H")

    def longest(self):
        moments = self.heard + [time.monotonic()]
        return max(b - a for a, b in zip(moments, moments[1:]))


class Client:
    def __init__(self, address):
        self.stream, self.number = socket.socket(), 0
        self.stream.setsockopt(socket.SOL_SOCKET, socket.SO_RCVBUF, 4096)
        self.stream.connect(("127.0.0.1", address))

    def send(self, kind, body):
        self.number += 1
        head = [(35, kind), (49, b"C1"), (56, b"GATE"), (34, b"%d" % self.number), (52, stamp())]
        self.stream.sendall(written(head + body))

    def stall(self):
        self.send(b"A", [(98, b"0"), (108, b"0")])
        for number in range(300):
            self.send(b"D", [(11, b"A%d" % number), (54, b"1"), (55, b"INTC"), (38, b"300"), (40, b"2"), (44, b"0")])
        for _ in range(4_000):
            try:
                self.send(b"2", [(7, b"1"), (16, b"0")])
            except OSError:
                return


def main():
    seconds = float(sys.argv[2]) if len(sys.argv) > 2 else 30.0
    ports, clients = free_addresses(2), free_addresses(2)
    with tempfile.TemporaryDirectory() as folder:
        settings, errors = Path(folder, "settings"), Path(folder, "errors")
        settings.write_text('comp = "GATE"\n' + "".join(PORT.format(i + 1, it) for i, it in enumerate(ports))
                            + "".join(CLIENT.format(i + 1, it) for i, it in enumerate(clients)))
        markets = [Market(it, time.monotonic() + seconds + 5) for it in ports]
        words = [sys.argv[1], "serve", "--settings", str(settings)]
        with errors.open("w") as told, subprocess.Popen(words, stdout=subprocess.DEVNULL, stderr=told) as gateway:
            time.sleep(2)
            client = Client(clients[0])
            client.stall()
            time.sleep(seconds)
            for number, market in enumerate(markets, 1):
                print(f"P{number} heard nothing for {market.longest():.1f} s")
            silent = max(market.longest() for market in markets)
            gateway.kill()
        told = errors.read_text()
        print(told, end="")
    return 1 if silent > 3.0 or "C1 link fault " not in told else 0


if __name__ == "__main__":
    sys.exit(main())
