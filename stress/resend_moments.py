"""python3 -m stress.resend_moments PATH: whether what a gateway sends again can have a 122 that is later than its 52.

One client has 200 orders, which the market accepts and then trades a share of each millisecond by millisecond. Then it
asks a hundred times in one write for all that it was sent. Nobody's clock goes back.
"""
import multiprocessing
import select
import socket
import subprocess
import sys
import tempfile
import time

from . import fix, link, ouch

ORDERS = 200
SETTINGS = """comp = "GATE"
[[port]]\nname = "P1"\naddress = "127.0.0.1:{}"\nuser = "U"\npassword = ""
[[client]]\ncomp = "C1"\nlisten = "127.0.0.1:{}"\nport = "P1"\nfirm = "FIRM"\ncapacity = "A"\ncustomer = "R"
"""


def serve(held):
    """Accepts one login and each order, and trades a share of one after another."""
    stream, _ = held.accept()
    packets, entered = ouch.Packets(), []
    for match in range(1, 3_000):
        ready = select.select([stream], [], [], 0.001)[0]
        data = stream.recv(65536) if ready else b""
        if ready and not data:
            return
        for kind, payload in packets.feed(data):
            if kind == b"L":
                stream.sendall(ouch.login_accepted(b"DAY", 1))
            elif kind == b"U":
                entered.append(it := ouch.asked(payload))
                stream.sendall(ouch.packet(b"S", ouch.accepted(it, it.shares, it.price, match, b"L")))
        if len(entered) == ORDERS:
            token = entered[match % ORDERS].token
            stream.sendall(ouch.packet(b"S", ouch.executed(token, 1, 10_000, match)))


def frame(kind, number, *body):
    head = [(35, kind), (49, b"C1"), (56, b"GATE"), (34, b"%d" % number), (52, fix.stamp())]
    return fix.written(head + list(body))


def order(number):
    return frame(b"D", number, (11, b"A%d" % number), (54, b"1"), (55, b"INTC"), (38, b"1000"), (40, b"2"), (44, b"1"))


def repeats(address):
    """What was sent again, of all that the client is sent until its Logout."""
    client, reader = socket.create_connection(("127.0.0.1", address)), fix.Reader()
    client.sendall(frame(b"A", 1, (98, b"0"), (108, b"30")))
    time.sleep(1.5)
    client.sendall(b"".join(order(number) for number in range(2, ORDERS + 2)))
    time.sleep(0.5)
    asked = [frame(b"2", ORDERS + 2 + count, (7, b"1"), (16, b"0")) for count in range(100)]
    client.sendall(b"".join(asked) + frame(b"5", ORDERS + 102))
    whole = b"".join(iter(lambda: client.recv(65536), b""))
    return [it for it in reader.feed(whole) if it.repeated and it.kind == b"8"]


def tried(program):
    """The repeats of one run that are first sent later than sent again."""
    held, (address,) = link.listener(), link.free_addresses(1)
    multiprocessing.Process(target=serve, args=(held,), daemon=True).start()
    with tempfile.NamedTemporaryFile("w", prefix="stress.") as file:
        file.write(SETTINGS.format(held.getsockname()[1], address))
        file.flush()
        words = [program, "serve", "--settings", file.name]
        ran = subprocess.Popen(words, stdout=subprocess.DEVNULL, stderr=subprocess.DEVNULL)
        time.sleep(1)
        found = repeats(address)
        ran.kill()
        ran.wait()
    return found, [it for it in found if it[122] > it[52]]


def main():
    found, wrong = tried(sys.argv[1])
    print(f"{len(found)} reports sent again, {len(wrong)} of them with 122 later than 52")
    for it in wrong[:1] + wrong[-1:]:
        print(fix.show(it.raw))
    return 1 if wrong else 0


if __name__ == "__main__":
    sys.exit(main())
