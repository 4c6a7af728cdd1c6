#!/usr/bin/env python3
"""idle-gateway.py PROGRAM [SECONDS [BEFORE]]: runs a built `gateway` with 64 clients on 16 ports on loopback, all logged on, and says which
part of a processor it takes over so many seconds, 30, in which nothing happens but heartbeats, how fast its memory grows meanwhile, and how
long it takes to end. BEFORE says how many idle seconds lie before these, none if left out: each place of a queue is touched first as the
first event or output comes to it, so a queue of 2,112 places that gets one a second grows for 35 minutes, and not after that."""
import os, socket, subprocess, sys, tempfile, threading, time

PORTS, CLIENTS = 16, 64


def listener():
    it = socket.socket()
    it.setsockopt(socket.SOL_SOCKET, socket.SO_REUSEADDR, 1)
    it.bind(("127.0.0.1", 0))
    it.listen()
    return it


def free_ports(count):
    held = [listener() for _ in range(count)]
    return [(it.getsockname()[1], it.close())[0] for it in held]


def frame(kind, seq, name, rest):
    body = f"35={kind}\x0134={seq}\x0149={name}\x0156=GATE\x0152=20261126-13:30:00.000\x01{rest}"
    text = f"8=FIX.4.4\x019={len(body)}\x01{body}"
    return (text + f"10={sum(text.encode()) % 256:03}\x01").encode()


def serve(it):
    stream, _ = it.accept()
    stream.recv(4096)
    stream.sendall(b"\x00\x1fASESSION001" + b" " * 19 + b"1")
    while stream.recv(4096):
        stream.sendall(b"\x00\x01H")


def used(pid):
    with open(f"/proc/{pid}/stat") as file:
        words = file.read().rpartition(")")[2].split()
    return (int(words[11]) + int(words[12])) / os.sysconf("SC_CLK_TCK")


def memory(pid):
    """What it holds, in bytes."""
    with open(f"/proc/{pid}/status") as file:
        return next(1024 * int(line.split()[1]) for line in file if line.startswith("VmRSS:"))


seconds = float(sys.argv[2]) if len(sys.argv) > 2 else 30.0
ahead = float(sys.argv[3]) if len(sys.argv) > 3 else 0.0
markets = [listener() for _ in range(PORTS)]
for it in markets:
    threading.Thread(target=serve, args=(it,), daemon=True).start()
addresses = free_ports(CLIENTS)
text = 'comp = "GATE"\n'
for i, it in enumerate(markets):
    text += f'[[port]]\nname = "P{i + 1}"\naddress = "127.0.0.1:{it.getsockname()[1]}"\nuser = "USER01"\npassword = ""\n'
for i, port in enumerate(addresses):
    text += f'[[client]]\ncomp = "C{i + 1}"\nlisten = "127.0.0.1:{port}"\nport = "P{i // 4 + 1}"\n'
    text += 'firm = "FIRM"\ncapacity = "A"\ncustomer = "R"\n'
with tempfile.NamedTemporaryFile("w", suffix=".toml") as file:
    file.write(text)
    file.flush()
    ran = subprocess.Popen([sys.argv[1], "run", "--settings", file.name], stdout=subprocess.PIPE, stderr=subprocess.DEVNULL)
    time.sleep(2)
    streams = [socket.create_connection(("127.0.0.1", port)) for port in addresses]
    for i, it in enumerate(streams):
        it.sendall(frame("A", 1, f"C{i + 1}", "98=0\x01108=30\x01"))
    for it in streams:
        assert b"35=A" in it.recv(4096)
    with open(f"/proc/{ran.pid}/status") as status:
        threads = next(line.split()[1] for line in status if line.startswith("Threads:"))
    sent = 1

    def idle(length):
        """So many seconds, in which each client sends a Heartbeat at times."""
        global sent
        until = time.time() + length
        while (left := until - time.time()) > 0:
            time.sleep(min(left, 20))
            sent += 1
            for i, it in enumerate(streams):
                it.sendall(frame("0", sent, f"C{i + 1}", ""))

    idle(1 + ahead)
    before, held = used(ran.pid), memory(ran.pid)
    idle(seconds)
    part, grown = (used(ran.pid) - before) / seconds, (memory(ran.pid) - held) / seconds
    begin = time.time()
    for i, it in enumerate(streams):
        it.sendall(frame("5", sent + 1, f"C{i + 1}", ""))
    out = ran.communicate(timeout=60)[0].decode()
    print(f"{threads} threads; idle: {part:.3f} of a processor, {grown * 3600 / 1e6:.1f} MB an hour; ended after {time.time() - begin:.1f} s, status {ran.returncode}: {out.strip()}")
