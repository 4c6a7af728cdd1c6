#!/usr/bin/env python3
"""bench/instructions.py GATEWAY LOAD [FEW MANY [OUTSTANDING]]: how many instructions a running gateway takes an order, over loopback.

GATEWAY is a built program, LOAD is `load.cpp`, built. It runs twice below callgrind, with FEW orders (200) and with MANY (600), so many
OUTSTANDING at once (1), and prints the difference of both counts an order: what a program does once falls out. It is counted until
LOAD's client has left: the audit, which comes behind the last link, isn't in it."""
import re
import subprocess
import sys
import tempfile
import time
from pathlib import Path

from written_ahead import SETTINGS, free


def listens(port):
    """Whether somebody listens at a port of loopback."""
    return any(line.split()[1].endswith(f":{port:04X}") and line.split()[3] == "0A" for line in open("/proc/net/tcp"))


def counted(gateway, load, orders, outstanding, folder):
    """The instructions of a gateway that has so many orders filled."""
    client, market = free(), free()
    settings, number = Path(folder, "settings.toml"), Path(folder, "number")
    settings.write_text(SETTINGS.format(client=client, market=market))
    number.unlink(missing_ok=True)
    words = ["valgrind", "--tool=callgrind", f"--callgrind-out-file={folder}/out", gateway, "run", "--settings", settings, "--links", "2"]
    with subprocess.Popen(words, stdout=subprocess.DEVNULL, stderr=subprocess.DEVNULL) as ran:
        while not listens(client):
            time.sleep(0.1)
        number.write_text(str(ran.pid))
        subprocess.run([load, "gateway", str(client), str(market), number, str(orders), str(outstanding)],
                       stdout=subprocess.DEVNULL, check=True)
        subprocess.run(["callgrind_control", "-d", str(ran.pid)], stdout=subprocess.DEVNULL, stderr=subprocess.DEVNULL,
                       check=True)
        ran.kill()
    counted = Path(folder, "out.1")
    said = counted.read_text()
    counted.unlink()
    return int(re.search(r"^(?:totals|summary): (\d+)", said, re.MULTILINE)[1])


def main():
    gateway, load, *numbers = sys.argv[1:]
    few, many, outstanding = [int(it) for it in numbers] + [200, 600, 1][len(numbers):]
    with tempfile.TemporaryDirectory() as folder:
        first, second = (counted(gateway, load, orders, outstanding, folder) for orders in (few, many))
    print(f"{(second - first) / (many - few):.0f} instructions an order, {outstanding} outstanding, {many} less {few}")


if __name__ == "__main__":
    main()
