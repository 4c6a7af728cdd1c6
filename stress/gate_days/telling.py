"""What is told on standard error, and a demonstration that doesn't come to its end."""
import fcntl
import re
import subprocess
import sys
import threading
import time

from ..refusing import Refusing
from .held_demo import NO_TRACE
from .peers import PATIENCE, holds_within
from .stage import LeftOut

MESSAGES = 4_000


def a_text_of_two_lines(stage):
    """a text of a peer stays in its line"""
    (client,), (address,) = stage.set_up(1)
    stage.market(address)
    gateway = stage.gateway("serve")
    client.name = b"up\nC2 up\x1b[2J"
    client.connect().send(b"A", (98, b"0"), (108, b"30"))
    stage.same("the link", "end", client.ending())
    line = "C1 Logon refused: 49=up.C2 up.[2J isn't this client's name"
    stage.holds("its line", holds_within(lambda: line in gateway.lines()), repr(gateway.lines()[-2:]))
    stage.holds("no other", "C2 up" not in gateway.lines())


def lines_that_nobody_reads(stage):
    """lines on standard error that nobody reads are dropped and counted: none is lost without being told of"""
    (client,), (address,) = stage.set_up(1)
    stage.market(address)
    gateway = stage.gateway("serve", errors=subprocess.PIPE)
    pipe = gateway.process.stderr
    fcntl.fcntl(pipe, fcntl.F_SETPIPE_SZ, 4096)
    client.connect().log_on()
    for number in range(MESSAGES):
        client.send(b"D", (11, b"%d" % number))
        if number % 100 == 99:
            stage.holds("a message is rejected while nobody reads", answered(client, number + 2))
    stage.holds("the client is logged out", client.log_out() is not None)
    client.close()
    told = []
    reader = threading.Thread(target=lambda: told.extend(pipe), daemon=True)
    reader.start()
    stage.same("how the gateway ends", (0, 0), stage.end(gateway, "--now"))
    reader.join()
    lost = [int(line.split()[1]) for line in told if b"lines are lost here: nobody read standard error" in line]
    kept = sum(b" C1 sent 35=3|" in line for line in told)
    stage.holds("lines are lost", sum(lost) > MESSAGES - 2_000, str(lost))
    # those of the Logout and of the link's end may be among them
    stage.within("rejects that are told, and lines that are lost", MESSAGES, kept + sum(lost), MESSAGES + 3)


def answered(client, number):
    """Whether its message of this number is rejected."""
    wanted = b"%d" % number
    return client.wait(lambda frame: frame.kind == b"3" and frame[45] == wanted, begin=max(0, number - 200)) is not None


def an_order_that_stays_open(stage):
    """an order that is open at the day's end is named and counted; where memory is refused for that, the audit is written
    all the same, and the status is 1"""
    stage.same("what is told", (0, ["A1 of C1: 100 of 100 open at the market",
                                    "gateway: 1 orders are open at the market, 0 weren't answered"]), left_open(stage))
    try:
        refusing = Refusing(stage.folder, 1, 1)
    except (OSError, subprocess.CalledProcessError) as it:
        raise LeftOut(f"a library in C: {it}") from it
    refused = [f"{name}={value}" for name, value in refusing.behind_output().items()]
    stage.same("what is told then", (1, ["out of memory"]), left_open(stage, "env", *refused))
    stage.holds("memory is refused", refusing.counted()[0] > 0)


def left_open(stage, *before):
    """A day that ends with an order open: the gateway's status, and its last lines, behind those of links."""
    (client,), (address,) = stage.set_up(1)
    stage.market(address)
    gateway = stage.gateway("serve", before=before)
    client.connect().log_on()
    client.order(b"A1", price=b"1")
    stage.holds("an order is open", client.told(b"A1", b"0") is not None)
    asked, status = stage.end(gateway, "--now")
    stage.same("whoever ends it", 0, asked)
    stage.same("the audit", "C1 A1 side 1 executed 0 open 100 cancelled 0 value 0 agree\norders 1 agree 1\n",
               gateway.output.read_text())
    lines = gateway.lines()
    ends = [at for at, line in enumerate(lines) if re.fullmatch(r"[CP]1 (gone|closed by the gateway|link fault .*)", line)]
    stage.holds("the links' ends are told", ends, repr(lines))
    return status, lines[ends[-1] + 1:]


def a_demonstration_that_is_not_finished(stage):
    """a demonstration whose market fills nothing says so after ten seconds, with status 1 and no audit"""
    begin = time.monotonic()
    stage.same("what it comes to", (1, "", ["demo: not finished"]), met_by_a_stranger(stage, "market"))
    stage.within("seconds", 9.9, time.monotonic() - begin, PATIENCE)


def a_demonstration_with_a_fault(stage):
    """a demonstration of which the first client's link has a fault, and the port's none, tells that fault"""
    stage.same("what it comes to", (1, "", ["gateway: link fault 3"]), met_by_a_stranger(stage, "client"))


def met_by_a_stranger(stage, listener):
    """What a demonstration comes to with a stranger at a listener: status, standard output and lines on standard
    error."""
    ran = subprocess.run([sys.executable, "-m", "stress.gate_days.held_demo", stage.program, listener],
                         capture_output=True, text=True, timeout=PATIENCE, check=False)
    if ran.returncode == NO_TRACE:
        raise LeftOut(ran.stderr.strip())
    told = [line for line in ran.stderr.splitlines() if " orders wait, since " not in line]
    return ran.returncode, ran.stdout, told


STEPS_OF_TELLING = (a_demonstration_that_is_not_finished, lines_that_nobody_reads, a_demonstration_with_a_fault,
                    an_order_that_stays_open, a_text_of_two_lines)
