"""The day of a script, and audits, as the program writes them."""
import subprocess

from .stage import Stage

# the settings that a script is stepped by, but for addresses, which a day that is over doesn't need
CLIENTS = "".join(f'[[client]]\ncomp = "C{n}"\nlisten = "127.0.0.1:{n}"\nport = "P{port}"\nfirm = "FIRM"\n'
                  'capacity = "A"\ncustomer = "R"\n' for n, port in ((1, 1), (2, 1), (3, 2)))
PORTS = "".join(f'[[port]]\nname = "P{n}"\naddress = "127.0.0.1:{n + 3}"\nuser = "USER01"\npassword = "PASSWORD"\n'
                for n in (1, 2))
ORDER = "C1 msg 35=D|11=A1|54=1|55=INTC|38=300|40=2|44=23.45|59=0\nP1 A 1 B 300 INTC 234500 99998 L\n"
FILL = "P1 E 1 300 234500 7\n"
AUDIT = "C1 A1 side 1 executed 300 open 0 cancelled 0 value 70350000 agree\norders 1 agree 1\n"
# what a report says of the order's shares, and a text as long of which 2^32 are open
OPEN, TOO_MANY = b"151=300\x0114=0\x016=0\x01", b"151=004294967296\x01"


def written(stage: Stage, script):
    """A script's file, its day's, and the settings'."""
    places = [stage.folder / name for name in ("script", "day", "settings.toml")]
    places[0].write_text(script)
    places[2].write_text('comp = "GATE"\n' + PORTS + CLIENTS)
    with places[1].open("wb") as file:
        ran = subprocess.run([stage.program, "journal", "--script", places[0]], stdout=file, stderr=subprocess.PIPE,
                             check=False)
    stage.same("how the day is written", (0, b""), (ran.returncode, ran.stderr))
    return [str(it) for it in places]


def a_script_and_its_day(stage):
    """a script and its day as a file have the same audit; each is written to its end, and where it can't be, the status is
    1 and says so"""
    script, day, settings = written(stage, ORDER + FILL)
    of_script, of_day = ("audit", "--script", script), ("audit", "--journal", day, "--settings", settings)
    for words in (of_script, of_day):
        stage.same(f"{words[1]}", (0, AUDIT, ""), stage.asked(*words))
    for words in (of_script, of_day, ("journal", "--script", script)):
        with open("/dev/full", "wb") as full:
            ran = subprocess.run([stage.program, *words], stdout=full, stderr=subprocess.PIPE, check=False)
        stage.same(f"{words[0]} {words[1]} where nothing can be written", (1, b"read or write failed\n"),
                   (ran.returncode, ran.stderr))


def an_account_that_is_too_large(stage):
    """a day in which a report says that 2^32 shares are open has no audit, with status 1 and why"""
    _, day, settings = written(stage, ORDER)
    with open(day, "rb") as file:
        kept = file.read()
    size = int.from_bytes(kept[:8], "big")
    page, rest = kept[16:16 + size], kept[16 + size:]
    stage.same("the sum of its page", sum_of(page), kept[8:16])
    page = page.replace(OPEN, TOO_MANY)
    with open(day, "wb") as file:
        file.write(kept[:8] + sum_of(page) + page + rest)
    stage.same("its audit", (1, "", "an order's account is too large\n"),
               stage.asked("audit", "--journal", day, "--settings", settings))


def sum_of(page):
    """The eight bytes of a page's sum: FNV-1a of 64 bits over words of eight bytes, the last one filled up with zeros."""
    it = 14_695_981_039_346_656_037
    for begin in range(0, len(page), 8):
        word = int.from_bytes(page[begin:begin + 8].ljust(8, b"\0"), "big")
        it = (it ^ word) * 1_099_511_628_211 % 2 ** 64
    return it.to_bytes(8, "big")


STEPS_OF_SCRIPTS = (a_script_and_its_day, an_account_that_is_too_large)
