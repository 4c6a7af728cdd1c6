"""What the command line refuses, word for word, and what it takes."""
from .stage import Stage

NO_FILE = "no/such/file"
CANNOT_READ = f"gateway: cannot read {NO_FILE}\n"
SYNC = "gateway: --sync is each, never, or milliseconds from 1ms to 60000ms\n"
SEED = "gateway: --seed is a number from 0 to 18446744073709551615\n"
STEPS = "gateway: --steps is a number from 1 to 10000\n"
CLIENTS = "gateway: --clients is a number from 1 to 64\n"
PORTS = "gateway: --ports is a number from 1 to 16\n"

MISSING = (
    ("audit --script no/such/file", CANNOT_READ),
    ("journal --script no/such/file", CANNOT_READ),
    ("run --settings no/such/file", CANNOT_READ),
    ("run --settings no/such/file --journal day", CANNOT_READ),
    ("serve --settings no/such/file", CANNOT_READ),
    ("end --settings no/such/file", CANNOT_READ),
    ("end --settings no/such/file --journal no/such/file", CANNOT_READ),
    ("audit --journal no/such/file --settings no/such/file", CANNOT_READ),
    ("audit --journal no/such/file --settings no/such/file --so-far", CANNOT_READ),
    ("audit --journal no/such/file --settings settings.toml", CANNOT_READ),
    ("audit --journal no/such/file --settings settings.toml --so-far", CANNOT_READ),
    ("export --journal no/such/file", CANNOT_READ),
    ("end --journal no/such/file --settings settings.toml", f"gateway: journal: {NO_FILE}: no such file\n"),
)

SYNCS = (
    ("run --settings settings.toml --journal day --sync always", SYNC),
    ("serve --settings settings.toml --journal day --sync always", SYNC),
    ("run --settings settings.toml --sync never", "gateway: --sync is of a journal: --journal FILE\n"),
    ("serve --settings settings.toml --sync never", "gateway: --sync is of a journal: --journal FILE\n"),
)

NO_NUMBERS = (
    ("world --seed 18446744073709551616 --steps 1", SEED),
    ("world --seed  --steps 1", SEED),
    ("world --seed 7 --steps 0", STEPS),
    ("world --seed 7 --steps 10001", STEPS),
    ("world --seed 7 --steps x", STEPS),
    ("world --seed 7 --steps 1 --clients 0", CLIENTS),
    ("world --seed 7 --steps 1 --clients 65", CLIENTS),
    ("world --seed 7 --steps 1 --ports 0", PORTS),
    ("world --seed 7 --steps 1 --ports 17", PORTS),
)


def refused(stage: Stage, rows):
    """Each command has status 2, nothing on standard output, and this on standard error."""
    for words, told in rows:
        stage.same(words, (2, "", told), stage.asked(*words.split(" ")))


def missing_files(stage):
    """files that aren't there are refused, whatever they are read for"""
    stage.set_up(1)
    refused(stage, MISSING)


def syncs_of_nothing(stage):
    """another word for a sync, and one without a journal, are refused, and no file is made"""
    stage.set_up(1)
    refused(stage, SYNCS)
    stage.holds("no journal is made", not (stage.folder / "day").exists())


def numbers_out_of_range(stage):
    """a world's number out of its range, or no number, is refused"""
    refused(stage, NO_NUMBERS)


def world(stage, seed, steps, *more):
    """What came of a world, as it is printed: it has a line, and each order agrees."""
    status, output, told = stage.asked("world", "--seed", str(seed), "--steps", str(steps), *more)
    stage.same(f"world of seed {seed}, {steps} steps {more}", (0, ""), (status, told))
    words = output.split()
    counts = dict(zip(words[::2], words[1::2]))
    stage.same("its steps", str(steps), counts.get("steps"))
    stage.same("its faults", "0", counts.get("faults"))
    stage.same("its orders agree", counts.get("orders"), counts.get("agree"))
    return output


def numbers_in_range(stage):
    """a world's numbers are taken at both ends of their ranges; unsaid, there are 4 clients and 2 ports"""
    greatest = 2 ** 64 - 1
    world(stage, 0, 1, "--clients", "1", "--ports", "1")
    most = world(stage, greatest, 10_000, "--clients", "64", "--ports", "16")
    unsaid = world(stage, 7, 300)
    four_and_two = ("--clients", "4", "--ports", "2")
    stage.same("4 clients and 2 ports", unsaid, world(stage, 7, 300, *four_and_two))
    for what, other, it in (
            ("another seed", world(stage, 8, 300, *four_and_two), unsaid),
            ("another count of clients", world(stage, 7, 300, "--clients", "5", "--ports", "2"), unsaid),
            ("another count of ports", world(stage, 7, 300, "--clients", "4", "--ports", "1"), unsaid),
            ("a seed below the greatest", world(stage, greatest - 1, 10_000, "--clients", "64", "--ports", "16"), most),
            ("fewer clients than most", world(stage, greatest, 10_000, "--clients", "63", "--ports", "16"), most),
            ("fewer ports than most", world(stage, greatest, 10_000, "--clients", "64", "--ports", "15"), most)):
        stage.holds(f"{what} makes another world", other != it, it)


STEPS_OF_COMMANDS = (numbers_in_range, missing_files, syncs_of_nothing, numbers_out_of_range)
