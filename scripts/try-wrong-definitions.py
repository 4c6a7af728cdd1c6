#!/usr/bin/env python3
"""Puts wrong definitions into order_law and order_machine, one at a time, and says which the computed examples refuse.

    scripts/try-wrong-definitions.py [WORD..] [--histories]

Each entry of scripts/wrong-definitions.txt is a name, a file of order_law/specs/ or, with its crate before it, of
order_machine/specs/, a line as it stands and the wrong one, in which `\\n` is a line break; WORDs take those whose name has
one, or those of the files with these names. The edits are made in a copy, with its `out/` folders, in which order_examples is
checked over definitions alone, so that an example refuses it and no lemma: fifteen to twenty seconds each after the first. What
is refused is said with its first message. With `--histories` the lemmas of order_machine are checked too, in another copy.
Exit status: 0 all but the known ones refused, 1 one more isn't, 2 an entry doesn't fit its file or is ill-formed.
"""

import pathlib
import shutil
import subprocess
import sys
import tempfile

TOP = pathlib.Path(__file__).resolve().parent.parent
# These can't be told from the right ones, whatever the history: docs/PROVED.md says why.
ALIKE = {
    "refused orders are orders",
    "payloads of other ports are handled",
    "an order isn't answered by J",
    "a replace is rejected though its order is closed",
    "a pending cancel is a pending replace",
    "told: a cancel is rejected where none is unanswered",
}


def first_error(crate: pathlib.Path) -> str:
    """The first message of a check, or nothing where the crate is proved."""
    check = subprocess.run(["rt", "check", "--jobs", "1"], cwd=crate, capture_output=True, text=True)
    if check.returncode == 0:
        return ""
    lines = (check.stdout + check.stderr).splitlines()
    return next((line for line in lines if ": error:" in line), "no message")


def copied(folder: str, name: str) -> pathlib.Path:
    """The crates of a copy of the repository."""
    copy = pathlib.Path(folder) / name
    shutil.copytree(TOP, copy, ignore=shutil.ignore_patterns(".git"))
    (copy / ".git").mkdir()
    return copy / "crates"


def without_laws(crate: pathlib.Path) -> None:
    """Takes a crate's laws and their lemmas away: the definitions stay."""
    (crate / "src/laws.rt").unlink(missing_ok=True)
    shutil.rmtree(crate / "proofs")
    head = crate / "src/lib.rt"
    head.write_text("".join(line for line in head.read_text().splitlines(True) if "laws" not in line))


def main() -> int:
    words = [word for word in sys.argv[1:] if word != "--histories"] or [""]
    entries = (TOP / "scripts/wrong-definitions.txt").read_text().rstrip("\n").split("\n\n")
    status = 0
    with tempfile.TemporaryDirectory() as folder:
        examples = copied(folder, "examples")
        without_laws(examples / "order_examples")
        without_laws(examples / "order_machine")
        checked = {"order_examples": examples}
        if "--histories" in sys.argv:
            checked["order_machine"] = copied(folder, "lemmas")
        for crate, crates in checked.items():
            if first_error(crates / crate):
                print(f"{crate} isn't proved as it stands")
                return 2
        for entry in entries:
            name, file, right, wrong = entry.split("\n")
            if not any(word in name or word == file for word in words):
                continue
            home, _, definitions = file.rpartition("/")
            place = pathlib.Path(home or "order_law") / "specs" / definitions
            text = (examples / place).read_text()
            right, wrong = right.replace("\\n", "\n"), wrong.replace("\\n", "\n")
            if text.count(right) != 1:
                print(f"doesn't fit: {name}", flush=True)
                return 2
            for crates in checked.values():
                (crates / place).write_text(text.replace(right, wrong))
            error = next(filter(None, (first_error(crates / crate) for crate, crates in checked.items())), "")
            for crates in checked.values():
                (crates / place).write_text(text)
            if error and ": error: `" not in error:
                print(f"ill-formed: {name}: {error}", flush=True)
                status = 2
                continue
            print(f"refused: {name}: {error[:160]}" if error else f"passes : {name}", flush=True)
            if not error and name not in ALIKE:
                status = max(status, 1)
    return status


if __name__ == "__main__":
    sys.exit(main())
