"""`python3 -m stress.packaged GATEWAY`: the settings in packaging/ as the gateway reads them.

They are read whole; and each of their keys is one that is read: where its value is of another kind, the gateway names
the key. The status is 0 where all came that has to."""
import re
import subprocess
import sys
import tempfile
from pathlib import Path

EXAMPLE = Path(__file__).resolve().parent.parent / "packaging" / "gateway.toml"


def told(gateway, settings):
    """What `gateway end` by these settings tells: nobody answers, where they are read."""
    with tempfile.TemporaryDirectory() as folder:
        path = Path(folder) / "gateway.toml"
        path.write_text(settings)
        ran = subprocess.run([gateway, "end", "--settings", str(path)], capture_output=True, text=True)
    return ran.returncode, ran.stderr


def keys(lines):
    """Of each line that gives a key a value: its place, the table and its number, and the key."""
    table, numbers = "", {}
    for place, line in enumerate(lines):
        if found := re.fullmatch(r"\[\[(\w+)\]\]", line):
            table, numbers[found[1]] = found[1], numbers.get(found[1], 0) + 1
        elif found := re.fullmatch(r"\[(\w+)\]", line):
            table = found[1]
        elif found := re.match(r"(\w+) = ", line):
            yield place, table, numbers.get(table, 0), found[1]


def main():
    gateway, text = sys.argv[1], EXAMPLE.read_text()
    lines, wrong = text.splitlines(), 0
    status, said = told(gateway, text)
    if (status, said) != (2, "gateway: nobody answers at 127.0.0.1:9100\n"):
        print("WRONG  the settings are read whole:", status, said)
        wrong += 1
    count = 0
    for place, table, number, key in keys(lines):
        changed = lines[:place] + [f"{key} = 1979-05-27"] + lines[place + 1:]
        status, said = told(gateway, "\n".join(changed) + "\n")
        wanted = {"": key, "day": f"day.{key}", "control": f"control.{key}"}.get(table, f"{table}[{number}].{key}")
        count += 1
        if (status, said) != (2, f"gateway: settings: {wanted}\n"):
            print(f"WRONG  {table}[{number}].{key} is read:", status, said)
            wrong += 1
    print(f"the settings are read whole, and each of {count} keys is read" if wrong == 0 else f"{wrong} wrong")
    return 1 if wrong else 0


if __name__ == "__main__":
    sys.exit(main())
