#!/usr/bin/env python3
"""scripts/gate-seconds.py [CLONE]: what a run of `rt ci` takes of the processors, by crate.

Start it beside a run in CLONE (this clone where none is given). It looks at that run's processes twice a second until
the run ends, and prints the processor seconds, user and system, of each crate's proofs, tests and compilers, the dearest
first, and their sum in minutes. What a process takes between two looks and its end is not counted: below a hundredth.
"""

import os
import re
import sys
import time

TICKS = os.sysconf("SC_CLK_TCK")


def processes():
    """Each process as (its number and start, its parent, its seconds, its words, its folder)."""
    for name in os.listdir("/proc"):
        if not name.isdigit():
            continue
        try:
            with open(f"/proc/{name}/stat", encoding="utf-8", errors="replace") as file:
                fields = file.read().rsplit(") ", 1)[1].split()
            with open(f"/proc/{name}/cmdline", "rb") as file:
                words = file.read().decode(errors="replace").split("\0")
            folder = os.readlink(f"/proc/{name}/cwd")
        except (OSError, IndexError):
            continue
        seconds = (int(fields[11]) + int(fields[12])) / TICKS
        yield (int(name), fields[19]), int(fields[1]), seconds, words, folder


def crate_of(words, folder, clone):
    """The crate that a process works for, or None."""
    if "--crate-name" in words:
        return words[words.index("--crate-name") + 1]
    inside = re.match(re.escape(clone) + r"/crates/([^/]+)", folder)
    return inside.group(1) if inside else None


def main():
    here = os.path.dirname(os.path.dirname(os.path.abspath(__file__)))
    clone = os.path.abspath(sys.argv[1] if len(sys.argv) > 1 else here)
    seen, crates, was_there = {}, {}, False
    for _ in range(2 * 4 * 3600):
        table = {key: rest for key, *rest in processes()}
        parents = {key[0]: rest[0] for key, rest in table.items()}
        runs = {key[0] for key, rest in table.items() if "ci" in rest[2] and rest[3].startswith(clone)
                and any(word.endswith("/rt") for word in rest[2])}
        for key, (_, seconds, words, folder) in table.items():
            pid = key[0]
            while pid in parents and pid not in runs:
                pid = parents[pid]
            if pid in runs:
                seen[key] = seconds
                crates.setdefault(key, crate_of(words, folder, clone) or "the kit's own")
        if was_there and not runs:
            break
        was_there = was_there or bool(runs)
        time.sleep(0.5)
    sums = {}
    for key, seconds in seen.items():
        sums[crates[key]] = sums.get(crates[key], 0) + seconds
    for crate, seconds in sorted(sums.items(), key=lambda one: -one[1]):
        print(f"{seconds:8.0f}  {crate}")
    print(f"{sum(sums.values()) / 60:8.0f}  minutes in all")


if __name__ == "__main__":
    main()
