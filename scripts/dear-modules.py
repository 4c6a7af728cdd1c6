#!/usr/bin/env python3
"""dear-modules.py STORE [COUNT]: the modules that took longest in a check with one job, by the times at which the files
of its store were written: crates/NAME/out/hybrid, as check-over-built.py leaves it, of a check that began without one."""
import os
import sys

files = []
for folder, _, names in os.walk(sys.argv[1]):
    for name in names:
        path = os.path.join(folder, name)
        found = os.stat(path)
        files.append((found.st_mtime, name, found.st_size))
files.sort()
taken = [(later[0] - earlier[0], *later[1:]) for earlier, later in zip(files, files[1:])]
for seconds, name, size in sorted(taken, reverse=True)[: int(sys.argv[2]) if len(sys.argv) > 2 else 25]:
    print(f"{seconds:7.1f} s {size:10,} bytes  {name}")
