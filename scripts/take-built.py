#!/usr/bin/env python3
"""take-built.py RUN, anywhere in a clone: takes over from a checkout RUN each library that it has built and whose text, and that of all below, is the same
here, so that rt check, rt plant, rt must-fail, rt test and rt run in this clone needn't prove them first. No verdict rests on it."""
import os, shutil, subprocess, sys
RUN = os.path.abspath(sys.argv[1])
CLONE = subprocess.run(["git", "rev-parse", "--show-toplevel"], capture_output=True, text=True).stdout.strip()
KIT = os.path.dirname(subprocess.run(["rt", "doc"], capture_output=True, text=True).stdout.strip())
sys.path.insert(0, f"{KIT}/bin")
import rtlib
seen, made = {}, rtlib.Crate.stamp
def once(crate):
    if crate.folder not in seen:
        seen[crate.folder] = made(crate)
    return seen[crate.folder]
rtlib.Crate.stamp = once
names = [l.split("#")[0].split(":")[0].split()[0] for l in open(f"{CLONE}/crates.txt") if ":" in l.split("#")[0]]
taken, not_same, not_built = [], [], []
cache1, cache2 = {}, {}
for n in names:
    here, there = f"{CLONE}/crates/{n}", f"{RUN}/crates/{n}"
    if not os.path.isdir(here):
        continue
    c = rtlib.Crate(here, rtlib.root_above(here), cache1)
    if not os.path.isdir(there):
        not_same.append(n); continue
    d = rtlib.Crate(there, rtlib.root_above(there), cache2)
    if c.stamp() != d.stamp():
        not_same.append(n); continue
    if not os.path.isfile(f"{there}/out/rlib/{n}.rlib/format"):
        not_built.append(n); continue
    if c.is_built():
        taken.append(n); continue
    to = f"{here}/out/rlib"
    shutil.rmtree(to, ignore_errors=True)
    os.makedirs(f"{here}/out", exist_ok=True)
    subprocess.run(["cp", "-al", f"{there}/out/rlib", to], check=True)
    with open(f"{to}/stamp", "w") as f:
        f.write(c.stamp())
    taken.append(n)
print(f"{len(taken)} libraries; not built there: {' '.join(not_built)}; other text here: {' '.join(not_same)}")
