#!/usr/bin/env python3
"""check-over-built.py RUN[,RUN..] CRATE [FLAG..], anywhere in a clone: checks CRATE over the libraries that a checkout RUN has built (a whole run, say, also
while it goes on), where the clone's text is the same, and over sources for the rest: their definitions are read, and their functions aren't proved. FLAGs are
those of rattle's check, as --only F and --allow-holes, and --test. No verdict. From the environment JOBS says how many jobs (1)."""
import os, subprocess, sys, time
CLONE = subprocess.run(["git", "rev-parse", "--show-toplevel"], capture_output=True, text=True).stdout.strip()
RUNS, crate = [os.path.abspath(run) for run in sys.argv[1].split(",")], sys.argv[2]
P = CLONE + "/crates/" + crate
KIT = os.path.dirname(subprocess.run(["rt", "doc"], capture_output=True, text=True).stdout.strip())
sys.path.insert(0, f"{KIT}/bin")
os.chdir(P)
import rtlib
seen, made = {}, rtlib.Crate.stamp
def once(it):
    if it.folder not in seen:
        seen[it.folder] = made(it)
    return seen[it.folder]
rtlib.Crate.stamp = once
c = rtlib.Crate(P, rtlib.root_above(P) or P, {})
flags = sys.argv[3:]
tests = "--test" in flags
flags = [f for f in flags if f != "--test"]
cache = {}
def built(name):
    mine = rtlib.Crate(f"{CLONE}/crates/{name}", CLONE, cache)
    for run in RUNS:
        lib = f"{run}/crates/{name}/out/rlib/{name}.rlib"
        if os.path.isfile(f"{lib}/format") and mine.stamp() == rtlib.Crate(f"{run}/crates/{name}", run, {}).stamp():
            return lib
    return None
libs = {it.name: built(it.name) for it in c.below()}
words = c.words(["--jobs", os.environ.get("JOBS", "1")] + (["--test"] if tests else []), as_source=True)
out, k, sources = [], 0, []
while k < len(words):
    w = words[k]
    nxt = words[k + 1] if k + 1 < len(words) else ""
    name = nxt.split(":")[0].split("=")[0]
    if w == "--lib" and name in libs and libs[name]:
        k += 2
        continue
    if w == "--lib" and name in libs:
        sources.append(name)
    out.append(w)
    k += 1
ext = []
for name, lib in sorted(libs.items()):
    if lib:
        ext += ["--extern", f"{name}={lib}", "-L", f"dependency={os.path.dirname(lib)}"]
argv = [rtlib.RATTLE, "check", *out, *ext, "--incremental", f"{P}/out/hybrid", *flags]
print("sources:", " ".join(sources))
t = time.time()
ran = subprocess.run(argv, cwd=P, stdout=subprocess.PIPE, stderr=subprocess.STDOUT, text=True, errors="replace")
print("\n".join(x for x in ran.stdout.splitlines() if not x.startswith(("statements ", "by-macro", "logic "))))
print("%.0f seconds, status %d" % (time.time() - t, ran.returncode))
