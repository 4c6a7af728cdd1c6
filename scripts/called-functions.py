#!/usr/bin/env python3
"""called-functions.py PROGRAM, from the top of the repository: how many functions of the repository are called within `Core::step`, and of how
many crates, for a new order, a fill that crosses a cancel, and a resend of ten reports. PROGRAM is `bench/rounds.rt.in` as a crate over `gate_core
gate_lines script_steps`, built without optimization: `bench/build-unproved.sh` with -O0 for -O3. It needs valgrind."""
import re, subprocess, sys, tempfile

CRATES = set(re.findall(r"^(\w+)(?: \S+=\S+)*:", open("crates.txt").read(), re.M))
TEN_ORDERS = []
for n in range(1, 11):
    TEN_ORDERS += [f"C1 msg 35=D|11=A{n}|54=1|55=INTC|38=300|40=2|44=23.45|59=0|528=P", f"P1 A {n} B 300 INTC 234500 {100000 + n} L"]


def calls(lines):
    """How often each function is called within `Core::step` in this script."""
    with tempfile.NamedTemporaryFile() as told:
        words = ["valgrind", "--tool=callgrind", "--toggle-collect=gate_core::whole::Core::step*", f"--callgrind-out-file={told.name}", sys.argv[1]]
        subprocess.run(words, input="".join(line + "\n" for line in lines).encode(), stdout=subprocess.DEVNULL, stderr=subprocess.DEVNULL, check=True)
        names, count, called = {}, {}, None
        for line in open(told.name):
            if it := re.match(r"c?fn=\((\d+)\)(?: (.*))?$", line):
                if it[2]:
                    names[it[1]] = it[2]
                called = names[it[1]] if line[0] == "c" else called
            elif it := re.match(r"calls=(\d+)", line):
                count[called] = count.get(called, 0) + int(it[1])
    return count


def of_event(before, event):
    """The functions of the repository that an event behind these lines calls."""
    without, with_it = calls(before), calls(before + [event])
    found = {name for name in with_it if with_it[name] > without.get(name, 0)}
    plain = {re.sub(r"::<#[0-9a-f]+>$", "", re.sub(r"'\d+$", "", name)) for name in found}
    return {name for name in plain if name.split("::")[0] in CRATES}


for what, before, event in [
    ("a new order", TEN_ORDERS, "C1 msg 35=D|11=A11|54=1|55=INTC|38=300|40=2|44=23.45|59=0|528=P"),
    ("a fill that crosses a cancel", TEN_ORDERS + ["C1 msg 35=F|41=A10|11=F1"], "P1 E 10 300 234500 500001"),
    ("a resend", TEN_ORDERS, "C1 msg 35=2|7=1|16=0"),
]:
    functions = of_event(before, event)
    print(f"{what}: {len(functions)} functions in {len({name.split('::')[0] for name in functions})} crates")
