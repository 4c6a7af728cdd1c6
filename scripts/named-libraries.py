#!/usr/bin/env python3
"""Which libraries each crate's own files name, beside what crates.txt lists. Run it at the repository's root.

Prints a line for each crate where the two differ, and ends with 1 if there is one; with --all, what each crate names."""
import os
import re
import sys

KIT = {"base64", "bytes", "clap", "http", "http_server", "indexmap", "io", "itoa", "jiff", "jiff_core", "memchr",
       "rand_core", "rand_pcg", "rtrb", "serde_json", "thiserror", "toml", "toml_datetime"}
CRATES = set(os.listdir("crates"))
IN_SPECS = re.compile(r"\bRattle\.([a-z_0-9]+)\.")
IN_CODE = re.compile(r"(?<![:\w.])(?:use )?::?([a-z_0-9]+)::|(?<![:\w.])([a-z_0-9]+)::|^\s*(?:pub )?use ([a-z_0-9]+)\b", re.M)


def without_comments(text):
    return re.sub(r"//.*", "", text)


def named(crate):
    names, modules = set(), set()
    for folder, _, files in os.walk(os.path.join("crates", crate)):
        if {"out", "must-fail"} & set(folder.split("/")[2:]):
            continue
        for file in files:
            if not file.endswith((".rt", ".antt")):
                continue
            text = open(os.path.join(folder, file), encoding="utf-8").read()
            names.update(IN_SPECS.findall(text))
            if file.endswith(".rt"):
                modules.add(file.removesuffix(".rt"))
                for found in IN_CODE.findall(without_comments(text)):
                    names.update(found)
    named = without_own(names, modules, crate)
    return (named & (CRATES | KIT)) - {crate} - {"io"}


def without_own(names, modules, crate):
    """Without modules of the crate's own that are named as a library and that crates.txt doesn't list."""
    return names - (modules - set(listed().get(crate, [])))


def listed():
    lists = {}
    for line in open("crates.txt", encoding="utf-8"):
        line = line.split("#")[0].strip()
        if line:
            head, _, rest = line.partition(":")
            lists[head.split()[0]] = rest.split()
    return lists


def main():
    lists = listed()
    differ = 0
    if "--all" in sys.argv:
        for crate in sorted(CRATES):
            print(crate + ": " + " ".join(sorted(named(crate))))
    for crate in lists:
        names = named(crate)
        missing, more = names - set(lists[crate]), set(lists[crate]) - names
        if missing or more:
            differ += 1
            print(f"{crate}: named and not listed: {sorted(missing)}; listed and not named: {sorted(more)}")
    for crate in sorted(CRATES - set(lists)):
        differ += 1
        print(f"{crate}: not in crates.txt")
    print(sum(len(x) for x in lists.values()), "dependencies listed")
    sys.exit(1 if differ else 0)


main()
