#!/usr/bin/env python3
"""Public words of the specs that have more than one home. Run it at the repository's root.

A word is what a line of crates/*/specs/*.antt defines as `pub`: a definition, a record or a data type (fields of records aside). A home
is a file that defines it. What a Lib.antt hands on by `pub use` defines nothing. With --count, only how many there are."""
import collections
import os
import re
import sys

DEFINED = re.compile(r"^(?:(?:abbrev|unfoldable|opaque|instance) )*pub (?:(?:record|data|abbrev) )?([^\s:({]+)")


def homes():
    found = collections.defaultdict(set)
    for crate in sorted(os.listdir("crates")):
        for folder, _, files in os.walk(os.path.join("crates", crate, "specs")):
            for file in files:
                if not file.endswith(".antt"):
                    continue
                path = os.path.join(folder, file)
                for line in open(path, encoding="utf-8"):
                    word = DEFINED.match(line)
                    if word and word.group(1) not in ("mod", "use"):
                        found[word.group(1)].add(path[len("crates/"):].replace("/specs/", ": ").removesuffix(".antt"))
    return {word: sorted(places) for word, places in found.items() if len(places) > 1}


def main():
    several = homes()
    if "--count" not in sys.argv:
        for word in sorted(several):
            print(f"{word}: {'; '.join(several[word])}")
    print(len(several), "words with more than one home")


main()
