#!/usr/bin/env python3
"""scripts/wrap-proofs.py FILE..: wraps lines of more than 120 columns in proofs, by line breaks at spaces alone.

A line goes on four columns further in than it begins, so that no line break ends a block, and before an operator where
one is near. Lines are left with `where`, `do` or `mutual` in them, with a string, or where no space is near; a `use` of
many words becomes several. Afterwards `rt fmt` in the crate's folder says whether the files are still read.
"""
import re
import sys

WIDTH = 120
LEFT = re.compile(r"(?<!\S)(where|do|mutual|deriving|record\s*$)(?!\S)|\"|\{-|-\}")


def wrapped(line):
    indent = len(line) - len(line.lstrip())
    if len(line) <= WIDTH:
        return [line]
    words = line.strip()
    if words.startswith("-- "):
        return comment(indent, words)
    used = re.fullmatch(r"((?:pub )?use \S+?)\.\{(.*)\}", words)
    if used and indent == 0:
        return uses(used[1], used[2])
    if LEFT.search(line) or " --" in line or words.startswith(("use ", "pub use ", "infix")):
        return [line]
    lines, rest, margin = [], line, indent
    while len(rest) > WIDTH:
        at = break_of(rest, margin)
        if at is None:
            return [line]
        lines.append(rest[:at].rstrip())
        behind = rest[at:].lstrip()
        margin = indent if goes_on_alike(line, behind) else indent + 4
        rest = " " * margin + behind
    return [*lines, rest]


def goes_on_alike(line, behind):
    """Whether a line and what is broken off it begin with the same operator, and so stand below each other."""
    return any(line.lstrip().startswith(it) and behind.startswith(it) for it in ("→ ", "∙ "))


def comment(indent, line):
    words, lines, now = line[3:].split(), [], " " * indent + "--"
    for word in words:
        if len(now) + 1 + len(word) > WIDTH:
            lines.append(now)
            now = " " * indent + "--"
        now += " " + word
    return [*lines, now]


def uses(start, words):
    lines, now = [], ""
    for word in words.split(", "):
        longer = f"{now}, {word}" if now else word
        if now and len(f"{start}.{{{longer}}}") > WIDTH:
            lines.append(f"{start}.{{{now}}}")
            longer = word
        now = longer
    return [*lines, f"{start}.{{{now}}}"]


RANKS = {"→": 0, "∙": 0, "in": 0, "≡": 1, "++": 2, "&&": 2, "||": 2, "×": 2}
"""How well a line goes on before a word: the lower the better; before a bracket 3, before any other word 4."""


def rank(line, at):
    word = line[at + 1 :].split(" ", 1)[0]
    if line[:at].endswith((" =", " in")):
        return 0
    return RANKS.get(word, 3 if word[:1] == "(" else 4)


def break_of(line, margin):
    """The space at which a line is broken, behind its margin: of the least depth of brackets, then where a line goes on
    best, then the last."""
    depth, best = 0, None
    for at, letter in enumerate(line[: WIDTH + 1]):
        if letter in "([{":
            depth += 1
        elif letter in ")]}":
            depth -= 1
        elif letter == " " and at > margin + 40:
            score = (-depth, -rank(line, at))
            if best is None or score >= best[0]:
                best = (score, at)
    return best[1] if best else None


def bare(text):
    """What line breaks don't change: the text without white space, comments and imports."""
    lines = [it for it in text.split("\n") if not it.strip().startswith(("--", "use ", "pub use "))]
    return "".join("".join(lines).split())


def main():
    changed = 0
    for path in sys.argv[1:]:
        text = open(path, encoding="utf-8").read()
        lines = [it for line in text.split("\n") for it in wrapped(line)]
        new = "\n".join(lines)
        if new != text:
            assert bare(new) == bare(text), path
            open(path, "w", encoding="utf-8").write(new)
            changed += 1
    print(f"{changed} files changed")


if __name__ == "__main__":
    main()
