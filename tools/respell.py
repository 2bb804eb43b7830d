#!/usr/bin/env python3
"""Spells the names of this repository's definitions and lemmas as today's Rattle does: words in snake case.

Run once at the top, after the kit's port.py. respell.tsv has the names that port.py left, old and new; respelled.tsv those that it
turned itself, for the pages and the must-fail edits, which it does not touch.
"""
import glob
import re

# What a name of specs/ or proofs/ is made of; `.` ends one, as in `c.answer`.
NAME = re.compile(r"[A-Za-z0-9_₀◌?'′-]+")


def table(path):
    with open(path, encoding="utf-8") as lines:
        return dict(line.rstrip("\n").split("\t") for line in lines)


def spelled(text, names):
    return NAME.sub(lambda found: names.get(found.group(0), found.group(0)), text)


def in_code(text, names):
    """A page: only what stands between backticks."""
    parts = re.split(r"(```.*?```|`[^`\n]*`)", text, flags=re.S)
    return "".join(spelled(part, names) if part.startswith("`") else part for part in parts)


def turn(path, change):
    with open(path, encoding="utf-8") as file:
        old = file.read()
    new = change(old)
    if new != old:
        with open(path, "w", encoding="utf-8") as file:
            file.write(new)


def main():
    left = table("tools/respell.tsv")
    every = {**left, **table("tools/respelled.tsv")}
    for path in glob.glob("crates/**/*.antt", recursive=True) + glob.glob("crates/**/*.rt", recursive=True):
        turn(path, lambda text: spelled(text, left))
    for path in glob.glob("crates/*/must-fail/*.edit"):
        turn(path, lambda text: spelled(text, every))
    for path in glob.glob("docs/**/*.md", recursive=True) + ["README.md"]:
        turn(path, lambda text: in_code(text, every))


main()
