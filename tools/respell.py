#!/usr/bin/env python3
"""Brings the definitions and lemmas of specs/ and proofs/ to today's spelling: words in snake case, facts and types in camel case.

usage: tools/respell.py [--list] [FILE..]

It reads every name that a file of specs/ or proofs/ declares at the left margin, and turns it wherever it stands as a whole word: in these files, in
the clauses and ghost lines of the sources, and in the edits of must-fail/. Functions of src/, exported names, strings and other files keep theirs.
Run once, at the top, after the toolchain's own script, before anything else. --list only prints the table.
"""

import glob
import re
import sys

DECLARED = re.compile(r"^ {0,4}(?:(?:abbrev|unfoldable)\s+)?(?:pub\s+)?([^\s(){}.;,@\"«»◌]+)\s*:\s(.*)$")
WORD = re.compile(r"[^\s(){}.;,@\"«»]+")
FACT = re.compile(r"(^|→\s*)Type( \d)?\s*$")
# Names by which the check finds a part of a proof, and what it makes itself.
GOALS = re.compile(r":\s*(?:[({][^)}]*[)}]\s*→\s*)?(?:tie|goal)\.")
# A lemma that would have its definition's name gets _lem.
LEMMAS = {
    "all-below", "all-bytes", "at-most", "first-only", "half-reads", "heard-right", "heard-wrong", "in-range", "is-handed", "named-as", "never-changes", "not-whole",
    "read-from", "reads-back", "refuses-all", "strays-always", "ten-symbols", "text-from", "whole-reads",
}
# The toolchain's script had turned these lemmas already; in these files the name is the lemma's.
TURNED = {
    "from_one": ["crates/roundtrip_laws/proofs/", "crates/seatalk/proofs/Fits.antt", "crates/reader/proofs/kinds/date/"],
    "no_room": ["crates/datagram/proofs/Lent.antt", "crates/recorder/proofs/put_records/", "crates/writer/proofs/store/"],
}


def snake(name):
    name = re.sub(r"(?<=[a-z0-9])([A-Z])", lambda m: "_" + m.group(1).lower(), name)
    return name.replace("-", "_").replace("′", "'")


def camel(name):
    return "".join(part[:1].upper() + part[1:] for part in re.split(r"[-_]", name))


def files():
    return sorted(glob.glob("crates/*/specs/*.antt") + glob.glob("crates/*/proofs/**/*.antt", recursive=True))


def table():
    rows = {}
    kept = set()
    for path in files():
        lines = open(path, encoding="utf-8").read().split("\n")
        for i, line in enumerate(lines):
            found = DECLARED.match(line)
            if not found or line.startswith("--"):
                continue
            name, sort = found.groups()
            if GOALS.search(line):
                kept.add(name)
                continue
            j = i + 1
            while j < len(lines) and re.match(r" +[→(]", lines[j]):
                sort += " " + lines[j].strip()
                j += 1
            new = camel(name) if FACT.search(sort) else snake(name)
            if name[0].isupper():
                new = name
            if name in LEMMAS:
                new += "_lem"
            if new != name:
                rows[name] = new
    for name in kept & set(rows):
        print(f"respell: {name} is a goal's name too, and stays", file=sys.stderr)
        del rows[name]
    return rows


def turned(text, rows):
    return WORD.sub(lambda m: rows.get(m.group(0), m.group(0)), text)


def clauses(text, rows):
    """The clauses, ghost lines and comments' code spans of a source."""
    out, at = [], 0
    for found in re.finditer(r"(?:requires|ensures)\*?(?: \w+)? \{|ghost(?: \w+:)? \{|ghost use [^;]*;", text):
        if found.start() < at:
            continue
        end = found.end()
        if text[end - 1] == "{":
            depth = 1
            while depth:
                depth += {"{": 1, "}": -1}.get(text[end], 0)
                end += 1
        out.append(text[at:found.start()])
        out.append(turned(text[found.start():end], rows))
        at = end
    out.append(text[at:])
    return "".join(out)


def main():
    args = sys.argv[1:]
    rows = table()
    if "--list" in args:
        for old in sorted(rows):
            print(f"{old}\t{rows[old]}")
        return
    for path in files() + sorted(glob.glob("crates/*/src/**/*.rt", recursive=True)) + sorted(glob.glob("crates/*/must-fail/*.edit")):
        old = open(path, encoding="utf-8").read()
        if path.endswith(".rt"):
            new = clauses(old, rows)
        elif path.endswith(".edit"):
            new = "\n".join(
                turned(line, rows) if re.match(r"(old|new): ", line) else line for line in old.split("\n")
            )
        else:
            own = {name: name + "_lem" for name, heads in TURNED.items() if path.startswith(tuple(heads))}
            new = turned(turned(old, own), rows)
        if new != old:
            open(path, "w", encoding="utf-8").write(new)


main()
