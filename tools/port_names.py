#!/usr/bin/env python3
"""Brings the repository's own definitions and lemmas to today's spelling: words in snake case, a dash between two names only.

usage: python3 tools/port_names.py        once, at the top of a tree of the older spelling, after /opt/rattle/port/port.py

The names are in port_names.txt, old and new. Names of src/, strings and data are none of them.
"""
import os
import re

HERE = os.path.dirname(os.path.realpath(__file__))
NAMES = dict(line.split() for line in open(os.path.join(HERE, "port_names.txt"), encoding="utf-8"))
# lemmas that port.py named as a definition is named now
LEMMAS = {n: n + "_lem" for n in ("add_words", "chain_length", "keys_length", "last_line")}
# records' fields that have a dash: the other dashed names after a dot are steps of the code
FIELDS = {"com-is", "commit-of", "no-count", "no-told", "not-cell", "not-flow", "not-temp", "rest-told", "sent-told",
          "the-cell", "the-flow", "the-temp", "word-told", "yes-told"}


def turned(text, dots, lemmas):
    # names one by one, so that each knows what stands before it
    out, at = [], 0
    for found in re.finditer(r"[\w'\-]+", text):
        name = found.group(0)
        new = (LEMMAS if lemmas else {}).get(name) or NAMES.get(name, name)
        dotted = found.start() > 0 and text[found.start() - 1] == "."
        if dotted and "-" in name and not dots and name not in FIELDS:
            before = re.search(r"([\w'\-]+)\.$", text[max(0, found.start() - 80):found.start()])
            if before is None or not before.group(1)[0].isupper():
                new = name
        out.append(text[at:found.start()] + new)
        at = found.end()
    return "".join(out) + text[at:]


def main():
    if os.path.exists(os.path.join("docs", "PORT.md")):
        raise SystemExit("port_names: it has run here already, and is not to be run twice")
    for folder, folders, files in os.walk("crates"):
        folders[:] = sorted(f for f in folders if f not in ("out", "must-fail", "data"))
        for name in sorted(files):
            path = os.path.join(folder, name)
            if not name.endswith((".rt", ".antt")):
                continue
            old = open(path, encoding="utf-8").read()
            new = turned(old, name != "Proof.antt", name.endswith(".antt"))
            if new != old:
                open(path, "w", encoding="utf-8").write(new)
    # pages: names between backticks
    for folder in (".", "docs", "tests", "bench"):
        for name in sorted(os.listdir(folder)):
            if name.endswith(".md") and name != "PORT.md":
                path = os.path.join(folder, name)
                old = open(path, encoding="utf-8").read()
                new = re.sub(r"`[^`\n]*`", lambda found: turned(found.group(0), True, False), old)
                if new != old:
                    open(path, "w", encoding="utf-8").write(new)


main()
