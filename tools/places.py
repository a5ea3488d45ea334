#!/usr/bin/env python3
"""Counts the places of docs/DESIGN-PASS.md in crates/*/src: `python3 tools/places.py [-v] [FOLDER]`; -v lists each place."""
import glob
import re
import sys

args = [a for a in sys.argv[1:] if a != "-v"]
verbose = "-v" in sys.argv
root = args[0] if args else "."

# a rule: its point, its name, and a pattern over a whole file
RULES = [
    ("1", "an enum with a case that holds nothing for a refusal or an end, or the two cases of Result",
     r"(?m)^pub enum (?:Digested|Tagged|Header|Reading|ServerOutcome|Command|Brought|Why)\b"),
    ("1", "a flag with a value beside it", r"(?m)^\s+pub (?:ok|known|sound|aborted|over): bool,|^\s+pub cause: Option|^\s+cause: Option"),
    ("1", "a check's no as a number", r"checks::also\(|fn refusal_of|fn halt_of|\bno != 0\b|form != 0\b|content != 0\b"),
    ("1", "a number that stands for none", r"\b1000\b|\bcap\b(?=[,;\s}])|\b16\n"),
    ("1", "a kind by its number", r"kind (?:==|!=|<=) [0-9]|[0-9] <= kind"),
    ("3", "while or loop", r"(?m)^\s*(?:'\w+: )?(?:while .*|loop) \{"),
    ("3", "an index counted by hand", r"(?m)^\s*\w+ [+-]= 1;"),
    ("4", "a conversion, comparison or empty value by hand",
     r"fn (?:refusal_number|halt_number|refusal_of|halt_of|same_op|no_current|no_op|zero_cells|no_state|no_key|no_item|no_commit|word_bytes"
     r"|long_bytes|joined|magnitude|equal|copy_to|part|at_most_pending|less_one|larger_of|minus|zero_from|each_most|copy_within|repeat)\b"),
    ("4", "wrapping_add by its long name", r"std::num::wrapping_add"),
    ("4", "a field copied to a local of its name", r"(?m)^\s*let (\w+) = \w+\.\1;"),
    ("5", "a function of seven parameters or more", None),
    ("6", "a buffer with a length beside it", r"\[Operation; operation::MAX_PENDING\],\n?\s*\w+: usize"),
    ("6", "a part of a buffer by its place: out, at", r"out: &mut \[u8\], at: usize"),
    ("6", "eight entries in parallel", r"(?m)^\s+pub \w+: \[\w+; CLIENTS\],"),
    ("2, 7", "the loop over the lines of a text in a program", r"fn lines<"),
    ("2", "a function that makes zeros", r"fn (?:zeros|zero_log|zero_replies|zero_invokes|large_buffer|text_buffer|buffer|no_keys|broadcast_buffer)\("),
]

texts = {f: open(f).read() for f in sorted(glob.glob(root + "/crates/*/src/*.rt"))}


def places(pattern):
    if pattern is None:
        for f, t in texts.items():
            for m in re.finditer(r"fn \w+(?:<[^>(]*(?:\([^)]*\))?[^>]*>)?\(([^)]*)\)", t):
                if len([p for p in m.group(1).split(",") if p.strip()]) >= 7:
                    yield f, t, m
        return
    for f, t in texts.items():
        for m in re.finditer(pattern, t):
            yield f, t, m


for point, name, pattern in RULES:
    found = list(places(pattern))
    print(f"{point:5} {len(found):4}  {name}")
    if verbose:
        for f, t, m in found:
            line = t.count("\n", 0, m.start() + (len(m.group(0)) - len(m.group(0).lstrip()))) + 1
            print(f"           {f[len(root) + 1:]}:{line}: {m.group(0).strip().splitlines()[0]}")
