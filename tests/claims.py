"""Holds docs/CLAIMS.md and docs/edits.txt to the tree, and makes docs/EDITS.md of them.

    python3 tests/claims.py           checks, and writes docs/EDITS.md
    python3 tests/claims.py --check   checks, and fails if docs/EDITS.md is not what it would write
    python3 tests/claims.py --tidy    first mends docs/edits.txt: edits that moved to another crate, and such that are gone

It fails on a name in CLAIMS.md that its file does not define, on a file that is not there, on an edit that no claim names, on
an edit named that is not there, on a claim in edits.txt that CLAIMS.md does not have, on a public call's claim with fewer
than two edits, on an edit of a definition or a theorem's statement without a reason (in its comment after "False:", or in
edits.txt under `[why]`), on a file of a crate that a page names and that is not there, and on a file of definitions that
READING.md does not name.
"""

import re
import sys
import textwrap
from pathlib import Path

ROOT = Path(__file__).resolve().parent.parent
CRATES = ROOT / "crates"
CLAIMS = ROOT / "docs" / "CLAIMS.md"
LIST = ROOT / "docs" / "edits.txt"
MADE = ROOT / "docs" / "EDITS.md"
# What a name of the definitions is made of.
NAME = r"[\w'-]"
TOP = ("tests/", "bench/", "include/", "examples/", "docs/")

HEAD = """# Edits

Made by `tests/claims.py` from [CLAIMS.md](CLAIMS.md), `docs/edits.txt` and the first comment of each edit: not to be
changed by hand.

An edit is a wrong program: `crates/CRATE/must-fail/NAME.edit` says which line becomes which. The gate applies each by
itself, and the prover has to refuse it. What it changes: the program; the *contract*, where the function only calls
another and has nothing else to change; the *definition* that program or theorem is held to; or a theorem's *statement*.
Of the last two the end of this page says why each makes something false that was proved.
"""


class Claim:
    """A row of CLAIMS.md."""

    def __init__(self, ident, sentence, names, files, by, section):
        self.ident, self.sentence, self.section = ident, sentence, section
        self.edits = [n for n in names if "/" in n]
        self.names = [n for n in names if "/" not in n]
        self.files, self.by = files, [b.strip() for b in by.split(",")]


class Edit:
    """An edit of the tree, or the name of one that is not there."""

    def __init__(self, path):
        self.crate, self.name = path.parent.parent.name, path.stem
        lines = path.read_text(encoding="utf-8").splitlines()
        comment = []
        for line in lines:
            if not line.startswith("#"):
                break
            comment.append(line.lstrip("# ").strip())
        self.comment, _, self.why = (x.strip() for x in " ".join(comment).partition("False:"))
        # the lines that it changes, each with its file
        self.lines, file = [], ""
        for line in lines:
            if line.startswith("file:"):
                file = line[5:].strip()
            elif line.startswith("old:"):
                self.lines.append((file, line[4:].strip()))
        self.stale = [old for file, old in self.lines if old not in text_of(path.parent.parent / file)]
        self.changes = self.kind(path.parent.parent)

    def kind(self, crate):
        first = self.lines[0][0]
        if first.startswith("specs/"):
            return "definition"
        if first.startswith("proofs/"):
            return "statement"
        inside, clause = set(), False
        for line in text_of(crate / first).splitlines():
            clause = line.lstrip().startswith("ensures") or clause and line.strip() != "{"
            if not line.startswith("ghost use") and any(file == first and old in line for file, old in self.lines):
                inside.add(clause)
        return "contract" if inside == {True} else "program"


def text_of(path):
    return path.read_text(encoding="utf-8") if path.exists() else ""


def ticked(text):
    return re.findall(r"`([^`]+)`", text)


def read_claims():
    claims, section = {}, ""
    for line in CLAIMS.read_text(encoding="utf-8").splitlines():
        if line.startswith("## "):
            section = line[3:]
        cells = [c.strip() for c in line.strip().strip("|").split("|")]
        if line.startswith("|") and len(cells) == 5 and re.fullmatch(r"[A-Z]\d+(\.\d+)?", cells[0]):
            ident, sentence, statement, file, by = cells
            if ident in claims:
                fail(f"CLAIMS.md has {ident} twice")
            claims[ident] = Claim(ident, sentence, ticked(statement), ticked(file), by, section)
    return claims


def read_list():
    """The edits of each claim, and the reasons: `[ID]`, then `CRATE: NAME NAME …`; `[why]`, then `CRATE/NAME: TEXT`."""
    named, why, ident, last = {}, {}, None, None
    for line in LIST.read_text(encoding="utf-8").splitlines():
        if not line.strip() or line.startswith("#"):
            continue
        head = re.fullmatch(r"\[(.+)\]", line)
        if head:
            ident = head[1]
            if ident != "why":
                named.setdefault(ident, [])
        elif line.startswith(" "):
            if ident == "why":
                why[last] += " " + line.strip()
            else:
                named[ident] += [f"{last}/{n}" for n in line.split()]
        else:
            last, text = line.split(":", 1)
            if ident == "why":
                why[last] = text.strip()
            else:
                named[ident] += [f"{last}/{n}" for n in text.split()]
    return named, why


def write_list(named, why):
    """edits.txt anew, in its form; comments at its head are kept."""
    head = []
    for line in LIST.read_text(encoding="utf-8").splitlines():
        if not line.startswith("#"):
            break
        head.append(line)
    out = head + [""]
    for ident, edits in named.items():
        edits = list(dict.fromkeys(edits))
        out.append(f"[{ident}]")
        for crate in dict.fromkeys(e.split("/")[0] for e in edits):
            out += wrapped(f"{crate}: " + " ".join(e.split("/")[1] for e in edits if e.split("/")[0] == crate))
        out.append("")
    out.append("[why]")
    for name, text in why.items():
        out += wrapped(f"{name}: {text}")
    LIST.write_text("\n".join(out) + "\n", encoding="utf-8")


def wrapped(text):
    lines, line = [], ""
    for word in text.split():
        if line and len(line) + 1 + len(word) > 118:
            lines.append(line)
            line = "  " + word
        else:
            line = f"{line} {word}" if line else word
    return lines + [line]


problems = []


def fail(text):
    problems.append(text)


def sources(path):
    """The text of a file, or of all files of a folder; none where it is not there."""
    place = ROOT / path if path.startswith(TOP) else CRATES / path
    if place.is_dir():
        return [f.read_text(encoding="utf-8") for f in sorted(place.rglob("*.antt"))]
    if place.is_file():
        return [place.read_text(encoding="utf-8", errors="replace")]
    return []


def defines(text, name):
    """Whether a definition, a theorem, a field or a case of this name begins a line."""
    return re.search(rf"^ *((unfoldable|abbrev|pub|data|record) )*{re.escape(name)}(?!{NAME})", text, re.M) is not None


def places_of(name):
    """Where that is so, for a message."""
    files = [f for part in ("specs", "proofs") for f in sorted(CRATES.glob(f"*/{part}/**/*.antt"))]
    places = [str(f.relative_to(CRATES)) for f in files if defines(f.read_text(encoding="utf-8"), name)]
    return ", ".join(places[:4]) or "nowhere"


def declares(path, name):
    """Whether a function or type of this name is declared in a source file."""
    return re.search(rf"\b(fn|struct|enum) {name}\b", path.read_text(encoding="utf-8")) is not None


def check_names(claims):
    for c in claims.values():
        for f in c.files:
            if not sources(f) and not (CRATES / f).exists():
                fail(f"{c.ident}: no file {f}")
        for n in c.names:
            if "::" in n:
                crate, name = n.split("::")
                found = [p.parent.parent.name for p in sorted(CRATES.glob("*/src/*.rt")) if declares(p, name)]
                if crate not in found:
                    fail(f"{c.ident}: no {n} (one of that name: {', '.join(found) or 'nowhere'})")
            elif not any(defines(t, n) for f in c.files for t in sources(f)):
                fail(f"{c.ident}: {n} is not defined in {', '.join(c.files)} (it is in: {places_of(n)})")


def check_pages():
    """Every file of a crate that a page names is there, and READING.md names every file of definitions."""
    pages = [ROOT / "README.md"] + [p for p in sorted((ROOT / "docs").glob("*.md")) if p.name not in ("EDITS.md", "LANDINGS.md")]
    for page in pages:
        for name in ticked(page.read_text(encoding="utf-8")):
            if re.fullmatch(r"\w+/(specs|proofs|src)/[\w/]*(\.\w+)?", name) and not (CRATES / name).exists():
                fail(f"{page.relative_to(ROOT)}: no file {name}")
    reading = ticked((ROOT / "docs" / "READING.md").read_text(encoding="utf-8"))
    for f in sorted(CRATES.glob("*/specs/*.antt")):
        name = str(f.relative_to(CRATES))
        if f.name != "Lib.antt" and name not in reading:
            fail(f"docs/READING.md does not say whether {name} is to be read or internal")


def tidy(named, why, there):
    """Edits that are in another crate now, told by their name and, by EDITS.md, their comment; and such that are nowhere."""
    known = {e for edits in named.values() for e in edits}
    rows = re.findall(r"^\| (\w+) \| (\w+) \| \w+ \| (.*) \|$", MADE.read_text(encoding="utf-8"), re.M) if MADE.exists() else []
    comments = {f"{crate}/{name}": comment for crate, name, comment in rows}
    for old in sorted((known | set(why)) - set(there)):
        name = old.split("/")[1]
        new = [e for e in there if e.split("/")[1] == name and e not in known]
        near = [e for e in new if comments.get(old) == there[e].comment] or new
        if len(near) == 1:
            print(f"moved: {old} -> {near[0]}")
            for ident in named:
                named[ident] = [near[0] if e == old else e for e in named[ident]]
            if old in why:
                why[near[0]] = why.pop(old)
        else:
            print(f"gone: {old}" + (f" (or {', '.join(near)})" if near else ""))
            for ident in named:
                named[ident] = [e for e in named[ident] if e != old]
            why.pop(old, None)
    for e in [e for e in why if there[e].why]:
        print(f"the reason stands in its comment: {e}")
        del why[e]
    write_list(named, why)


def check_edits(claims, named, why, there):
    for ident in named:
        if ident not in claims:
            fail(f"edits.txt: CLAIMS.md has no claim {ident}")
    known = {e for edits in named.values() for e in edits} | {e for c in claims.values() for e in c.edits}
    for e in sorted(known - set(there)):
        others = [x for x in there if x.split("/")[1] == e.split("/")[1]]
        fail(f"edit {e} is named and not there" + (f" (there is {', '.join(others)})" if others else ""))
    for e in sorted(set(there) - known):
        fail(f"edit {e} is named by no claim: {there[e].comment}")
    for c in claims.values():
        if "call" in c.by and len(set(named.get(c.ident, []) + c.edits) & set(there)) < 2:
            fail(f"{c.ident} is a public call's and has fewer than two edits")
    for e in sorted(set(why) - set(there)):
        fail(f"edits.txt has a reason for {e}, which is not there")
    for e, edit in there.items():
        if edit.changes in ("definition", "statement") and not edit.why and e not in why:
            fail(f"edit {e} changes a {edit.changes} and has no reason")
        if edit.why and e in why:
            fail(f"edit {e} has its reason in its comment and in edits.txt")


def page(claims, named, why, there):
    out, section = [HEAD], None
    for c in claims.values():
        edits = list(dict.fromkeys(c.edits + named.get(c.ident, [])))
        if not edits:
            continue
        if c.section != section:
            section = c.section
            out.append(f"## {section}\n")
        out.append("\n".join(textwrap.wrap(f"**{c.ident}** {c.sentence}", 120)) + "\n")
        out += ["| crate | edit | changes | the wrong program |", "|---|---|---|---|"]
        for e in edits:
            if e in there:
                edit = there[e]
                out.append(f"| {edit.crate} | {edit.name} | {edit.changes} | {edit.comment.replace('|', chr(92) + '|')} |")
        out.append("")
    out.append("## Why an edit of a definition or statement makes it false\n")
    out += ["| crate | edit | why |", "|---|---|---|"]
    reasons = {e: edit.why or why.get(e, "") for e, edit in there.items()}
    out += ["| {} | {} | {} |".format(*e.split("/"), text) for e, text in reasons.items() if text]
    return "\n".join(out) + "\n"


def main():
    mode = sys.argv[1] if len(sys.argv) > 1 else ""
    claims = read_claims()
    there = {}
    for f in sorted(CRATES.glob("*/must-fail/*.edit")):
        edit = Edit(f)
        there[f"{edit.crate}/{edit.name}"] = edit
        if not edit.comment:
            fail(f"edit {edit.crate}/{edit.name} has no comment")
        for old in edit.stale:
            fail(f"edit {edit.crate}/{edit.name}: no such line: {old}")
    named, why = read_list()
    if mode == "--tidy":
        tidy(named, why, there)
        named, why = read_list()
    check_names(claims)
    check_pages()
    check_edits(claims, named, why, there)
    made = page(claims, named, why, there)
    if mode == "--check":
        if not MADE.exists() or MADE.read_text(encoding="utf-8") != made:
            fail("docs/EDITS.md is not what tests/claims.py writes: run it without --check")
    else:
        MADE.write_text(made, encoding="utf-8")
    for p in problems:
        print(p)
    print(f"claims: {len(claims)} claims, {len(there)} edits, {len(problems)} problems")
    sys.exit(1 if problems else 0)


if __name__ == "__main__":
    main()
