"""Writes the trial program's cases, crates/trial: data/ (inputs), args (their names, in order) and stdout (what trial.py prints for one after the other)."""

import pathlib
import sys

from draws import Draws
from trial import LONGEST, VANS, lines_of, run


def listing():
    """Document 01's input."""
    return b"I 1 4 0 7\nD 1\nD 1\nD 2\nI 2 1 0 3\nI 1 2 0 5\nD 1\nI 1 2 0 4\nD 1\n"


def join(lines):
    return b"".join(line + b"\n" for line in lines)


def invoke(van, kind=1, cell=0, amount=0):
    return b"I %d %d %d %d" % (van, kind, cell, amount)


def deliver(van):
    return b"D %d" % van


def pending():
    """32 places wait for van 2's commit; six vans' invokes get 33, and are placed, lowest van first, once it comes."""
    lines = [invoke(2)] + [invoke(1, 1, 1), deliver(1)] * 31
    lines += [invoke(van, 1, van) for van in (8, 3, 1, 7, 4, 6)]
    lines += [invoke(3), deliver(3), deliver(8)]  # refused: no second one, and nothing to take
    lines += [deliver(2)]  # the commit of place 1: all 32 are passed on
    lines += [invoke(5, 4, 5, 9), deliver(5)]
    lines += [deliver(van) for van in VANS for _ in range(36)]
    lines += [deliver(van) for van in VANS for _ in range(8)]
    return join(lines)


def full():
    """Only van 1 takes its messages: at 256 broadcasts that others have not taken, `full`, until each took one."""
    kinds = (1, 2, 3, 4, 1, 2, 5, 6)
    lines = []
    for n in range(256):
        kind = kinds[n % 8]
        lines += [invoke(1, kind, (n + n // 16) % 16, 0 if kind in (3, 6) else n % 3), deliver(1), deliver(1)]
    lines += [invoke(1), invoke(8, 9, 9, 9), invoke(0), deliver(1)]
    for van in range(2, 9):
        lines += [deliver(van), invoke(van)]
    lines += [deliver(van) for van in VANS for _ in range(3)]
    lines += [invoke(van, 3 if van % 2 else 6, van) for van in VANS]
    lines += [deliver(van) for van in VANS for _ in range(265)]
    return join(lines)


def bad():
    """Every bad form, between lines that are right; the last line has no line feed."""
    forms = [b"", b" ", b"  ", b"I", b"D", b"X", b"I ", b"D ", b" D 1", b"D 1 ", b"D  1", b"D 1 1", b"D 1 1 1 1", b"D 1 1 1", b"D\t1", b"d 1"]
    forms += [b"D 0", b"D 9", b"D 256", b"D 1\r", b"\rD 1", b"D 1\0", b"\0D 1", b"D\0 1", b"D \0", b"\0", b"D 1.0", b"D -1", b"D +1", b"D 0x1", b"D one"]
    forms += [b"D 18446744073709551617", b"D 4294967297", b"D 257", b"D 1 ", b"DD 1", b"D1", b"D 1a", b"D a1", b"D 1/", b"D :", b"D 1:", b"D /1"]
    forms += [b"D \xd9\xa1", b"D \xc2\xb9", b"\xef\xbb\xbfD 1", b"D 1\x0b", b"D 1\x1a", b"D\xa01", b"\xff", b"D 1\x85", b"# D 1", b"D _1", b"D 1_0", b"D 1e0"]
    forms += [b"I 1 4 0", b"I 1 4 0 7 ", b"I 1 4 0 7 0", b"I 1 4 0  7", b"I 1 4 0 256", b"I 1 4 256 7", b"I 1 256 0 7", b"I 0 4 0 7", b"I 9 4 0 7", b"i 1 4 0 7"]
    forms += [b"I 1 4 0 \0", b"I 1 4 0 7\0", b"I 1 4 0 7\r", b"I 1 4 0 7\t", b"I\0 1 4 0 7", b"I 1 4 0 -7", b"I 1,4,0,7", b" I 1 4 0 7", b"I I 4 0 7", b"I 1 4 0 7a"]
    forms += [b"I 1 4 0 99999999999999999999999999", b"D " + b"0" * (LONGEST - 1) + b"1", b"I 1 4 0 " + b"7" * 70000, b"X" * 140000]
    forms += [b"\0" * 1000, b" " * 100, b"1 2 3 4 5", b"I 1 4 0 7\0\r"]
    lines = [invoke(1, 4, 0, 7)]
    for n, form in enumerate(forms):
        lines += [form] + ([deliver(1 + n // 4 % 2)] if n % 4 == 0 else [])
    lines += [b"D 008", b"I 01 004 0 0255", b"D " + b"0" * (LONGEST - 3) + b"1", b"I 1 3 16 0", b"I 1 0 0 0", b"I 1 3 0 1"]
    lines += [b"I 1 6 0 1", b"I 1 6 16 0", b"I 1 5 16 0", b"I 1 7 0 0", b"I 1 255 0 0", b"I 1 5 0 255 0", b"I 1 5 0 -1", b"D 1"]
    return join(lines) + b"I 2 4 1 3"


def drawn():
    """A drawn run: quiet and busy stretches, all kinds (in the trial a kind 5's temperature is 0), refused operations, lines of other
    forms."""
    draws = Draws("trial")
    lines = []
    for stretch in range(48):
        vans = [draws.one_of(VANS) for _ in range(1 + draws.below(8))]
        cells = 1 + draws.below(4)
        making = draws.one_of((10, 20, 30))
        for _ in range(250):
            van = draws.one_of(vans)
            draw = draws.below(100)
            if draw < making:
                entry = draws.entry(1, range(cells), (0, 1, 2, 3, 5, 200, 255), (0,))
                lines.append(invoke(van, entry.kind, entry.cell, entry.amount))
            elif draw < 96:
                lines.append(deliver(draws.one_of(vans) if draws.below(2) else draws.one_of(VANS)))
            elif draw < 98:
                lines.append(invoke(van, draws.below(8), draws.below(18), draws.one_of((0, draws.below(256)))))
            else:
                lines.append(draws.one_of((b"", b"D", b"D 9", b"I 1 1 1", b"I 1 1 1 1 1", b"D 1\r", b"I 1 1 0 256", b"what")))
        if stretch % 3 == 2:
            lines += [deliver(van) for van in VANS for _ in range(draws.below(60))]
    return join(lines)


def filler(size):
    """Lines of that many bytes in all, each `bad`."""
    lines = [10000] * ((size - 1) // 10000)
    return b"".join(b"X" * (n - 1) + b"\n" for n in lines + [size - sum(lines)])


def at(before, line, end):
    """Lines, then one whose line feed is the input's byte `end`, counted from 1, then deliveries that show what it did. A first read has 65,536 bytes."""
    start = end - len(line) - 1
    return before + filler(start - len(before)) + join([line, deliver(1), deliver(1), deliver(2)])


def invoke_at(end):
    return lambda: at(b"", invoke(1, 4, 0, 7), end)


def deliver_at(end):
    return lambda: at(join([invoke(1, 4, 0, 7)]), deliver(1), end)


ENDS = (65535, 65536, 65537)  # about a buffer: a line that ends there; at 65,541 each of these is inside the line
CASES = {
    "listing": (listing, ("placed", "answer", "aside", "confirm")),
    "pending": (pending, ("placed", "answer", "confirm", "empty", "no 4", "no 33")),
    "full": (full, ("placed", "answer", "failed", "confirm", "empty", "full", "bad")),
    "bad": (bad, ("placed", "answer", "confirm", "empty", "no 5", "bad")),
    "drawn": (drawn, ("placed", "answer", "failed", "aside", "confirm", "empty", "no 4", "no 5", "bad")),
}
CASES.update(("invoke_%d" % end, (invoke_at(end), ("placed", "answer", "confirm", "bad"))) for end in ENDS + (65541,))
CASES.update(("deliver_%d" % end, (deliver_at(end), ("placed", "answer", "confirm", "bad"))) for end in ENDS)


def kind_of(line):
    """The word of a printed line; `no` with its number; `failed` for the answer of an add or take that failed."""
    word, *data = line.split()[2:]
    if word == "no":
        return "no " + data[0]
    return "failed" if word == "answer" and int(data[1]) >= 256 else word


def main():
    crate = pathlib.Path(sys.argv[1] if len(sys.argv) > 1 else pathlib.Path(__file__).parents[1] / "crates") / "trial"
    (crate / "data").mkdir(parents=True, exist_ok=True)
    out = []
    for name, (make, wanted) in CASES.items():
        data = make()
        printed = run(lines_of(data))
        words = {kind_of(line) for line in printed}
        assert set(wanted) <= words, (name, set(wanted) - words)
        (crate / "data" / name).write_bytes(data)
        out += printed
        print("%s: %d lines, %d bytes: %s" % (name, len(printed), len(data), ", ".join(sorted(words))))
    (crate / "args").write_text("".join(name + "\n" for name in CASES))
    (crate / "stdout").write_text("".join(line + "\n" for line in out))


if __name__ == "__main__":
    main()
