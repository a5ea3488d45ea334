"""The same log by Python's csv module: `python3 tests/log_csv.py < log`. It agrees with meter_log.py on lines that are `comparable`; where
it reads a log otherwise is in tests/README.md, and self_check.py has a case of each."""

import csv
import re
import sys

from meter_log import fields_of, numbered, too_long

NAMES = ("cell", "flow", "temp")


def spelled(numbers):
    """Each number, by the ways to write it with one to three digits."""
    return {"%s%0*d" % ("-" if n < 0 else "", width, abs(n)): n for n in numbers for width in (1, 2, 3)}


CELLS, FLOWS = spelled(range(16)), spelled(range(256))
TEMPS = spelled(range(-40, 86)) | {"-0": 0, "-00": 0, "-000": 0}


def printed(log):
    """What is told of each record of a text file (opened with newline="", as csv asks). csv.Error where csv refuses a record."""
    rows = csv.reader(log, strict=True)
    header = next(rows, None)
    if header is None:
        return
    if any(header.count(name) != 1 for name in NAMES):
        yield "no 40"
        for _ in rows:
            yield "no 40"
        return
    yield "header"
    count = len(header)
    cell, flow, temp = map(header.index, NAMES)
    for row in rows:
        if len(row) != count:
            yield "no 41"
            continue
        try:
            yield "5 %d %d %d" % (CELLS[row[cell]], FLOWS[row[flow]], TEMPS[row[temp]])
        except KeyError:
            yield "no 42"


def quoted_word(field):
    """Whether a field is a name or a number, but for its quotes."""
    return bool(re.fullmatch(rb'"(cell|flow|temp|-?[0-9]{1,3})"', field))


def comparable(line, end):
    """Whether csv has to agree on a line: not over-long, soundly quoted, without a carriage return or NUL, no name or number in quotes."""
    fields = fields_of(line)
    return not (too_long(line, end) or fields is None or b"\r" in line or b"\0" in line or any(map(quoted_word, fields)))


if __name__ == "__main__":
    sys.stdin.reconfigure(encoding="latin-1", newline="")  # each byte a character, no line end changed
    sys.stdout.write(numbered(printed(sys.stdin)))
