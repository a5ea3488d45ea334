"""The meters' log by column name (document 02, Q-5), and what the log program (crates/log_export) prints for it:
`python3 tests/meter_log.py < log`. Commas that separate are told by counting quotes, and fields by what they look like."""

import os
import re
import sys

LONGEST = 65535  # bytes of a line before its line feed, or before the end of the input; of a longer one only `long` is said
NAMES = (b"cell", b"flow", b"temp")
VALUES = ((rb"[0-9]{1,3}", range(16)), (rb"[0-9]{1,3}", range(256)), (rb"-?[0-9]{1,3}", range(-40, 86)))
FIELD = re.compile(rb'"(?:[^"]|"")*"|[^",]*')


def lines_of(log):
    """The lines of a log in bytes, each with what ends it: a line feed with the carriage return before it, or nothing."""
    *ended, rest = log.split(b"\n")
    lines = [(line[:-1], b"\r\n") if line.endswith(b"\r") else (line, b"\n") for line in ended]
    return lines + ([(rest, b"")] if rest else [])


def too_long(line, end):
    return len(line) + len(end.removesuffix(b"\n")) > LONGEST


def parts_of(line):
    """The line cut at each comma that has an even number of quotes before it. A line has no line feed, so that can mark the cuts."""
    stretches = line.split(b'"')
    stretches[::2] = [outside.replace(b",", b"\n") for outside in stretches[::2]]
    return b'"'.join(stretches).split(b"\n")


def fields_of(line):
    """The fields, quotes included; None if the line is not soundly quoted."""
    parts = parts_of(line)
    return parts if all(FIELD.fullmatch(part) for part in parts) else None


def columns_of(line):
    """How many columns the first line names, and where it has the three; None is 40."""
    fields = fields_of(line)
    if fields is None or any(fields.count(name) != 1 for name in NAMES):
        return None
    return len(fields), [fields.index(name) for name in NAMES]


def read(columns, line):
    """What is printed for a later line."""
    if columns is None:
        return "no 40"
    count, places = columns
    fields = fields_of(line)
    if fields is None or len(fields) != count:
        return "no 41"
    values = [fields[place] for place in places]
    if not all(re.fullmatch(form, value) and int(value) in allowed for value, (form, allowed) in zip(values, VALUES)):
        return "no 42"
    return "5 %d %d %d" % tuple(map(int, values))


def run(log):
    """What is told, line by line. Under a first line that is over-long no column is known."""
    lines = lines_of(log)
    if not lines or too_long(*lines[0]):
        return ["long"] * len(lines)
    columns = columns_of(lines[0][0])
    later = ["long" if too_long(line, end) else read(columns, line) for line, end in lines[1:]]
    return ["header" if columns else "no 40"] + later


def numbered(told):
    """What is printed: each after its line's number, the first line's being 1."""
    return "".join("%d %s\n" % (n, said) for n, said in enumerate(told, 1))


def standard_input():
    """All of it, in reads of 64 KiB, so that each takes the whole of a packet (log_differential.py)."""
    return b"".join(iter(lambda: os.read(0, 65536), b""))


if __name__ == "__main__":
    sys.stdout.write(numbered(run(standard_input())))
