"""Writes data/, args and stdout of crates/log_export: logs (LOGS below), and what meter_log.py prints for them, one after the other. What
most of the logs give is written here by hand, and Python's csv module has to agree on every line where it can:
`python3 tests/make_log_data.py`."""

import io
import pathlib
import sys

import log_csv
import log_draws
from draws import Draws
from meter_log import LONGEST, fields_of, lines_of, numbered, run, too_long

EXPORT_HEADER = b'time,station,temp,"meter, type",cell,unit,flow,Flow,note,"cell"'


def row(temp=b"20", cell=b"3", flow=b"120", note=b"", first=b"2031-05-04 06:00", last=b"9", end=b"\r\n"):
    """A line of the export."""
    return b",".join((first, b"North", temp, b'"M, 2"', cell, b"l/s", flow, b"256", note, last)) + end


def right():
    """Lines that give an entry, with it: values at their ends and in each length, and what other fields may hold."""
    temps = {b"85": 85, b"085": 85, b"-40": -40, b"-040": -40, b"-39": -39, b"-1": -1, b"-007": -7}
    temps |= {b"0": 0, b"-0": 0, b"-00": 0, b"-000": 0, b"000": 0}
    cells = {b"0": 0, b"00": 0, b"000": 0, b"7": 7, b"07": 7, b"007": 7, b"15": 15, b"015": 15}
    flows = {b"0": 0, b"00": 0, b"5": 5, b"05": 5, b"99": 99, b"100": 100, b"255": 255}
    quoted = (b"seal, worn", b'say ""when""', b'""', b'"",""', b",", b"", b" ", b"15", b"\r", b"\0", b"cell")
    bare = (b"worn", b" ", b"\t", b"\0", b"a\rb", b"\r", b"'", b"\\", b";", b"\x80\xa0\xfe\xff", b"\xef\xbb\xbf", b"\x0b\x0c\x1a\x85")
    others = [row(note=b'"%s"' % note) for note in quoted] + [row(note=note) for note in bare]
    others += [row(first=b""), row(first=b'"2031-05-04, 06:00"'), row(last=b""), row(last=b'"9"')]
    others += [row(end=b"\n"), row(last=b'"9"', end=b"\n"), row(end=b"\r\r\n")]
    lines = [(row(temp=temp), "5 3 120 %d" % n) for temp, n in temps.items()]
    lines += [(row(cell=cell), "5 %d 120 20" % n) for cell, n in cells.items()]
    lines += [(row(flow=flow), "5 3 %d 20" % n) for flow, n in flows.items()]
    return lines + [(line, "5 3 120 20") for line in others]


def not_numbers():
    """Lines that give 42: each of the three out of range, and of another form."""
    temps = (b"86", b"-41", b"99", b"100", b"127", b"128", b"-128", b"215", b"216", b"255", b"-", b"--5", b"-0000", b"- 5")
    cells = (b"16", b"016", b"99", b"256", b"259", b"-0", b"-3", b"-")
    flows = (b"256", b"257", b"999", b"-0", b"-120", b"-", b"65536")
    forms = (b"", b" 7", b"7 ", b"\t7", b"+7", b"0007", b"0000", b"4294967303", b"7.0", b"7e0", b"0x7", b"7-", b'"7"', b'""', b'" 7"')
    forms += (b"7\r", b"\r7", b"7\0", b"\0", b"/", b":", b"7a", b"a7", b"seven", b"\xd9\xa7", b"\xb7", b"\xff", b"7;", b"'7'", b"temp")
    lines = [row(temp=temp) for temp in temps] + [row(cell=cell) for cell in cells] + [row(flow=flow) for flow in flows]
    lines += [row(**{name: form}) for form in forms for name in ("temp", "cell", "flow")]
    lines += [row(temp=b'"-7"'), row(temp=b"86", cell=b"16", flow=b"256"), b",,,,,,,,,\r\n"]
    return [(line, "no 42") for line in lines]


def not_fields():
    """Lines that give 41: too few and too many fields, and quotes that are not sound, also where a number is none."""
    unsound = (b'"', b'"""', b'a"', b'"a', b'a"b', b'"a"b', b'"a" ', b' "a"', b'a"b"', b'""a', b'"a""', b'""a""', b'"a""b', b'a""b', b'"a"b"')
    unsound += (b"\"a\"'", b'"a"\0', b'\0"a"')
    lines = [row().replace(b"North,", b""), row(note=b"seal, worn"), row(last=b"9,"), row(cell=b"3,")]
    lines += [b"\r\n", b"\n", b"\r\r\n", b",\r\n", b'""\r\n', b'"\r\n', b"3,120,20\r\n", b"#\n"]
    lines += [row(note=note) for note in unsound]
    lines += [row(first=b'"'), row(last=b'"'), row(last=b'"9'), row(last=b'9"'), row(last=b'"9"', end=b"\r\r\n")]
    lines += [row(cell=b'3"'), row(cell=b'"3'), row(temp=b"86", note=b'"'), row(temp=b"86", last=b"9,9")]
    # A quoted field with a line feed, or with a carriage return and a line feed, is two lines.
    cut = row(note=b'"seal', end=b"").removesuffix(b",9")
    lines += [cut + b"\n", b'worn",9\r\n', cut + b"\r\n", b'worn",9\r\n']
    # What stands between such lines may be right.
    return [(line, "no 41") for line in lines] + [(row(last=b'"9', end=b"\n"), "no 41"), (row(), "5 3 120 20"), (b'"\r\n', "no 41")]


def export():
    """A log as loggers and spreadsheets write it. Its last line is empty."""
    cases = [(EXPORT_HEADER + b"\r\n", "header"), (row(), "5 3 120 20")] + right() + not_numbers() + not_fields()
    cases += [(row(temp=b"-12", cell=b"11", flow=b"64"), "5 11 64 -12"), (b"\r\n", "no 41")]
    return b"".join(line for line, _ in cases), [said for _, said in cases]


def mark():
    """A byte order mark is part of the first name. The last line ends with the input, so that its carriage return is part of `temp`."""
    lines = (b"\xef\xbb\xbftime,cell,flow,temp", b"06:00,1,2,-3", b"06:01,1,2,3\r", b"\xef\xbb\xbf06:02,4,5,6", b"06:03,1,2,3\r")
    return b"\n".join(lines), ["header", "5 1 2 -3", "5 1 2 3", "5 4 5 6", "no 42"]


def mark_cell():
    return b"\xef\xbb\xbfcell,flow,temp\r\n1,2,3\r\n\xef\xbb\xbf1,2,3\r\n\"\r\n\r\n1,2\r\n", ["no 40"] * 6


def spaces():
    return b"cell, flow, temp\n1,2,3\n1, 2, 3\n\ncell,flow,temp\n", ["no 40"] * 5


def twice():
    return b"cell,flow,temp,note,flow\n1,2,3,,2\n1,2,3,,\n1,2,3\n", ["no 40"] * 4


def unsound():
    return b'cell,flow,temp,"note\n1,2,3,4\n1,2,3,"\n', ["no 40"] * 3


def wide():
    """A hundred columns, the three names 17th, 60th and last; the last line has no line feed."""
    draws = Draws("wide log")
    names = [draws.one_of(log_draws.OTHER_NAMES) for _ in range(100)]
    for place, name in ((16, b"temp"), (59, b"cell"), (99, b"flow")):
        names[place] = name
    lines = [b",".join(names)] + [log_draws.line(draws, names) for _ in range(299)]
    lines += [b"," * 98, b"," * 99, b"," * 100, b",".join(b"7" for _ in range(100))]
    return b"\n".join(lines), None


def filled(size, end=b"\n", note=b"x", before=b"7,200,-7,"):
    """A line of `size` bytes before its line feed."""
    return before + note * (size - len(before) - len(end.removesuffix(b"\n"))) + end


def long():
    """Lines at the limit and past it, between others: the limit counts the carriage return, and bytes after a long line are read anew."""
    short, entry = (b"7,200,-7,x\r\n", "5 7 200 -7"), "5 7 200 -7"
    cases = [(b"cell,flow,temp,note\r\n", "header"), (filled(LONGEST), entry), short, (filled(LONGEST + 1), "long"), short]
    cases += [(filled(LONGEST, b"\r\n"), entry), (filled(LONGEST + 1, b"\r\n"), "long"), short, (b"\n", "no 41")]
    cases += [(filled(LONGEST, note=b","), "no 41"), (filled(200000), "long"), short, (filled(2 * LONGEST + 2, note=b'"'), "long"), short]
    cases += [(b"7,200,-70,\n", "no 42"), (filled(200000, b""), "long")]
    return b"".join(line for line, _ in cases), [said for _, said in cases]


def long_header():
    """A first line that would be right but for its length: under it no column is known."""
    return filled(70000, before=b"cell,flow,temp,") + b"7,200,-7,x\n\n7,200,-7,x\n", ["long"] * 4


def reads():
    """An ordinary log of more than three reads."""
    draws = Draws("log in reads")
    names = log_draws.header(draws, 6)
    text = b",".join(names) + b"\r\n"
    while len(text) < 200000:
        text += b"".join(log_draws.line(draws, names) + log_draws.end(draws) for _ in range(50))
    return text, None


def middle(size, feed):
    """A log whose first `size` bytes end in the middle of a reading's flow, or with its line feed: a reading that is lost or told in parts
    shows."""
    text, said = b"cell,flow,temp,note\n", ["header"]
    last, split = b"14,253,-39,\n", 12 if feed else 4
    while len(text) + 1000 < size:
        text, said = text + filled(899, before=b"3,120,20,"), said + ["5 3 120 20"]
    text, said = text + filled(size - split - len(text) - 1, before=b"3,120,20,"), said + ["5 3 120 20"]
    text, said = text + last + b"15,254,85,\n13,252,-40,", said + ["5 14 253 -39", "5 15 254 85", "5 13 252 -40"]
    assert text[:size].endswith(last[:split])
    return text, said


# file: the log, and what some of its lines give
LOGS = {
    "export.csv": (export, ("no 41", "no 42")),
    "mark.csv": (mark, ("no 42",)),
    "mark_cell.csv": (mark_cell, ("no 40",)),
    "spaces.csv": (spaces, ("no 40",)),
    "twice.csv": (twice, ("no 40",)),
    "unsound.csv": (unsound, ("no 40",)),
    "wide.csv": (wide, ("no 41", "no 42")),
    "long.csv": (long, ("no 41", "no 42", "long")),
    "long_header.csv": (long_header, ("long",)),
    "reads.csv": (reads, ("no 41", "no 42")),
}
for size in (65535, 65536, 65537):
    LOGS["middle_%d.csv" % size] = (lambda size=size: middle(size, False), ())
    LOGS["feed_%d.csv" % size] = (lambda size=size: middle(size, True), ())


def by_csv(log, printed):
    """csv on the lines where it has to agree; how many. In the first line, names in quotes are put as other names."""
    lines = lines_of(log)
    if too_long(*lines[0]) or fields_of(lines[0][0]) is None:
        return 0
    first = b",".join(b"other" if log_csv.quoted_word(name) else name for name in fields_of(lines[0][0]))
    lines[0] = (first, lines[0][1])
    same = [(line, said) for line, said in zip(lines, printed) if log_csv.comparable(*line)]
    text = b"".join(line + end for (line, end), _ in same).decode("latin-1")
    assert list(log_csv.printed(io.StringIO(text, newline=""))) == [said for _, said in same]
    return len(same)


def main():
    crate = pathlib.Path(sys.argv[1] if len(sys.argv) > 1 else pathlib.Path(__file__).parents[1] / "crates" / "log_export")
    (crate / "data").mkdir(parents=True, exist_ok=True)
    out = ""
    for name, (make, wanted) in LOGS.items():
        log, by_hand = make()
        told = run(log)
        for line, said, right_one in zip(lines_of(log), told, by_hand or told):
            assert said == right_one, (name, line, said, right_one)
        assert len(told) == len(by_hand or told) and set(wanted) <= set(told), name
        same = by_csv(log, told)
        (crate / "data" / name).write_bytes(log)
        out += numbered(told)
        made = sum(line.startswith("5") for line in told)
        print("%s: %d lines, %d bytes, %d entries, %d lines as csv reads them" % (name, len(told), len(log), made, same))
    (crate / "args").write_text("".join(name + "\n" for name in LOGS))
    (crate / "stdout").write_text(out)


if __name__ == "__main__":
    main()
