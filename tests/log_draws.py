"""Drawn meters' logs: lines that are right, and such with a value or some bytes changed."""

from meter_log import NAMES, parts_of

OTHER_NAMES = (b"", b"time", b"station", b"note", b"Flow", b" temp", b"cells", b"tem", b'"cell"', b'"flow"', b'"flow, temp"')
OTHER_NAMES += (b'"say ""temp"""', b"\xef\xbb\xbfcell")
OTHER_VALUES = (b"", b"7", b"-3", b"cell", b"12.5", b"l/s", b" x ", b'""', b'"7"', b'"a, b"', b'"say ""no"""', b'""","""')
OTHER_VALUES += (b'"' + b"," * 9 + b'"', b"\0\x80\xff")
# Numbers about the ends of what is allowed, and other forms.
NUMBERS = (b"0", b"00", b"000", b"0000", b"-0", b"-000", b"-0000", b"1", b"-1", b"01", b"9", b"15", b"015", b"0015", b"16", b"39", b"-39")
NUMBERS += (b"40", b"-40", b"-040", b"41", b"-41", b"84", b"85", b"085", b"86", b"-85", b"99", b"100", b"128", b"-128", b"215", b"-216")
NUMBERS += (b"254", b"255", b"256", b"257", b"265", b"999", b"-999", b"1000", b"65536", b"4294967296", b"18446744073709551621")
NUMBERS += (b"", b"-", b"+5", b"--5", b"5-", b"- 5", b" 5", b"5 ", b"\t5", b"5.0", b"5,0", b"5e0", b"0x5", b"1_0", b'"5"', b'"-5"', b'5"', b'"5')
NUMBERS += (b'""', b"5\r", b"\r5", b"5\0", b"/", b":", b"1:", b"a", b"temp", b"\xd9\xa5", b"\xb2", b"\xe2\x88\x925")
TOKENS = (b",", b",", b'"', b'"', b'""', b'","', b"0", b"1", b"5", b"9", b"-", b"+", b" ", b"a", b"\r", b"\n", b"\r\n", b"\0", b"\x80", b"\xff")
TOKENS += NAMES


def spelled(draws, low, high):
    n = low + draws.below(high - low + 1)
    return b"%s%0*d" % (b"-" if n < 0 else b"", 1 + draws.below(3), abs(n))


def value(draws, name):
    """A value that is right under a name."""
    if name in NAMES:
        return spelled(draws, *((0, 15), (0, 255), (-40, 85))[NAMES.index(name)])
    return draws.one_of(OTHER_VALUES)


def header(draws, others):
    """The three names in a drawn order among others."""
    names = [draws.one_of(OTHER_NAMES) for _ in range(others)]
    for name in NAMES:
        names.insert(draws.below(len(names) + 1), name)
    return names


def changed(draws, line):
    """The line with some bytes put in, left out or put for others."""
    for _ in range(1 + draws.below(3)):
        at = draws.below(len(line) + 1)
        gone = draws.below(3) if draws.below(3) else 0
        line = line[:at] + (draws.one_of(TOKENS) if draws.below(4) else b"") + line[at + gone :]
    return line


def line(draws, names):
    """A later line: one of three is right, one has other values under some names, one has other bytes or fields."""
    fields = [value(draws, name) for name in names]
    draw = draws.below(12)
    if 4 <= draw < 8:
        for _ in range(1 + draws.below(2)):
            fields[names.index(draws.one_of(NAMES))] = draws.one_of(NUMBERS)
    elif draw == 8:
        del fields[draws.below(len(fields))]
    elif draw == 9:
        fields.insert(draws.below(len(fields) + 1), draws.one_of(OTHER_VALUES))
    joined = b",".join(fields)
    return changed(draws, joined) if draw > 9 else joined


def end(draws):
    return draws.one_of((b"\n", b"\n", b"\n", b"\r\n", b"\r\n", b"\r\n", b"\r\r\n"))


def spoiled(draws, names):
    """A first line that is mostly refused: one of the three names once more, or left out, or some bytes changed."""
    draw = draws.below(4)
    if draw == 0:
        names = names + [draws.one_of(NAMES)]
    elif draw == 1:
        gone = draws.one_of(NAMES)
        names = [name for name in names if name != gone]
    return b",".join(names) if draw < 2 else changed(draws, b",".join(names))


def log(draws, lines, spoil_header=False):
    """A log of so many later lines or a few more; its last line may have no line feed."""
    names = header(draws, draws.below(8))
    first = spoiled(draws, names) if spoil_header else b",".join(names)
    text = first + b"".join(end(draws) + line(draws, names) for _ in range(lines))
    return text + draws.one_of((b"", b"\n", b"\r\n", b"\r", b"\n\n", b"\n\r"))


def added(draws, lines):
    """Lines (with their ends) with a column more, at one position: another name, sound quoting, no carriage return or line feed. A line
    that has no such position stays as it is; an unsound one stays so wherever a field is put between its parts."""
    at = draws.below(1 + len(parts_of(lines[0][0])))
    more = b""
    for n, (text, ending) in enumerate(lines):
        parts = parts_of(text)
        if at <= len(parts):
            parts.insert(at, draws.one_of(OTHER_VALUES if n else OTHER_NAMES))
        more += b",".join(parts) + ending
    return more
