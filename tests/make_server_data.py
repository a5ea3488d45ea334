"""Writes crates/server_run/stdin, a list of calls on relay states in the form that server_run.py describes, and
crates/server_run/stdout, what cop.py has a program print for it."""

import pathlib
import sys
from collections import deque

import cop
import server_run
from call_lines import hexadecimal
from cop import ADD, ASIDE, DONE, READ, READ_TEMP, SET, SET_WITH_TEMP, TAKE, Entry, warm
from draws import LAST_BYTES, Draws
from server_run import LAYOUT

VANS = range(1, 9)
KEYS = bytes((7 * i + 3) % 256 for i in range(256))


class Script:
    """The lines of input, and those that they give. Each call gives the outcome and the out bytes lent."""

    def __init__(self):
        self.calls = []
        self.lines = []
        self.slots = [bytes(LAYOUT.size)] * 2
        self.outcomes = set()

    def note(self, text):
        self.calls.append("# " + text)
        self.lines.append("# " + text)

    def asked(self, *words):
        self.calls.append(" ".join(map(str, words)))
        outcome, data, out = server_run.run(self.slots, self.calls[-1].split(" "))
        self.lines.append(LAYOUT.line(outcome, data, out))
        self.outcomes.add(outcome if outcome[0] == "no" else outcome[0])
        return outcome, out

    def fresh(self, to=0):
        self.asked("fresh", to)

    def change(self, name, value, index=0, slot=0, to=0):
        _, width, elements = LAYOUT.fields[LAYOUT.names.index(name)]
        field = name if elements == 1 else "%s[%d]" % (name, index)
        self.asked("change", slot, to, LAYOUT.place(name, index), hexadecimal(value.to_bytes(width, "big")), field)

    def take(self, number, message, room=LAYOUT.room, slot=0, to=0):
        assert len(message) <= 4096 and room <= LAYOUT.room
        return self.asked("receive", slot, to, number, room, hexadecimal(message))

    def look(self, number, message, room=LAYOUT.room, slot=0):
        """A call whose state afterwards is put into slot 1."""
        return self.take(number, message, room, slot, 1)[0]


def invoke(van, count, kind=ADD, cell=0, amount=1, last=0):
    return cop.in_message(KEYS, Entry(count, kind, cell, amount, last), van)


def commit(van, entry, place, status=DONE):
    value = cop.digest(b"value %d" % place)
    return cop.co_message(KEYS, entry, van, place, value, status)


def changed(message, at, mask):
    return message[:at] + bytes([message[at] ^ mask]) + message[at + 1 :]


def drawn_runs(s):
    draws = Draws("server runs")
    for world, lent in enumerate((2624, 2624, 400)):
        s.note("Drawn run %d of eight vans, with messages of other lines and earlier ones between" % world)
        s.fresh()
        books = {van: cop.open_book(van, KEYS)[0] for van in VANS}
        up = {van: deque() for van in VANS}
        down = {van: deque() for van in VANS}
        sent = []
        for step in range(420):
            van = 1 + draws.below(8)
            act = draws.below(3)
            if act == 0:
                entry = draws.entry(1, range(2), (0, 1, 2, 100))
                books[van], outcome, out = cop.make(books[van], *entry[1:], bytes(43))
                if outcome[0] == "made":
                    up[van].append(out)
            elif act == 1 and up[van]:
                if sent and draws.below(4) == 0:
                    s.look(1 + draws.below(9), draws.one_of(sent))
                sent.append(up[van][0])
                outcome, out = s.take(van, up[van][0], draws.one_of((lent, lent, lent, lent, lent, 43, 80, 0)))
                if outcome[0] != "no":
                    up[van].popleft()
                if outcome[0] == "placed":
                    down[van].append(out[: 3 + 41 * out[2]])
                for k in range(outcome[1] if outcome[0] == "passed" else 0):
                    for other in VANS:
                        down[other].append(out[80 * k : 80 * k + 80])
            elif act == 2:
                for _ in range(4):
                    if down[van]:
                        books[van], outcome, out = cop.take(books[van], down[van].popleft(), bytes(80))
                        assert outcome[0] in ("answer", "aside", "confirm")
                        if outcome[0] != "confirm":
                            up[van].append(out)


def three_pending(s):
    """Places 3, 4 and 5 wait, of vans 1, 2 and 1; place 4 has its commit."""
    s.fresh()
    for van, count, place in ((1, 1, 1), (2, 1, 2)):
        s.take(van, invoke(van, count))
        s.take(van, commit(van, Entry(count, ADD, 0, 1), place))
    s.take(1, invoke(1, 2, SET, 3, 9))
    s.take(2, invoke(2, 2, TAKE, 3, 4))
    s.take(1, invoke(1, 3, READ, 15, 0))
    assert s.take(2, commit(2, Entry(2, TAKE, 3, 4), 4, ASIDE))[0] == ("passed", 0)


def damaged_messages(s):
    s.note("Three places wait: a good IN and a good CO")
    three_pending(s)
    good_in, good_co = invoke(2, 3, SET, 1, 2), commit(1, Entry(2, SET, 3, 9), 3)
    assert s.look(2, good_in) == ("placed", 6)
    assert s.look(1, good_co) == ("passed", 2)
    for van, good in ((2, good_in), (1, good_co)):
        for mask in (1, 0x80):
            s.note("%s: each byte under the tag and the tag's first changed in turn, by exclusive-or with %d" % (good[:2].decode(), mask))
            for at in range(49 if good == good_co else 12):
                s.look(van, changed(good, at, mask))
        s.note("Lengths and marks")
        for message in (b"", good[:1], good[:2], good[:10], good[:11], good[:-1], good + b"\0", good + good):
            s.look(van, message)
        for mark in (b"IN", b"RE", b"CO", b"BR", b"in", b"\0\0"):
            if mark != good[:2]:
                s.look(van, mark + good[2:])
        s.note("Lines of no van, and of another")
        for line in (0, 1, 2, 3, 8, 9, 10, 255):
            s.look(line, good)
            s.look(line, b"")
            s.look(line, changed(good, 10, good[10] ^ line))
    s.note("Entries and statuses that are not allowed")
    for entry in (
        Entry(0, ADD, 0, 1),
        Entry(cop.LIMIT + 1, ADD, 0, 1),
        Entry(2**32 - 1, ADD, 0, 1),
        Entry(3, 0, 0, 1),
        Entry(3, 7, 0, 1),
        Entry(3, 7, 0, 0),
        Entry(3, ADD, 16, 1),
        Entry(3, SET_WITH_TEMP, 16, 1),
        Entry(3, READ, 0, 1),
        Entry(3, READ_TEMP, 0, 1),
        *(Entry(3, kind, 0, 0, last) for kind in (ADD, TAKE, READ, SET, READ_TEMP) for last in (1, 85, 255)),
        *(Entry(3, *warm(0, 1, temperature)) for temperature in (86, 127, -128, -41)),
    ):
        assert s.look(2, cop.in_message(KEYS, entry, 2)) == s.look(2, commit(2, entry, 4)) == ("no", 30)
    for status in (2, 3, 128, 255):
        s.look(1, commit(1, Entry(2, SET, 3, 9), 3, status))


def temperatures(s):
    s.note("Kinds 4, 5 and 6 with each last byte about the ends: an IN, and a CO with that byte changed; then all that came through passed on")
    s.fresh()
    placed = []
    for last in LAST_BYTES:
        for kind in (SET, SET_WITH_TEMP, READ_TEMP):
            entry = Entry(len(placed) + 1, kind, 7, 0, last)
            fits = last == 0 or kind == SET_WITH_TEMP and (last <= 85 or last >= 216)
            outcome, _ = s.take(4, cop.in_message(KEYS, entry, 4))
            assert outcome == (("placed", entry.count) if fits else ("no", 30))
            placed += [entry] * fits
            s.look(4, commit(4, entry._replace(last=last ^ 1), entry.count))
    for place, entry in enumerate(placed, 1):
        assert s.take(4, commit(4, entry, place, place % 2))[0] == ("passed", 1)
    s.note("A stored kind 5 and kind 6, a byte of theirs changed: at and past the ends")
    s.fresh()
    s.take(4, invoke(4, 1, *warm(7, 9, -40)))
    s.take(5, invoke(5, 1, READ_TEMP, 7, 0))
    for last in LAST_BYTES:
        for item in (0, 1):
            s.change("items", last, 41 * item + 7, to=1)
            s.take(6, invoke(6, 1), slot=1, to=1)
    for at, value in ((4, 6), (4, 7), (4, 4), (5, 16), (6, 0), (41 + 4, 5), (41 + 4, 3), (41 + 4, 7), (41 + 6, 1)):
        s.change("items", value, at, to=1)
        s.take(6, invoke(6, 1), slot=1, to=1)


def invokes(s):
    s.note("Counts: only one above the last placed")
    three_pending(s)
    for count in (1, 2, 3, 4, 5, 258, cop.LIMIT):
        s.look(1, invoke(1, count))
        s.look(2, invoke(2, count))
        s.look(8, invoke(8, count))
    s.note("Out bytes for RE: 3 + 41 for each place")
    for room in (0, 3, 44, 126, 127, 166, 167, 168, 4096):
        s.look(2, invoke(2, 3), room)
    s.note("The highest count")
    s.change("last", cop.LIMIT - 1, 1, to=1)
    assert s.take(2, invoke(2, cop.LIMIT), slot=1, to=1)[0][0] == "placed"
    s.look(2, invoke(2, cop.LIMIT), slot=1)
    s.look(2, invoke(2, 1), slot=1)
    s.look(2, invoke(2, cop.LIMIT + 1), slot=1)


def commits(s):
    s.note("Places of a CO: passed on, waiting, not given")
    three_pending(s)
    own, other, last = Entry(2, SET, 3, 9), Entry(2, TAKE, 3, 4), Entry(3, READ, 15, 0)
    for place in (0, 1, 2, 3, 4, 5, 6, 34, 35, 36, 2**24 + 3, cop.LIMIT, 2**32 - 1):
        for van, entry in ((1, own), (2, other), (1, last), (1, Entry(1, ADD, 0, 1))):
            s.look(van, commit(van, entry, place))
    s.note("Another's entry as an own one")
    s.look(1, commit(1, other, 4))
    s.look(2, commit(2, own, 3))
    s.note("A commit at place 4 again: the same one, another digest, another status")
    for message in (commit(2, other, 4, ASIDE), commit(2, other, 4), changed(commit(2, other, 4, ASIDE), 20, 1)):
        assert s.look(2, message) == ("no", 36)
    s.note("Out bytes for two BRs, none for none")
    for room in (0, 79, 80, 159, 160, 161):
        s.look(1, commit(1, own, 3), room)
        s.look(1, commit(1, last, 5, ASIDE), room)
    s.note("The last first, then the first: three BRs")
    s.take(1, commit(1, last, 5, ASIDE))
    assert s.take(1, commit(1, own, 3), 240)[0] == ("passed", 3)
    s.look(1, commit(1, own, 3))
    assert s.take(2, invoke(2, 3))[0] == ("placed", 6)


def thirty_two(s):
    s.note("32 places wait, of all eight vans; then 33 for each")
    s.fresh()
    entries = [Entry(1 + k // 8, ADD, k % 16, k) for k in range(32)]
    for k, entry in enumerate(entries):
        assert s.take(1 + k % 8, cop.in_message(KEYS, entry, 1 + k % 8), 3 + 41 * (k + 1))[0] == ("placed", k + 1)
    for van in VANS:
        assert s.look(van, invoke(van, 5)) == ("no", 33)
    s.note("A wrong count comes before, out bytes after")
    s.look(1, invoke(1, 4))
    s.look(1, invoke(1, 5), 0)
    s.note("Commits in a drawn order, the first place last: 32 BRs")
    draws = Draws("thirty-two commits")
    order = list(range(1, 32))
    for k in range(31):
        at = order.pop(draws.below(len(order)))
        message = commit(1 + at % 8, entries[at], at + 1, draws.below(2))
        assert s.take(1 + at % 8, message, 0)[0] == ("passed", 0)
        if k % 8 == 0:
            s.look(1 + at % 8, message)
    first = commit(1, entries[0], 1)
    for room in (0, 80, 2559):
        assert s.look(1, first, room) == ("no", 7)
    assert s.look(1, first, 2560) == ("passed", 32)
    s.note("One BR, then places 2 to 32 wait no more: the place serves again")
    s.take(1, first, 2560)
    for van in VANS:
        s.take(van, invoke(van, 5))
    s.take(2, commit(2, Entry(5, ADD, 0, 1), 34))
    s.take(1, commit(1, Entry(5, ADD, 0, 1), 33), 160)
    s.note("One place passed on with 32 waiting: room for one more")
    s.fresh()
    for k, entry in enumerate(entries):
        s.take(1 + k % 8, cop.in_message(KEYS, entry, 1 + k % 8))
    assert s.take(1, first)[0] == ("passed", 1)
    assert s.take(1, invoke(1, 5))[0] == ("placed", 33)
    assert s.take(2, invoke(2, 5))[0] == ("no", 33)


def limits(s):
    s.note("The highest places")
    s.fresh()
    for t in (cop.LIMIT - 2, cop.LIMIT - 1, cop.LIMIT):
        s.change("t", t, slot=0, to=1)
        s.change("b", t, slot=1, to=1)
        for van in (1, 2, 3):
            s.take(van, invoke(van, 1), slot=1, to=1)
        for van, place in ((3, cop.LIMIT + 1), (2, cop.LIMIT), (1, cop.LIMIT - 1), (1, cop.LIMIT)):
            s.take(van, commit(van, Entry(1, ADD, 0, 1), place), slot=1, to=1)
        s.take(4, invoke(4, 1), slot=1, to=1)
        s.take(4, invoke(4, 1), 0, slot=1, to=1)
        s.take(4, invoke(4, 2), 0, slot=1, to=1)
    s.note("33 comes before 34")
    for k in range(32):
        s.take(1 + k % 8, invoke(1 + k % 8, 1 + k // 8))
    s.change("t", cop.LIMIT)
    s.change("b", cop.LIMIT - 32)
    s.look(1, invoke(1, 5))
    s.look(1, commit(1, Entry(1, ADD, 0, 1), cop.LIMIT - 31), 79)
    s.take(1, commit(1, Entry(1, ADD, 0, 1), cop.LIMIT - 31), 80)
    s.look(1, invoke(1, 5))
    s.look(1, invoke(1, 5), 0)


def ranges(s):
    s.note("Fields at the ends of their ranges and out of them: each time an IN, a CO, and bytes of no form")
    three_pending(s)
    good_in, good_co = invoke(2, 3), commit(1, Entry(2, SET, 3, 9), 3)
    for name, value, index in (
        ("t", 1, 0),
        ("t", 2, 0),
        ("t", 4, 0),
        ("t", 6, 0),
        ("t", 34, 0),
        ("t", 35, 0),
        ("t", cop.LIMIT + 1, 0),
        ("t", 2**32 - 1, 0),
        ("b", 1, 0),
        ("b", 3, 0),
        ("b", 5, 0),
        ("b", 6, 0),
        ("b", 2**32 - 1, 0),
        ("last", cop.LIMIT, 0),
        ("last", cop.LIMIT + 1, 0),
        ("last", cop.LIMIT + 1, 7),
        ("last", 2**32 - 1, 4),
        ("items", 1, 0),
        ("items", 0, 3),
        ("items", 0, 4),
        ("items", 5, 4),
        ("items", 6, 4),
        ("items", 7, 4),
        ("items", 15, 5),
        ("items", 16, 5),
        ("items", 1, 7),
        ("items", 0, 8),
        ("items", 8, 8),
        ("items", 9, 8),
        ("items", 255, 8),
        ("items", 77, 40),
        ("items", 0, 41 + 3),
        ("items", 9, 2 * 41 + 8),
        ("items", 1, 2 * 41 + 6),
        ("items", 1, 3 * 41),
        ("items", 1, 1311),
        ("statuses", 0, 0),
        ("statuses", 1, 0),
        ("statuses", 2, 0),
        ("statuses", 3, 0),
        ("statuses", 255, 2),
        ("statuses", 0, 1),
        ("statuses", 1, 1),
        ("statuses", 1, 3),
        ("statuses", 2, 31),
        ("digests", 1, 0),
        ("digests", 1, 31),
        ("digests", 99, 32),
        ("digests", 1, 64),
        ("digests", 1, 95),
        ("digests", 1, 96),
        ("digests", 128, 1023),
        ("tags", 1, 0),
        ("tags", 99, 63),
        ("tags", 1, 95),
        ("tags", 1, 96),
        ("tags", 1, 1023),
    ):
        s.change(name, value, index, to=1)
        s.take(2, good_in, slot=1, to=1)
        s.change(name, value, index, to=1)
        s.take(1, good_co, slot=1, to=1)
        s.change(name, value, index, to=1)
        s.take(9, b"", 0, slot=1, to=1)
    s.note("Commits at the first places that wait, by hand: they go with the next CO")
    s.change("statuses", 1, 0)
    s.look(2, good_in)
    s.take(1, commit(1, Entry(3, READ, 15, 0), 5), 239, to=1)
    assert s.take(1, commit(1, Entry(3, READ, 15, 0), 5), 240)[0] == ("passed", 3)


SECTIONS = (drawn_runs, damaged_messages, temperatures, invokes, commits, thirty_two, limits, ranges)


def main():
    script = Script()
    for section in SECTIONS:
        section(script)
    wanted = {"fresh", "changed", "placed", "passed"} | {("no", n) for n in (7, 8, 30, 31, 32, 33, 34, 35, 36)}
    assert script.outcomes == wanted, script.outcomes ^ wanted
    here = pathlib.Path(sys.argv[1] if len(sys.argv) > 1 else pathlib.Path(__file__).parents[1] / "crates/server_run")
    here.mkdir(parents=True, exist_ok=True)
    text = "\n".join(script.calls) + "\n"
    assert len(text) <= 1048576
    (here / "stdin").write_text(text)
    (here / "stdout").write_text("\n".join(script.lines) + "\n")
    print("%d lines, %d bytes of input" % (len(script.calls), len(text)))


if __name__ == "__main__":
    main()
