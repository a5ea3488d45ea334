"""Writes crates/client_run/stdin, a list of calls on vans' books in the form that client_run.py describes, and
crates/client_run/stdout, what cop.py has a program print for it."""

import pathlib
import sys
from collections import deque
from itertools import product

import call_lines
import cop
from call_lines import hexadecimal
from client_run import LAYOUT, book_of, call, image
from cop import ADD, ASIDE, DONE, READ, READ_TEMP, SET, SET_WITH_TEMP, TAKE, Entry, last_byte, warm
from draws import LAST_BYTES, Draws


class Script:
    """The lines of input, and those that they give. Each call gives the outcome and the bytes written."""

    def __init__(self):
        self.calls = []
        self.lines = []
        self.slots = [image(cop.NO_BOOK)] * 4
        self.outcomes = set()

    def book(self, slot):
        return book_of(self.slots[slot])

    def asked(self, *words):
        self.calls.append(" ".join(map(str, words)))

    def told(self, to, data, outcome, out=None):
        self.slots[to] = data
        self.lines.append(LAYOUT.line(outcome, data, out))
        self.outcomes.add(outcome[0] if outcome[0] not in ("no", "halt") else outcome)

    def note(self, text):
        self.asked("#", text)
        self.lines.append("# " + text)

    def open(self, to, van, keys):
        self.asked("open", to, van, hexadecimal(keys))
        book, outcome = cop.open_book(van, keys)
        self.told(to, image(book), outcome)
        return outcome

    def call(self, slot, to, room, step):
        assert room <= LAYOUT.room
        data, outcome, out = call(self.slots[slot], room, step)
        self.told(to, data, outcome, out)
        return outcome, out

    def make(self, slot, kind, cell, amount, last=0, room=43, to=None):
        to = slot if to is None else to
        self.asked("invoke", slot, to, kind, cell, amount, last, room)
        return self.call(slot, to, room, lambda book, out: cop.make(book, kind, cell, amount, last, out))

    def take(self, slot, message, room=80, to=None):
        assert len(message) <= 4096
        to = slot if to is None else to
        self.asked("receive", slot, to, room, hexadecimal(message))
        return self.call(slot, to, room, lambda book, out: cop.take(book, message, out))

    def change(self, slot, name, value, index=0, to=None):
        to = slot if to is None else to
        _, width, elements = LAYOUT.fields[LAYOUT.names.index(name)]
        at, value = LAYOUT.place(name, index), value.to_bytes(width, "big")
        field = name if elements == 1 else "%s[%d]" % (name, index)
        self.asked("change", slot, to, at, hexadecimal(value), field)
        self.told(to, call_lines.changed(self.slots[slot], at, value), ("changed",))

    def copy(self, slot, to):
        """A change that changes nothing."""
        self.change(slot, "number", self.slots[slot][0], to=to)

    def with_statuses(self, slot, statuses, to):
        """The book with these status bytes (0 none, 1 done, 2 aside) at the first places held."""
        self.copy(slot, to)
        for k, status in enumerate(statuses):
            self.change(to, "statuses", status, k)

    def with_hand(self, slot, entry, to):
        """The book with this entry in hand."""
        self.copy(slot, to)
        for field, value in entry._asdict().items():
            self.change(to, "hand." + field, value)


KEYS = bytes((7 * i + 3) % 256 for i in range(256))  # all 256 bytes, so that no two keys share one


class World:
    """Vans 1, 2 and 3 in slots 0, 1 and 2, with cop.py's relay between them."""

    def __init__(self, script, keys=KEYS):
        self.script = script
        self.relay = cop.Relay()
        self.to_van = {1: deque(), 2: deque(), 3: deque()}
        self.sent = []  # every message that the relay wrote
        for van in self.to_van:
            script.open(van - 1, van, keys)

    def put(self, van, message):
        self.sent.append(message)
        self.to_van[van].append(message)

    def offer(self, van, message):
        self.relay, outcome, out = cop.relay_take(self.relay, van, message, bytes(32 * 80))
        if outcome[0] == "placed":
            self.put(van, out[: 3 + 41 * out[2]])
        for k in range(outcome[1] if outcome[0] == "passed" else 0):
            for other in self.to_van:
                self.put(other, out[80 * k : 80 * k + 80])
        return outcome

    def make(self, van, kind, cell, amount, last=0):
        outcome, out = self.script.make(van - 1, kind, cell, amount, last)
        if outcome[0] == "made":
            assert self.offer(van, out[:43])[0] == "placed"
        return outcome

    def deliver(self, van, room=80):
        outcome, out = self.script.take(van - 1, self.to_van[van][0], room)
        if outcome[0] in ("answer", "aside", "confirm"):
            self.to_van[van].popleft()
        if outcome[0] in ("answer", "aside"):
            assert self.offer(van, out[:80])[0] == "passed"
        return outcome

    def deliver_all(self):
        while any(self.to_van.values()):
            for van in self.to_van:
                if self.to_van[van]:
                    self.deliver(van)


def item(entry, author, keys=KEYS):
    return cop.Item(entry, author, cop.in_tag(keys, entry, author))


NEVER_MADE = item(Entry(9, ADD, 1, 1), 1)  # by van 1


def chain_from(book, items):
    """Chain values from the one at c on, over items at c + 1 and on."""
    chain = [book.chain[0]]
    for k, it in enumerate(items, 1):
        chain.append(cop.chain_value(chain[-1], it.entry, book.c + k, it.author))
    return chain


def br(entry, author, place, value, status=DONE, keys=KEYS):
    return cop.br_message(cop.co_message(keys, entry, author, place, value, status))


def not_in_table(count):
    """Entries that the table does not have: by kind, cell, amount, last byte."""
    made = [(0, 0, 1), (7, 0, 1), (7, 0, 0), (255, 0, 1), (ADD, 16, 1), (SET_WITH_TEMP, 16, 1), (READ_TEMP, 16, 0), (READ, 0, 1), (READ_TEMP, 0, 1)]
    made += [(kind, 0, 0, last) for kind in (ADD, TAKE, READ, SET, READ_TEMP) for last in (1, 85, 255)]
    made += [warm(0, 1, temperature) for temperature in (86, 127, -128, -41)]
    return [Entry(count, *m) for m in made]


def changed(message, at, mask):
    return message[:at] + bytes([message[at] ^ mask]) + message[at + 1 :]


def tags_that_cancel(s, slot, good, at):
    """Wrong tags at `at` whose differences a careless sum would lose: two bytes changed alike, and two exchanged."""
    s.note("Two bytes of the tag changed alike, or exchanged")
    for i in range(at, at + 31):
        alike = changed(changed(good, i, 0x80), i + 1, 0x80)
        exchanged = good[:i] + good[i + 1 : i + 2] + good[i : i + 1] + good[i + 2 :]
        for message in (alike, exchanged):
            outcome, _ = s.take(slot, message, to=3)
            assert (outcome == ("halt", 22)) == (message != good)


def opening(s):
    s.note("Opening: van number, then key length")
    for van in (0, 9, 255):
        s.open(0, van, KEYS)
    s.open(0, 0, KEYS[:255])
    for length in (0, 1, 255):
        s.open(0, 1, KEYS[:length])
    s.open(0, 8, KEYS + b"\0")
    s.note("A refused opening's book")
    s.make(0, ADD, 0, 1)
    s.take(0, b"RE\0")
    s.note("Eight vans open")
    for van in range(1, 9):
        s.open(0, van, KEYS)


def document_listing(s):
    s.note("Document 01's trial, with its keys, van 3 looking on")
    w = World(s, b"".join(bytes([van]) * 32 for van in range(1, 9)))
    w.make(1, SET, 0, 7)
    w.deliver(1)
    w.deliver(1)
    w.deliver(2)
    w.make(2, ADD, 0, 3)
    w.make(1, TAKE, 0, 5)
    w.deliver(1)
    w.make(1, TAKE, 0, 4)
    assert w.deliver(1) == ("aside", 4)
    w.deliver_all()


def every_kind(s):
    s.note("Every kind with each answer, alone")
    w = World(s)
    for kind, amount, answer in (
        (ADD, 250, 1),
        (ADD, 6, 506),
        (READ, 0, 250),
        (ADD, 5, 1),
        (READ, 0, 255),
        (TAKE, 248, 1),
        (TAKE, 8, 263),
        (TAKE, 7, 1),
        (READ, 0, 0),
        (SET, 255, 1),
        (ADD, 0, 1),
        (TAKE, 0, 1),
        (ADD, 1, 511),
        (SET, 0, 1),
        (TAKE, 1, 256),
    ):
        w.make(3, kind, 15, amount)
        outcome = w.deliver(3)
        assert outcome[0] == "answer" and outcome[2] == answer, outcome
        w.deliver(3)
    w.deliver_all()


def last_outcome(s, value, others, own, temperature=None):
    """Van 1 makes the own entries one after the other, with the others' of van 2 before them, where cell 0 holds the value and has the temperature."""
    s.open(0, 1, KEYS)
    s.change(0, "cells", value)
    if temperature is not None:
        s.change(0, "temperatures", last_byte(temperature))
    items = [item(Entry(k, *other), 2) for k, other in enumerate(others, 1)]
    for count, made in enumerate(own, 1):
        s.make(0, *made)
        items.append(item(Entry(count, *made), 1))
        outcome, _ = s.take(0, cop.re_message(items))
    return outcome


def conflicts(s):
    s.note("Document 01's conflict cases: van 2's entries wait, van 1 answers or not")
    for value, others, own, word in (
        (7, [(ADD, 0, 3)], [(TAKE, 0, 5)], "answer"),
        (7, [(ADD, 0, 3)], [(TAKE, 0, 5), (TAKE, 0, 4)], "aside"),
        (7, [(TAKE, 0, 2), (TAKE, 0, 1)], [(TAKE, 0, 5)], "aside"),
        (7, [(ADD, 0, 3), (TAKE, 0, 4)], [(TAKE, 0, 5)], "aside"),
        (7, [(SET, 0, 7)], [(READ, 0, 0)], "answer"),
        (7, [(SET, 0, 9)], [(READ, 0, 0)], "aside"),
        (7, [(SET, 1, 9), (ADD, 1, 1)], [(READ, 0, 0)], "answer"),
        (7, [], [(TAKE, 0, 5), (TAKE, 0, 4)], "answer"),
        (250, [(ADD, 0, 6), (TAKE, 0, 6)], [(READ, 0, 0)], "aside"),
    ):
        assert last_outcome(s, value, others, own)[0] == word, (others, own)
    s.note("An own entry that fails answers 256 plus the cell, so that any other value conflicts; van 2's entries wait")
    for value, others, own, last in (
        (7, [(TAKE, 0, 2)], [(TAKE, 0, 8)], "aside"),
        (7, [(ADD, 0, 1)], [(TAKE, 0, 255)], "aside"),
        (250, [(SET, 0, 251)], [(ADD, 0, 6)], "aside"),
        (255, [(TAKE, 0, 3), (ADD, 0, 3)], [(ADD, 0, 9)], "aside"),
        (7, [(TAKE, 0, 1)], [(TAKE, 0, 5), (TAKE, 0, 4)], "aside"),
        (7, [(ADD, 0, 1)], [(TAKE, 0, 5), (TAKE, 0, 4)], "aside"),
        (7, [(SET, 0, 7)], [(TAKE, 0, 8)], 263),
        (7, [(TAKE, 0, 8)], [(TAKE, 0, 8)], 263),
        (7, [(ADD, 0, 0), (TAKE, 1, 1)], [(TAKE, 0, 8)], 263),
        (7, [], [(TAKE, 0, 5), (TAKE, 0, 4)], 258),
        (7, [], [(ADD, 0, 249), (TAKE, 0, 8), (SET, 0, 0), (TAKE, 0, 1)], 256),
    ):
        outcome = last_outcome(s, value, others, own)
        assert outcome[0] == last or outcome[2:] == (last,), (others, own, outcome)
    s.note("Each cell: another's set of it, and of the next one, before an own read")
    for cell in range(16):
        for other, word in ((cell, "aside"), ((cell + 1) % 16, "answer")):
            s.open(0, 1, KEYS)
            s.make(0, READ, cell, 0)
            items = [item(Entry(1, SET, other, 9), 2), item(Entry(1, READ, cell, 0), 1)]
            assert s.take(0, cop.re_message(items))[0][0] == word


def temperatures(s):
    s.note("Kinds 5 and 6 with each answer, alone; the other kinds leave the temperature")
    w = World(s)
    for answer, made in (
        (0, (READ_TEMP, 15, 0)),
        (1, warm(15, 9, -40)),
        (-40, (READ_TEMP, 15, 0)),
        (9, (READ, 15, 0)),
        (1, (ADD, 15, 1)),
        (1, (TAKE, 15, 3)),
        (263, (TAKE, 15, 8)),
        (1, (SET, 15, 200)),
        (-40, (READ_TEMP, 15, 0)),
        (1, warm(15, 0, 85)),
        (85, (READ_TEMP, 15, 0)),
        (0, (READ, 15, 0)),
        (1, warm(15, 255, -1)),
        (511, (ADD, 15, 1)),
        (-1, (READ_TEMP, 15, 0)),
        (1, warm(15, 255, 0)),
        (0, (READ_TEMP, 15, 0)),
        (1, warm(15, 2, 1)),
        (1, (READ_TEMP, 15, 0)),
        (0, (READ_TEMP, 14, 0)),
    ):
        w.make(3, *made)
        outcome = w.deliver(3)
        assert outcome[0] == "answer" and outcome[2] == answer, outcome
        w.deliver(3)
    w.deliver_all()
    s.note("Each cell its own value and temperature, then each read")
    s.open(0, 1, KEYS)
    for kind in (SET_WITH_TEMP, READ_TEMP, READ):
        for cell in range(16):
            made = warm(cell, 10 * cell + 100, 8 * cell - 40) if kind == SET_WITH_TEMP else (kind, cell, 0)
            s.make(0, *made)
            outcome, commit = s.take(0, cop.re_message([item(s.book(0).hand, 1)]))
            assert outcome[2] == {SET_WITH_TEMP: 1, READ_TEMP: 8 * cell - 40, READ: 10 * cell + 100}[kind]
            s.take(0, cop.br_message(commit))
    s.note("Each cell with a temperature before an own kind 6, by hand, and the ends of what it may be")
    s.open(0, 1, KEYS)
    for cell in range(16):
        s.change(0, "temperatures", last_byte(5 * cell - 40), cell)
    for cell in range(16):
        s.make(0, READ_TEMP, cell, 0, to=3)
        assert s.take(3, cop.re_message([item(Entry(1, READ_TEMP, cell, 0), 1)]))[0] == ("answer", 1, 5 * cell - 40)
    for temperature in (-40, -39, -1, 0, 1, 84, 85):
        s.change(0, "temperatures", last_byte(temperature), 7, to=3)
        s.make(3, READ_TEMP, 7, 0)
        assert s.take(3, cop.re_message([item(Entry(1, READ_TEMP, 7, 0), 1)]))[0] == ("answer", 1, temperature)


def temperature_conflicts(s):
    s.note("Van 2's entries wait, and an own kind 6 is answered or not; cell 0 holds 7 at 20 degrees")
    own_6 = (READ_TEMP, 0, 0)
    for others, own, last in (
        ([warm(0, 7, 20)], [own_6], 20),
        ([warm(0, 9, 20)], [own_6], 20),
        ([warm(0, 7, 21)], [own_6], "aside"),
        ([warm(0, 7, -20)], [own_6], "aside"),
        ([warm(0, 7, 0)], [own_6], "aside"),
        ([warm(0, 7, -20), warm(0, 7, 20)], [own_6], "aside"),
        ([warm(0, 7, 20), warm(0, 7, -20)], [own_6], "aside"),
        ([warm(1, 9, -20), warm(15, 9, -20)], [own_6], 20),
        ([(SET, 0, 9), (ADD, 0, 1), (TAKE, 0, 3), (READ, 0, 0), own_6], [own_6], 20),
        ([warm(0, 7, -20)], [(READ, 0, 0)], 7),
        ([warm(0, 9, 20)], [(READ, 0, 0)], "aside"),
        ([warm(0, 7, -20)], [(TAKE, 0, 8)], 263),
        ([warm(0, 6, 20)], [(TAKE, 0, 8)], "aside"),
        ([warm(0, 9, -20)], [(TAKE, 0, 7)], 1),
        ([warm(0, 6, 20)], [(TAKE, 0, 7)], "aside"),
        ([warm(0, 100, 20), (TAKE, 0, 4)], [(TAKE, 0, 5)], "aside"),
        ([(TAKE, 0, 4)], [warm(0, 9, 5), (TAKE, 0, 5)], 1),
        ([(SET, 0, 7)], [warm(0, 9, 5), (READ, 0, 0)], "aside"),
        ([warm(0, 9, -20)], [(SET, 0, 1)], 1),
        ([warm(0, 9, -20)], [warm(0, 1, 5)], 1),
        ([own_6, (READ, 0, 0)], [own_6], 20),
        ([], [warm(0, 1, -5), own_6], -5),
        ([], [warm(0, 1, -5), (SET, 0, 9), (ADD, 0, 1), own_6], -5),
        ([], [warm(0, 1, -5), warm(0, 1, 6), own_6], 6),
        ([], [warm(1, 1, -5), own_6], 20),
        ([warm(0, 9, -5)], [warm(0, 1, -5), own_6], -5),
        ([warm(0, 1, 20)], [warm(0, 1, -5), own_6], "aside"),
        ([warm(0, 1, 6)], [warm(0, 1, -5), (READ, 1, 0), own_6], "aside"),
        ([warm(0, 7, 21)], [own_6, warm(0, 1, 5)], 1),
        ([warm(1, 0, -20)], [own_6, (READ, 1, 0), (READ_TEMP, 1, 0)], "aside"),
        ([warm(1, 0, 0), warm(0, 7, 20)], [own_6, (READ, 1, 0), (READ_TEMP, 1, 0)], 0),
    ):
        outcome = last_outcome(s, 7, others, own, 20)
        assert outcome[0] == last or outcome[2:] == (last,), (others, own, outcome)
    s.note("Each cell: another's kind 5 of it with its value and another temperature, and of the next one, before an own kind 6")
    for cell in range(16):
        for other, word in ((cell, "aside"), ((cell + 1) % 16, "answer")):
            s.open(0, 1, KEYS)
            s.make(0, READ_TEMP, cell, 0)
            items = [item(Entry(1, *warm(other, 0, -1)), 2), item(Entry(1, READ_TEMP, cell, 0), 1)]
            assert s.take(0, cop.re_message(items))[0][0] == word
    s.note("Three vans: a kind 5 waits and a kind 6 is set aside; confirmed, it is read; one with the same value leaves a read alone")
    w = World(s)
    w.make(2, *warm(4, 0, -30))
    w.make(1, READ_TEMP, 4, 0)
    assert w.deliver(1)[0] == "aside"
    w.make(3, *warm(4, 6, 30))
    assert w.deliver(3)[2] == 1
    w.make(3, READ_TEMP, 4, 0)
    assert w.deliver(3)[0] == "aside"
    w.deliver_all()
    w.make(1, READ_TEMP, 4, 0)
    assert w.deliver(1)[2] == 30
    w.deliver_all()
    w.make(2, *warm(4, 6, -31))
    w.make(1, READ, 4, 0)
    assert w.deliver(1)[2] == 6
    w.deliver_all()
    w.make(1, READ_TEMP, 4, 0)
    assert w.deliver(1)[2] == -31


def damaged_temperatures(s):
    s.note("A RE with a kind 5 and an own kind 6: kind, cell, amount and last byte changed, each bit in turn")
    s.open(0, 1, KEYS)
    s.make(0, READ_TEMP, 3, 0)
    items = [item(Entry(1, *warm(2, 9, -40)), 2), item(Entry(1, *warm(2, 9, 85)), 3), item(Entry(1, READ_TEMP, 3, 0), 1)]
    good = cop.re_message(items)
    assert s.take(0, good, to=3)[0] == ("answer", 3, 0)
    for at in (3 + 41 * k + byte for k in range(3) for byte in range(4, 8)):
        for bit in range(8):
            assert s.take(0, changed(good, at, 1 << bit), to=3)[0][0] == "halt"
    s.note("The same van: right tags over each last byte about the ends")
    for last in LAST_BYTES:
        listed = [items[0], item(Entry(1, SET_WITH_TEMP, 2, 9, last), 3), items[2]]
        outcome = s.take(0, cop.re_message(listed), to=3)[0]
        assert outcome == (("answer", 3, 0) if last <= 85 or last >= 216 else ("halt", 21))
    for held in (True, False):
        s.note("BRs of kinds 5 and 6, %s: done, aside, each last byte about the ends" % ("held" if held else "not held"))
        for last in LAST_BYTES:
            for status in (DONE, ASIDE):
                s.open(0, 1, KEYS)
                s.change(0, "temperatures", 3, 2)
                first = item(Entry(1, SET_WITH_TEMP, 2, 9, last), 2)
                if held and (last <= 85 or last >= 216):
                    s.make(0, READ_TEMP, 3, 0)
                    s.take(0, cop.re_message([first, items[2]]))
                value = cop.chain_value(bytes(32), first.entry, 1, 2)
                outcome, _ = s.take(0, br(first.entry, 2, 1, value, status))
                assert outcome == (("confirm", 1, status) if last <= 85 or last >= 216 else ("halt", 21))
                if outcome[0] == "confirm":
                    held_now = s.book(0).cells.at(2)
                    assert held_now == ((9, cop.signed(last)) if status == DONE else (0, 3))
    s.open(0, 1, KEYS)
    s.change(0, "temperatures", last_byte(-3), 2)
    s.change(0, "cells", 8, 2)
    for kind, cell, amount in ((READ_TEMP, 2, 0), (SET, 2, 8), (READ, 2, 0), (ADD, 2, 0), (TAKE, 2, 9)):
        entry = Entry(1, kind, cell, amount)
        s.take(0, br(entry, 5, 1, cop.chain_value(bytes(32), entry, 1, 5)), to=3)
        assert s.book(3).cells == s.book(0).cells
    s.note("A kind 5 in hand: each last byte about the ends, making and taking; a kind 6 in hand")
    s.open(0, 1, KEYS)
    s.make(0, *warm(2, 9, 20))
    for last in LAST_BYTES:
        s.change(0, "hand.last", last, to=3)
        s.make(3, ADD, 0, 1, to=2)
        s.take(3, cop.re_message([item(Entry(1, SET_WITH_TEMP, 2, 9, last), 1)]), to=2)
        s.take(3, cop.re_message([item(Entry(1, *warm(2, 9, 20)), 1)]), to=2)
    s.open(0, 1, KEYS)
    s.make(0, READ_TEMP, 3, 0)
    for name, value in (("hand.last", 1), ("hand.last", 255), ("hand.amount", 1), ("hand.kind", READ), ("hand.kind", SET_WITH_TEMP), ("hand.kind", 7)):
        s.change(0, name, value, to=3)
        s.take(3, cop.re_message([items[2]]), to=2)


def refusals_of_making(s):
    s.note("Making: room 42 and 0, then 43; the rest of the buffer stays")
    s.open(0, 4, KEYS)
    s.make(0, ADD, 3, 9, room=42)
    s.make(0, ADD, 3, 9, room=0)
    s.make(0, ADD, 3, 9, room=43, to=1)
    s.make(0, ADD, 3, 9, room=128, to=1)
    s.note("An entry in hand, asked before kind, cell, amount and room")
    s.make(1, ADD, 3, 9)
    s.make(1, 9, 99, 9, room=0)
    s.note("Kind, cell, amount")
    for kind, cell, amount in (
        (0, 0, 0),
        (7, 0, 0),
        (255, 0, 0),
        (ADD, 16, 1),
        (TAKE, 16, 1),
        (READ, 16, 0),
        (SET, 16, 0),
        (SET, 255, 0),
        (SET_WITH_TEMP, 16, 0),
        (READ_TEMP, 16, 0),
        (READ, 0, 1),
        (READ, 15, 255),
        (READ_TEMP, 0, 1),
        (READ_TEMP, 15, 255),
    ):
        assert s.make(0, kind, cell, amount)[0] == ("no", 5)
    s.make(0, 0, 0, 0, room=0)
    for kind, cell, amount in ((ADD, 0, 0), (ADD, 15, 255), (TAKE, 15, 255), (READ, 15, 0), (SET, 15, 255), (SET_WITH_TEMP, 15, 255), (READ_TEMP, 15, 0)):
        s.make(0, kind, cell, amount, to=1)
    s.note("The last byte: a temperature in kind 5, zero in every other")
    for last in LAST_BYTES:
        for kind in range(8):
            allowed = 1 <= kind <= 6 and (last == 0 or kind == SET_WITH_TEMP and (last <= 85 or last >= 216))
            assert s.make(0, kind, 3, 0, last, to=1)[0][0] == ("made" if allowed else "no")
    s.make(0, SET_WITH_TEMP, 16, 0, last_byte(-40))
    s.make(0, SET_WITH_TEMP, 3, 0, 86, room=0)
    s.make(0, SET_WITH_TEMP, 3, 0, 85, room=0)
    s.note("Own count at its limit: 5 before 6 before 7")
    s.change(0, "count", cop.LIMIT, to=1)
    s.make(1, 0, 0, 0)
    s.make(1, ADD, 0, 1)
    s.make(1, ADD, 0, 1, room=0)
    s.note("The last own count, made and answered")
    s.change(0, "count", cop.LIMIT - 1, to=1)
    s.make(1, ADD, 0, 1)
    s.take(1, cop.re_message([item(Entry(cop.LIMIT, ADD, 0, 1), 4)]))
    s.make(1, ADD, 0, 1)


def four_waiting(s):
    """Van 1 (slot 0) has c = 1, two places held, the second of them its own and done, and an entry in hand;
    van 3 (slot 2) has c = 1 and no place held. Gives the items at places 2 to 5: of vans 2, 1, 3, and the one
    in van 1's hand."""
    w = World(s)
    w.make(1, SET, 0, 9)
    w.deliver(1)
    w.deliver(1)
    w.deliver(3)
    w.make(2, ADD, 5, 3)
    w.make(1, TAKE, 0, 2)
    w.deliver(1)
    w.make(3, ADD, 0, 3)
    w.make(1, TAKE, 0, 4)
    message = w.to_van[1][0]
    assert s.book(0).c == s.book(2).c == 1 and s.book(0).held() == 2 and s.book(2).held() == 0
    return [cop.item_of(message[3 + 41 * k : 44 + 41 * k]) for k in range(message[2])]


def damaged_reply(s):
    s.note("A RE of four items, two of them held: taken as it is")
    items = four_waiting(s)
    good = cop.re_message(items)
    book = s.book(0)
    assert s.take(0, good, to=3)[0] == ("answer", 5, 1)
    s.take(0, good, room=79, to=3)
    s.take(0, good, room=0, to=3)
    s.take(0, good, room=128, to=3)
    for mask in (1, 0x80):
        s.note("Each of its bytes changed in turn, by exclusive-or with %d" % mask)
        for at in range(len(good)):
            outcome, _ = s.take(0, changed(good, at, mask), to=3)
            assert outcome[0] == "halt"
    for k in (0, 3):
        tags_that_cancel(s, 0, good, 3 + 41 * k + 9)
    s.note("A halted van, asked before all but its fields")
    s.take(3, good)
    s.take(3, b"")
    s.make(3, 0, 0, 0)

    s.note("Lengths: one short, one long, none, one item less than said, one more")
    for message in (
        good[:-1],
        good + b"\0",
        b"",
        b"R",
        b"RE",
        b"RE\0",
        b"RE\0\0",
        b"RE\1",
        good[:-41],
        good + items[0].bytes(),
        b"RE\xff" + good[3:],
        b"RE\x21" + items[0].bytes() * 33,
        b"RE\x20" + items[0].bytes() * 33,
        b"RE\x21" + items[0].bytes() * 32,
        b"re" + good[2:],
        b"ER" + good[2:],
        b"IN" + good[2:43],
        b"CO" + bytes(78),
        bytes(2048),
    ):
        s.take(0, message, to=3)
        s.take(0, message, room=0, to=3)

    s.note("Items left out, repeated, in another order; where its entry in hand stands before the last item, 26")
    a, b, c, d = items
    for outcome, *listed in (
        (("halt", 23), d),
        (("halt", 24), a),
        (("halt", 24), a, b),
        (("halt", 24), a, b, c),
        (("halt", 23), b, c, d),
        (("halt", 23), a, c, d),
        (("answer", 4, 1), a, b, d),
        (("halt", 23), b, a, c, d),
        (("halt", 23), a, c, b, d),
        (("halt", 26), a, b, d, c),
        (("halt", 23), d, c, b, a),
        (("halt", 26), a, b, c, d, c),
        (("answer", 6, 1), a, b, c, c, d),
        (("halt", 26), a, b, c, d, d),
        (("halt", 23), a, a, b, c, d),
    ):
        assert s.take(0, cop.re_message(listed), to=3)[0] == outcome

    s.note("Items with right tags in place of the listed ones; one that says it is the van's own, 26")
    for listed in (
        [item(a.entry, 3), b, c, d],
        [a, item(b.entry, 2), c, d],
        [a, b, item(c.entry, 2), d],
        [a, b, item(c.entry, 8), d],
        [a, b, item(c.entry, 1), d],
        [a, b, c, item(d.entry, 2)],
        [a, b, c, item(d.entry._replace(count=4), 1)],
        [a, b, c, item(d.entry._replace(amount=5), 1)],
        [a, b, c, item(d.entry._replace(cell=1), 1)],
        [a, b, c, item(d.entry._replace(kind=ADD), 1)],
        [a, b, item(Entry(cop.LIMIT, SET, 15, 255), 8), d],
    ):
        s.take(0, cop.re_message(listed), to=3)

    s.note("Tags by another van's key, or over another entry")
    for listed in (
        [a._replace(tag=cop.tag(cop.key_of(KEYS, 1), cop.in_string(a.entry, a.author))), b, c, d],
        [a, b, c, d._replace(tag=cop.tag(cop.key_of(KEYS, 2), cop.in_string(d.entry, 1)))],
        [a, b._replace(tag=d.tag), c, d],
        [a, b, c._replace(tag=cop.tag(cop.key_of(KEYS, 3), b"CO" + cop.in_string(c.entry, 3)[2:])), d],
    ):
        s.take(0, cop.re_message(listed), to=3)

    s.note("Entries not allowed, with right tags")
    for entry in (
        Entry(0, ADD, 0, 1),
        Entry(cop.LIMIT + 1, ADD, 0, 1),
        Entry(2**32 - 1, ADD, 0, 1),
        *not_in_table(1),
    ):
        assert s.take(0, cop.re_message([a, b, item(entry, 3), d]), to=3)[0] == ("halt", 21)
    for author in (0, 9, 255):
        s.take(0, cop.re_message([a, b, c._replace(author=author), d]), to=3)

    s.note("Two faults: the earlier item's first, and in each item 21, 22, 23; room before all of these")
    bad_entry = item(Entry(1, 7, 0, 1), 3)
    bad_tag = item(c.entry, 3)._replace(tag=bytes(32))
    bad_chain = item(Entry(9, ADD, 0, 3), 3)
    for listed in (
        [bad_tag, bad_entry, c, d],
        [bad_chain, bad_tag, c, d],
        [bad_chain, bad_entry, c, d],
        [bad_entry, bad_chain, c, d],
        [bad_chain._replace(tag=bytes(32)), b, c, d],
        [bad_entry._replace(tag=bytes(32)), b, c, d],
        [a, bad_chain, c, bad_tag],
        [a, b, bad_tag, bad_entry],
        [a, b, c, bad_entry],
        [a, b, c, bad_tag],
        [a, b, c, bad_chain],
    ):
        s.take(0, cop.re_message(listed), to=3)
        s.take(0, cop.re_message(listed), room=79, to=3)

    s.note("Another book: chain values, keys, number, statuses (without one for its own entry, 26), cells, the entry in hand")
    for name, value, index in (
        ("chain", book.chain[0][0] ^ 1, 0),
        ("chain", book.chain[1][31] ^ 1, 63),
        ("chain", book.chain[2][31] ^ 128, 95),
        ("keys", KEYS[0] ^ 1, 0),
        ("keys", KEYS[63] ^ 1, 63),
        ("keys", KEYS[64] ^ 1, 64),
        ("keys", KEYS[96] ^ 1, 96),
        ("keys", KEYS[255] ^ 1, 255),
        ("number", 2, 0),
        ("number", 8, 0),
        ("statuses", 1, 0),
        ("statuses", 2, 0),
        ("statuses", 2, 1),
        ("statuses", 0, 1),
        ("cells", 8, 0),
        ("cells", 5, 0),
        ("cells", 0, 0),
        ("cells", 255, 0),
        ("cells", 255, 5),
        ("temperatures", 85, 0),
        ("temperatures", last_byte(-40), 5),
        ("count", 77, 0),
        ("c", 2, 0),
        ("c", 0, 0),
        ("held", 1, 0),
        ("hand.count", 4, 0),
        ("hand.kind", ADD, 0),
        ("hand.cell", 1, 0),
        ("hand.amount", 5, 0),
        ("hand.kind", SET_WITH_TEMP, 0),
    ):
        s.change(0, name, value, index, to=3)
        s.take(3, good)
    s.note("No entry in hand")
    s.take(0, good, to=3)
    s.take(3, good)


def ranges(s):
    s.note("Fields out of range, and at the edge: making and taking")
    four_waiting(s)
    for name, value, index in (
        ("number", 0, 0),
        ("number", 9, 0),
        ("number", 255, 0),
        ("count", cop.LIMIT, 0),
        ("count", cop.LIMIT + 1, 0),
        ("count", 2**32 - 1, 0),
        ("count", 0, 0),
        ("c", cop.LIMIT - 2, 0),
        ("c", cop.LIMIT - 1, 0),
        ("c", cop.LIMIT, 0),
        ("c", cop.LIMIT + 1, 0),
        ("c", 2**32 - 1, 0),
        ("held", 3, 0),
        ("held", 32, 0),
        ("held", 33, 0),
        ("held", 2**32 - 1, 0),
        ("held", 1, 0),
        ("held", 0, 0),
        ("hand.count", 0, 0),
        ("hand.count", cop.LIMIT, 0),
        ("hand.count", cop.LIMIT + 1, 0),
        ("hand.kind", 0, 0),
        ("hand.kind", 5, 0),
        ("hand.kind", 6, 0),
        ("hand.kind", 7, 0),
        ("hand.kind", READ, 0),
        ("hand.cell", 15, 0),
        ("hand.cell", 16, 0),
        ("hand.amount", 255, 0),
        ("hand.last", 1, 0),
        ("statuses", 0, 0),
        ("statuses", 1, 0),
        ("statuses", 2, 0),
        ("statuses", 3, 0),
        ("statuses", 255, 1),
        ("statuses", 1, 2),
        ("statuses", 2, 31),
        ("chain", 1, 95),
        ("chain", 1, 96),
        ("chain", 128, 1055),
        ("cells", 255, 15),
        *(("temperatures", last, index) for last in LAST_BYTES for index in (0, 15)),
        *(("temperatures", (86, 215)[index % 2], index) for index in range(1, 15)),
        ("halt", 1, 0),
        ("halt", 19, 0),
        ("halt", 20, 0),
        ("halt", 21, 0),
        ("halt", 22, 0),
        ("halt", 23, 0),
        ("halt", 24, 0),
        ("halt", 25, 0),
        ("halt", 26, 0),
        ("halt", 27, 0),
        ("halt", 255, 0),
    ):
        s.change(0, name, value, index, to=3)
        s.make(3, ADD, 0, 1, to=2)
        s.take(3, b"RE\0", to=2)
    s.note("Without an entry in hand: a part of one, places past the limit, a halt mark and a field")
    s.open(0, 1, KEYS)
    for name in ("hand.count", "hand.kind", "hand.cell", "hand.amount", "hand.last"):
        s.change(0, name, 1, to=3)
        s.make(3, ADD, 0, 1, to=2)
        s.take(3, b"", to=2)
    s.change(0, "c", cop.LIMIT, to=3)
    s.make(3, ADD, 0, 1, to=2)
    s.change(3, "held", 1)
    s.make(3, ADD, 0, 1, to=2)
    s.change(3, "c", cop.LIMIT - 1)
    s.make(3, ADD, 0, 1, to=2)
    s.change(3, "held", 32)
    s.make(3, ADD, 0, 1, to=2)
    s.change(3, "c", cop.LIMIT - 32)
    s.make(3, ADD, 0, 1, to=2)
    s.change(3, "held", 33)
    s.make(3, ADD, 0, 1, to=2)
    s.change(0, "halt", 25, to=3)
    s.make(3, 0, 0, 0, room=0)
    s.take(3, b"")
    s.change(3, "number", 0)
    s.make(3, 0, 0, 0, room=0)
    s.take(3, b"")


def damaged_broadcast(s):
    for held in (True, False):
        s.note("A BR whose place is held, taken" if held else "A BR whose place is not held, taken")
        items = four_waiting(s)
        slot = 0 if held else 2
        book = s.book(slot)
        a, b = items[:2]
        value = chain_from(book, items)[1]
        good = br(a.entry, 2, 2, value)
        for room in (0, 80, 128):
            assert s.take(slot, good, room, to=3)[0] == ("confirm", 2, 1)
        s.take(slot, br(a.entry, 2, 2, value, ASIDE), to=3)
        for mask in (1, 0x80):
            s.note("Each of its bytes changed in turn, by exclusive-or with %d" % mask)
            for at in range(80):
                outcome, _ = s.take(slot, changed(good, at, mask), to=3)
                assert outcome[0] == "halt"
        tags_that_cancel(s, slot, good, 48)
        s.note("Lengths and marks")
        for message in (good[:-1], good + b"\0", b"BR", b"B", b"CO" + good[2:], b"RE" + good[2:], good[:44]):
            s.take(slot, message, to=3)
        s.note("Places")
        for place in (0, 1, 3, 4, 258, 2**24 + 2, cop.LIMIT, cop.LIMIT + 1):
            s.take(slot, br(a.entry, 2, place, value), to=3)
        s.note("Right tags over another digest, entry, author or status")
        for message in (
            br(a.entry, 2, 2, bytes(32)),
            br(a.entry, 2, 2, book.chain[0]),
            br(a.entry, 2, 2, changed(value, 31, 1)),
            br(a.entry, 2, 2, changed(value, 0, 128)),
            br(b.entry, 1, 2, value),
            br(a.entry, 3, 2, value),
            br(a.entry, 8, 2, value),
            br(Entry(cop.LIMIT, SET, 15, 255), 2, 2, value),
            br(Entry(cop.LIMIT, SET, 15, 255), 2, 2, value, ASIDE),
            br(a.entry, 2, 2, value, 2),
            br(a.entry, 2, 2, value, 255),
            br(Entry(0, ADD, 0, 1), 2, 2, value),
            br(Entry(cop.LIMIT + 1, ADD, 0, 1), 2, 2, value),
            *(br(entry, 2, 2, value) for entry in not_in_table(1)),
        ):
            s.take(slot, message, to=3)
        s.note("Right digests for another entry or author at that place")
        for entry, author in ((b.entry, 1), (a.entry, 3), (Entry(7, READ, 5, 0), 8), (Entry(7, TAKE, 0, 10), 7)):
            for status in (DONE, ASIDE):
                other = cop.chain_value(book.chain[0], entry, 2, author)
                s.take(slot, br(entry, author, 2, other, status), to=3)
        s.note("Two faults: 21, 25, 22, 23 in that order")
        wrong_tag = bytes(32)
        for message in (
            br(a.entry, 2, 9, value, 2),
            br(a.entry, 2, 2, value, 2)[:48] + wrong_tag,
            br(a.entry, 2, 9, value)[:48] + wrong_tag,
            br(a.entry, 2, 9, bytes(32)),
            br(a.entry, 2, 2, bytes(32))[:48] + wrong_tag,
            changed(br(a.entry, 2, 9, value), 10, 0x80),
        ):
            s.take(slot, message, to=3)
        s.note("Tags by another van's key, by an IN's string, with a changed key")
        string = cop.co_string(a.entry, 2, 2, value, DONE)
        for tag in (
            cop.tag(cop.key_of(KEYS, 1), string),
            cop.tag(cop.key_of(KEYS, 3), string),
            cop.tag(KEYS, string),
            cop.tag(cop.key_of(KEYS, 2), b"BR" + string[2:]),
            cop.in_tag(KEYS, a.entry, 2),
        ):
            s.take(slot, b"BR" + string[2:] + tag, to=3)
        for at in (31, 32, 63, 64):
            s.change(slot, "keys", KEYS[at] ^ 4, at, to=3)
            s.take(3, good)
        s.note("The same BR again, and the next")
        s.take(slot, good, to=3)
        s.take(3, good, to=1)
        after = chain_from(book, items)[2]
        s.take(3, br(b.entry, 1, 3, after), to=1)
        s.note("Another entry in place of the next, with the digest of the next and with its own")
        s.take(3, br(a.entry, 2, 3, after), to=1)
        s.take(3, br(a.entry, 2, 3, cop.chain_value(value, a.entry, 3, 2)), to=1)


def own_statuses(s):
    s.note("Own entries: done ones count, those aside are passed over, one without a status halts (26)")
    s.open(0, 1, KEYS)
    made = ((SET, 0, 5), (ADD, 0, 1), (ADD, 0, 3), (READ, 0, 0))
    listed = [item(Entry(count, *m), 1) for count, m in enumerate(made, 1)]
    for count, m in enumerate(made, 1):
        s.make(0, *m)
        if count < 4:
            s.take(0, cop.re_message(listed[:count]))
    assert s.take(0, cop.re_message(listed), to=3)[0] == ("answer", 4, 9)
    s.note("The same RE with statuses set by hand: each of none, done and aside at each of its three earlier entries")
    for statuses in product(range(3), repeat=3):
        s.with_statuses(0, statuses, to=3)
        value = sum(amount for (_, _, amount), status in zip(made, statuses) if status == 1)
        assert s.take(3, cop.re_message(listed))[0] == (("halt", 26) if 0 in statuses else ("answer", 4, value))
    s.note("A done status at another's place, by hand: that entry is no own one")
    s.open(2, 1, KEYS)
    s.change(2, "cells", 7)
    s.make(2, ADD, 1, 1)
    strange = [item(Entry(1, TAKE, 0, 4), 2), item(Entry(1, ADD, 1, 1), 1), item(Entry(2, TAKE, 0, 2), 1)]
    s.take(2, cop.re_message(strange[:2]))
    s.change(2, "statuses", 1, 0)
    s.make(2, TAKE, 0, 2)
    assert s.take(2, cop.re_message(strange))[0] == ("answer", 3, 1)
    s.note("Fewer places than held: an earlier entry in hand again, by hand. At the last item any status may be held, or none")
    s.take(0, cop.re_message(listed), to=2)
    s.with_hand(2, listed[1].entry, to=1)
    for status in range(3):
        s.with_statuses(1, (1, status), to=2)
        assert s.take(2, cop.re_message(listed[:2]), to=3)[0] == ("answer", 2, 1)
        assert s.take(2, cop.re_message(listed[:1]), to=3)[0] == ("halt", 24)
        assert s.take(2, cop.re_message(listed[:3]), to=3)[0] == ("halt", 24 if status else 26)
    s.change(2, "cells", 255)
    assert s.take(2, cop.re_message(listed[:2]), to=3)[0] == ("answer", 2, 1)
    s.change(2, "statuses", 2)
    assert s.take(2, cop.re_message(listed[:2]), to=3)[0] == ("answer", 2, 511)
    s.with_hand(2, listed[0].entry, to=2)
    assert s.take(2, cop.re_message(listed[:1]), to=3)[0] == ("answer", 1, 1)


def in_turn(s, authors):
    """Van 1 (slot 0), opened anew, makes its entries among these authors' and takes a RE for each but the last: the items."""
    s.open(0, 1, KEYS)
    counts = dict.fromkeys(range(1, 9), 0)
    items = []
    for k, author in enumerate(authors, 1):
        counts[author] += 1
        made = ADD, author, 1
        items.append(item(Entry(counts[author], *made), author))
        if author == 1:
            s.make(0, *made)
            if k < len(authors):
                assert s.take(0, cop.re_message(items))[0] == ("answer", k, 1)
    return items


def halts(s, slot, items, number=26):
    """A RE of these items halts the van with this number; all but the halt mark, and every byte lent, is as it was."""
    before = s.slots[slot]
    outcome, out = s.take(slot, cop.re_message(items), room=128, to=3)
    assert outcome == ("halt", number) and out == b"\xaa" * 128
    assert s.slots[3] == call_lines.changed(before, LAYOUT.place("halt", 0), bytes([number]))


def uncommitted(s):
    s.note("A RE that lists an old own entry at a new place: one that waits, one confirmed, the one in hand; and one never made")
    a, b, c, d = four_waiting(s)
    good = cop.re_message([a, b, c, d])
    for old in (b, item(Entry(1, SET, 0, 9), 1), d, NEVER_MADE):
        for listed in ([a, b, old, d], [a, b, old, c, d], [a, b, c, old, d], [a, b, old, old, d]):
            halts(s, 0, listed)
    s.note("Room is asked before; a van that halted so says 3 to every call, and 8 where a field is out of range")
    assert s.take(0, cop.re_message([a, b, b, d]), room=79, to=3)[0] == ("no", 7)
    halts(s, 0, [a, b, b, d])
    for message in (good, cop.re_message([a, b, b, d]), br(a.entry, 2, 2, s.book(0).chain[1]), b"RE\0", b""):
        assert s.take(3, message)[0] == s.take(3, message, room=0)[0] == ("no", 3)
    assert s.make(3, ADD, 0, 1)[0] == s.make(3, 0, 0, 0, room=0)[0] == ("no", 3)
    s.change(3, "number", 0)
    assert s.take(3, good)[0] == s.make(3, ADD, 0, 1)[0] == ("no", 8)
    s.note("At the last place an own entry is not asked for a status: the entry in hand is taken, another gives 24")
    assert s.take(0, good, to=3)[0] == ("answer", 5, 1)
    for listed in ([a, b, b], [a, b, c, b], [a, b, c, NEVER_MADE], [a, b]):
        halts(s, 0, listed, 24)
    s.note("An old own entry at a new place, in hand there by hand: it then has a status, and done or aside it is taken")
    s.with_hand(0, b.entry, to=1)
    assert s.take(1, cop.re_message([a, b, b]))[0] == ("answer", 4, 1)
    s.make(1, TAKE, 0, 1)
    listed = [a, b, b, item(s.book(1).hand, 1)]
    for status in range(3):
        s.with_statuses(1, (0, 1, status), to=2)
        if status:
            assert s.take(2, cop.re_message(listed), to=3)[0] == ("answer", 5, 1)
        else:
            halts(s, 2, listed)

    s.note("An own entry set aside waits, with others' before and after: taken; listed once more at a new place: 26")
    s.open(0, 1, KEYS)
    other, read, more = item(Entry(1, SET, 0, 9), 2), item(Entry(1, READ, 0, 0), 1), item(Entry(1, SET, 0, 8), 3)
    s.make(0, READ, 0, 0)
    assert s.take(0, cop.re_message([other, read]))[0] == ("aside", 2)
    s.make(0, ADD, 1, 1)
    added = item(Entry(2, ADD, 1, 1), 1)
    assert s.take(0, cop.re_message([other, read, more, added]), to=3)[0] == ("answer", 4, 1)
    halts(s, 0, [other, read, read, added])
    halts(s, 0, [other, read, more, read, added])

    s.note("Each van: before the entry in hand stands one entry without a status, its own (26), of the van before it, of the one after it")
    for van in range(1, 9):
        s.open(0, van, KEYS)
        s.make(0, READ, 0, 0)
        hand = item(Entry(1, READ, 0, 0), van)
        halts(s, 0, [item(Entry(2, ADD, 1, 1), van), hand])
        for author in (1 + (van - 2) % 8, 1 + van % 8):
            assert s.take(0, cop.re_message([item(Entry(2, ADD, 1, 1), author), hand]), to=1)[0] == ("answer", 2, 0)

    s.note("A BR is not asked 26: an own entry where no status is held, by hand, and where no place is held, is confirmed")
    items = in_turn(s, (1, 1))
    value = s.book(0).chain[1]
    for status in range(3):
        s.with_statuses(0, (status,), to=2)
        assert s.take(2, br(items[0].entry, 1, 1, value), to=3)[0] == ("confirm", 1, 1)
    s.open(0, 1, KEYS)
    assert s.take(0, br(items[0].entry, 1, 1, value))[0] == ("confirm", 1, 1)


def uncommitted_order(s):
    s.note("Own entries at places 1, 3 and 5, three places held: statuses of the first two by hand")
    items = in_turn(s, (1, 2, 1, 3, 1))
    held = s.book(0).held()
    assert held == 3
    for statuses in product(range(3), repeat=2):
        s.with_statuses(0, (statuses[0], 0, statuses[1]), to=2)
        if 0 in statuses:
            halts(s, 2, items)
        else:
            assert s.take(2, cop.re_message(items), to=3)[0] == ("answer", 5, 1)
    for first, statuses in ((0, (0, 0, 1)), (2, (1, 0, 0))):
        s.note("The same without a status at place %d, and a fault in each item in turn: the first of 21, 22, 23, 26; 24 last" % (first + 1))
        s.with_statuses(0, statuses, to=2)
        for k, it in enumerate(items):
            faults = [(21, item(it.entry._replace(kind=7), it.author)), (22, it._replace(tag=bytes(32)))]
            if k < held:
                faults += [(23, item(it.entry._replace(count=7), author)) for author in (1, 2)]
            if k == 4:
                faults += [(24, item(it.entry._replace(count=7), 1)), (24, item(it.entry, 2))]
            for number, fault in faults:
                halts(s, 2, items[:k] + [fault] + items[k + 1 :], number if k <= first else 26)
    s.note("The same van: an own entry at its fourth place, not held; two faults in that item, and one in the last")
    a, b, c, d, e = items
    bad_entry, bad_tag = NEVER_MADE.entry._replace(kind=7), bytes(32)
    for number, *last in (
        (26, NEVER_MADE, e),
        (26, c, e),
        (21, item(bad_entry, 1), e),
        (21, cop.Item(bad_entry, 1, bad_tag), e),
        (22, NEVER_MADE._replace(tag=bad_tag), e),
        (26, NEVER_MADE, e._replace(tag=bad_tag)),
        (26, NEVER_MADE, item(bad_entry, 1)),
        (26, NEVER_MADE, d),
        (26, NEVER_MADE, NEVER_MADE),
        (26, e, NEVER_MADE),
        (24, NEVER_MADE),
    ):
        halts(s, 0, [a, b, c, *last], number)
    s.note("At the last place of all: 26 before it, 21 past it")
    s.open(0, 1, KEYS)
    s.make(0, ADD, 0, 1)
    hand = item(Entry(1, ADD, 0, 1), 1)
    for c, number in ((cop.LIMIT - 2, 26), (cop.LIMIT - 1, 26), (cop.LIMIT, 21)):
        s.change(0, "c", c, to=1)
        halts(s, 1, [NEVER_MADE, hand], number)


def uncommitted_of_32(s):
    s.note("32 items, 31 of them held, own ones at places 1, 16, 31 and 32: taken, done or aside; without a status at one of the three, 26")
    items = in_turn(s, [1 if k in (1, 16, 31, 32) else 2 + k % 7 for k in range(1, 33)])
    assert s.book(0).held() == 31
    s.copy(0, 2)
    for k in (1, 16, 31):
        s.change(0, "statuses", 0, k - 1, to=1)
        halts(s, 1, items)
        s.change(2, "statuses", 2, k - 1)
    for slot in (0, 2):
        assert s.take(slot, cop.re_message(items), to=3)[0] == ("answer", 32, 1)
    s.note("32 items, none held: others' entries alone are taken; an own one at place 1, 16 or 31, 26")
    s.open(0, 1, KEYS)
    s.make(0, ADD, 1, 1)
    others = [item(Entry(k, ADD, 2, 1), 2 + k % 7) for k in range(1, 32)]
    hand = item(Entry(1, ADD, 1, 1), 1)
    assert s.take(0, cop.re_message(others + [hand]), to=3)[0] == ("answer", 32, 1)
    for k in (1, 16, 31):
        halts(s, 0, others[: k - 1] + [NEVER_MADE] + others[k:] + [hand])


def limits(s):
    s.note("Places at the limit")
    s.open(0, 5, KEYS)
    s.make(0, ADD, 0, 1)
    own, other = item(Entry(1, ADD, 0, 1), 5), item(Entry(1, ADD, 1, 1), 6)
    for c in (cop.LIMIT - 2, cop.LIMIT - 1, cop.LIMIT):
        s.change(0, "c", c, to=1)
        s.take(1, cop.re_message([own]), to=3)
        s.take(1, cop.re_message([other, own]), to=3)
        s.take(1, cop.re_message([other, other, own]), to=3)
        s.take(1, cop.re_message([other._replace(tag=bytes(32)), own]), to=3)
        s.take(1, b"RE\0", to=3)
        for place in (c - 1, c, c + 1, c + 2):
            s.take(1, br(other.entry, 6, place, cop.chain_value(bytes(32), other.entry, place, 6)), to=3)
    s.note("The last place confirmed, and a van there")
    s.change(0, "c", cop.LIMIT - 1, to=1)
    _, commit = s.take(1, cop.re_message([own]))
    s.take(1, cop.br_message(commit))
    s.make(1, ADD, 0, 1)
    s.take(1, cop.re_message([item(Entry(2, ADD, 0, 1), 5)]))


def thirty_two(s):
    s.note("32 places waiting: van 2 is slow, vans 1 and 3 go on")
    w = World(s)
    w.make(2, ADD, 1, 1)
    draws = Draws("thirty-two")
    for k in range(31):
        van = (1, 3)[k % 2]
        w.make(van, *draws.entry(1, (0, 1, 2, 3), (0, 1, 2, 5))[1:])
        if k < 30:
            w.deliver(van)
    last = w.to_van[1][0]
    assert last[2] == 32
    s.note("RE of 32 items: refused without room, halted when one item is wrong, taken")
    s.take(0, last, room=79, to=3)
    for k in (0, 1, 15, 30, 31):
        s.take(0, changed(last, 3 + 41 * k + 40, 1), to=3)
    s.take(0, last + last[-41:], to=3)
    s.take(0, b"RE\x21" + last[3:] + last[-41:], to=3)
    w.deliver(1)
    assert s.book(0).held() == 32
    assert w.relay.t - w.relay.b == 32
    s.note("The relay has no place, van 1 waits with its entry")
    s.make(0, ADD, 0, 1)
    waits = cop.in_message(KEYS, s.book(0).hand, 1)
    assert cop.relay_take(w.relay, 1, waits, bytes(2000))[1] == ("no", 33)
    s.note("Van 2 takes its RE; all 32 places are passed on and confirmed by all")
    w.deliver(2)
    assert len(w.to_van[1]) == 32
    w.deliver_all()
    assert w.offer(1, waits) == ("placed", 33)
    w.deliver_all()
    assert s.book(0).cells == s.book(1).cells == s.book(2).cells


# kinds that the drawn lists have
KINDS = (
    (ADD, TAKE),
    (ADD, TAKE, READ, SET),
    (ADD, ADD, TAKE, READ),
    (SET, TAKE),
    (SET_WITH_TEMP, READ_TEMP),
    (SET_WITH_TEMP, READ_TEMP, SET, READ),
    (SET, ADD, SET_WITH_TEMP, READ_TEMP, READ_TEMP, READ_TEMP),
    (ADD, TAKE, READ, SET, SET_WITH_TEMP, READ_TEMP),
)


def drawn_lists(s):
    draws = Draws("lists")
    for world in range(16):
        s.note("Drawn lists %d: others' entries and own ones on few cells" % world)
        van = 1 + draws.below(8)
        s.open(0, van, KEYS)
        cells = range(1 + draws.below(4))
        temperatures = draws.one_of(((20,), (-1, 0), (-40, -1, 85)))
        for cell in cells:
            s.change(0, "cells", draws.one_of((0, 1, 2, 7, 100, 250, 254, 255)), cell)
            s.change(0, "temperatures", last_byte(draws.one_of(temperatures)), cell)
        amounts = draws.one_of(((0, 1, 2), (0, 1, 3, 100), (1, 2, 5, 250, 255), (0, 7)))
        kinds = KINDS[world % len(KINDS)]
        items = []
        counts = [0] * 9

        def drawn(author):
            counts[author] += 1
            return draws.entry_of(draws.one_of(kinds), counts[author], cells, amounts, temperatures)

        rare = 1 + draws.below(3)
        for k in range(10 + draws.below(23)):
            if draws.below(4) < rare:
                entry = drawn(van)
                s.make(0, *entry[1:])
                items.append(item(entry, van))
                s.take(0, cop.re_message(items))
            else:
                author = 1 + (van + draws.below(7)) % 8
                items.append(item(drawn(author), author))


def drawn_run(s):
    draws = Draws("run")
    for world in range(3):
        s.note("Drawn run %d of three vans; strayed messages are taken by a copy" % world)
        w = World(s)
        for step in range(150):
            van = 1 + draws.below(3)
            if draws.below(4) == 0 and w.sent:
                s.take(van - 1, draws.one_of(w.sent), to=3)
            if draws.below(2):
                entry = draws.entry(1, range(1 + world), (0, 1, 2, 3, 100))
                if w.relay.t - w.relay.b < 32:
                    w.make(van, *entry[1:])
            elif w.to_van[van]:
                w.deliver(van, draws.one_of((0, 79, 80, 80, 80, 100)))
        w.deliver_all()


SECTIONS = (
    opening,
    document_listing,
    every_kind,
    conflicts,
    temperatures,
    temperature_conflicts,
    refusals_of_making,
    damaged_reply,
    damaged_temperatures,
    ranges,
    damaged_broadcast,
    own_statuses,
    uncommitted,
    uncommitted_order,
    uncommitted_of_32,
    limits,
    thirty_two,
    drawn_lists,
    drawn_run,
)


def main():
    script = Script()
    for section in SECTIONS:
        section(script)
    wanted = {"opened", "made", "answer", "aside", "confirm", "changed"}
    wanted |= {("no", n) for n in range(1, 9)} | {("halt", n) for n in cop.HALTS}
    assert script.outcomes == wanted, script.outcomes ^ wanted
    here = pathlib.Path(sys.argv[1] if len(sys.argv) > 1 else pathlib.Path(__file__).parents[1] / "crates/client_run")
    here.mkdir(parents=True, exist_ok=True)
    text = "\n".join(script.calls) + "\n"
    assert len(text) <= 1048576
    (here / "stdin").write_text(text)
    (here / "stdout").write_text("\n".join(script.lines) + "\n")
    print("%d lines, %d bytes of input" % (len(script.calls), len(text)))


if __name__ == "__main__":
    main()
