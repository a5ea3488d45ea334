"""Document 01's trial program, with kinds 5 and 6 of document 02's Q-2, over cop.py: `python3 tests/trial.py < lines`."""

import re
import sys
from collections import deque

import cop

KEYS = b"".join(bytes([van]) * 32 for van in range(1, 9))  # "Van j's key is 32 bytes of value j."
VANS = range(1, 9)
ROOM = bytes(32 * 80)  # enough out bytes for every call
LONGEST = 65535  # bytes of a line, without its line feed; a longer one is of another form


class Trial:
    """Eight vans, the relay and the lines between them. `IN` and `CO` reach the relay without delay."""

    def __init__(self, keys=KEYS):
        self.books = {van: cop.open_book(van, keys)[0] for van in VANS}
        self.relay = cop.Relay()
        self.to_van = {van: deque() for van in VANS}
        self.refused = {}  # the `IN` of each van that the relay refused

    def offer(self, van, message):
        """The relay takes an `IN`."""
        self.relay, outcome, out = cop.relay_take(self.relay, van, message, ROOM)
        if outcome[0] == "placed":
            self.to_van[van].append(out[: 3 + 41 * out[2]])
        return outcome

    def offer_again(self):
        for van in sorted(self.refused):
            if self.offer(van, self.refused[van])[0] == "placed":
                del self.refused[van]

    def make(self, van, kind, cell, amount, last=0):
        """ "The trial program's kind 5 has temperature 0." """
        self.books[van], outcome, out = cop.make(self.books[van], kind, cell, amount, last, ROOM)
        if outcome[0] != "made":
            return outcome
        outcome = self.offer(van, out[:43])
        if outcome[0] == "no":
            self.refused[van] = out[:43]
        return outcome

    def deliver(self, van):
        if not self.to_van[van]:
            return ("empty",)
        self.books[van], outcome, out = cop.take(self.books[van], self.to_van[van][0], ROOM)
        if outcome[0] in ("answer", "aside", "confirm"):
            self.to_van[van].popleft()
        if outcome[0] in ("answer", "aside"):
            self.commit(van, out[:80])
        return outcome

    def commit(self, van, message):
        """The relay takes a `CO`. It never refuses one of these vans."""
        self.relay, outcome, out = cop.relay_take(self.relay, van, message, ROOM)
        assert outcome[0] == "passed", outcome
        for k in range(outcome[1]):
            for line in self.to_van.values():
                line.append(out[80 * k : 80 * k + 80])

    def full(self):
        return any(sum(m[:2] == b"BR" for m in line) >= 256 for line in self.to_van.values())

    def line(self, text):
        """What one line of input, in bytes, gives: the van, and the outcome's word and data."""
        self.offer_again()
        words = text.split(b" ")
        if len(text) > LONGEST or (words[0], len(words)) not in ((b"I", 5), (b"D", 2)):
            return 0, ("bad",)
        if not all(re.fullmatch(rb"0*[0-9]{1,3}", word) for word in words[1:]):
            return 0, ("bad",)
        numbers = [int(word[-3:]) for word in words[1:]]
        if numbers[0] not in VANS or max(numbers) > 255:
            return 0, ("bad",)
        if words[0] == b"D":
            return numbers[0], self.deliver(*numbers)
        if self.full():
            return numbers[0], ("full",)
        return numbers[0], self.make(*numbers)


def lines_of(data):
    """The lines of an input in bytes. A last one without a line feed counts if it has a byte."""
    lines = data.split(b"\n")
    return lines if lines[-1] else lines[:-1]


def run(lines):
    trial = Trial()
    printed = []
    for number, text in enumerate(lines, 1):
        van, outcome = trial.line(text)
        printed.append(" ".join(map(str, (number, van) + outcome)))
    return printed


if __name__ == "__main__":
    for line in run(lines_of(sys.stdin.buffer.read())):
        print(line)
