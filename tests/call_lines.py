"""What the programs client_run and server_run share: a state as bytes by its fields, and lines of calls on slots of states."""

import hashlib
import sys


class Layout:
    """The fields of a state, each with the number of bytes of an element and of elements, and the size of the out buffer."""

    def __init__(self, fields, room):
        self.fields = fields
        self.room = room
        self.names = [name for name, _, _ in fields]
        self.start = {}
        self.size = 0
        for name, width, elements in fields:
            self.start[name] = self.size
            self.size += width * elements

    def part(self, data, name, at, length):
        """Bytes of a field."""
        return data[self.start[name] + at : self.start[name] + at + length]

    def place(self, name, index):
        """Where an element of a field stands."""
        _, width, elements = self.fields[self.names.index(name)]
        assert index < elements
        return self.start[name] + width * index

    def line(self, outcome, data, out=None):
        """The line that a call gives, by outcome, state, and the out bytes lent to it."""
        words = [*outcome, digest(data)]
        if out is not None:
            words.append(digest(out.ljust(self.room, b"\xaa")))
        return " ".join(map(str, words))

    def change(self, slots, words):
        """A line that sets bytes of a state: the slot it goes to, the state, the outcome."""
        word, slot, to, at, value, field = words
        assert word == "change"
        name, index = field.rstrip("]").split("[") if field.endswith("]") else (field, 0)
        assert int(at) == self.place(name, int(index))
        return to, changed(slots[int(slot)], int(at), bytes_of(value)), ("changed",)

    def answer(self, slots, run):
        """Prints what each line of the input gives, by a function of slots and words."""
        for text in sys.stdin.read().splitlines():
            print(text if text.startswith("#") else self.line(*run(slots, text.split(" "))))


def digest(data):
    return hashlib.sha256(data).digest()[:8].hex()


def hexadecimal(data):
    return data.hex() or "-"


def bytes_of(word):
    return b"" if word == "-" else bytes.fromhex(word)


def changed(data, at, value):
    return data[:at] + value + data[at + len(value) :]
