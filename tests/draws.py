"""Drawn numbers that are the same on every machine."""

import hashlib

from cop import COLDEST, READ, READ_TEMP, SET_WITH_TEMP, WARMEST, Entry, warm

TEMPERATURES = (COLDEST, -1, 0, 0, 1, 20, WARMEST)
LAST_BYTES = (0, 1, 84, 85, 86, 127, 128, 214, 215, 216, 217, 255)  # about the ends of what a temperature may be


class Draws:
    def __init__(self, seed):
        self.state = seed.encode()

    def below(self, n):
        self.state = hashlib.sha256(self.state).digest()
        return int.from_bytes(self.state, "big") % n

    def one_of(self, things):
        return things[self.below(len(things))]

    def entry(self, count, cells, amounts, temperatures=TEMPERATURES):
        """An entry that is allowed, of any kind."""
        return self.entry_of(1 + self.below(6), count, cells, amounts, temperatures)

    def entry_of(self, kind, count, cells, amounts, temperatures=TEMPERATURES):
        cell, amount = self.one_of(cells), 0 if kind in (READ, READ_TEMP) else self.one_of(amounts)
        made = warm(cell, amount, self.one_of(temperatures)) if kind == SET_WITH_TEMP else (kind, cell, amount)
        return Entry(count, *made)

    def spoiled(self, entry):
        """The entry with its kind, cell, amount or last byte drawn anew about the ends: mostly not allowed."""
        field, values = self.one_of(
            (
                ("kind", (0, 1, 3, 4, 5, 6, 7, 255)),
                ("cell", (15, 16, 255)),
                ("amount", (0, 1, 255)),
                ("last", LAST_BYTES),
                ("last", LAST_BYTES),
            )
        )
        return entry._replace(**{field: self.one_of(values)})
