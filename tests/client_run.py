"""What the program client_run does, over cop.py: `python3 tests/client_run.py < crates/client_run/stdin`.

The program keeps four books, in slots 0 to 3, all zero at first. Its input has at most 1,048,576 bytes, a line a call:

    # TEXT                                     a note: printed as it is
    open TO VAN KEYS                           opens a book, which goes to slot TO
    invoke FROM TO KIND CELL AMOUNT LAST ROOM  makes an entry
    receive FROM TO ROOM MESSAGE               takes a message
    change FROM TO AT BYTES FIELD              sets bytes of a book, from AT on; FIELD, for the reader, is their field and index

A call gets the book in slot FROM, and the book afterwards goes to slot TO. KEYS, MESSAGE (both at most 4,096 bytes) and BYTES
are in hexadecimal, `-` for no bytes; other numbers are decimal.

Each call gives one line: the outcome's word and numbers (for a change, the word alone), and the first eight bytes of the
SHA-256 digest of the whole book; for an invoke and a receive also those of the out buffer. That has 128 bytes of value
0xaa, of which the first ROOM are lent. A negative answer is `-` and its digits. A book has 1,398 bytes: each field in the
order of LAYOUT, numbers in four bytes, temperatures in one, two's complement.
"""

import cop
from call_lines import Layout, bytes_of
from cop import ASIDE, DONE, Book, Cells

# Field, number of bytes of an element, number of elements.
LAYOUT = Layout(
    (
        ("number", 1, 1),
        ("keys", 1, 256),
        ("count", 4, 1),
        ("hand.count", 4, 1),
        ("hand.kind", 1, 1),
        ("hand.cell", 1, 1),
        ("hand.amount", 1, 1),
        ("hand.last", 1, 1),
        ("c", 4, 1),
        ("held", 4, 1),
        ("chain", 1, 33 * 32),
        ("statuses", 1, 32),
        ("cells", 1, 16),
        ("temperatures", 1, 16),
        ("halt", 1, 1),
    ),
    room=128,
)

STATUS_BYTE = {None: 0, DONE: 1, ASIDE: 2}


def image(book):
    """A book as the program holds it."""
    return b"".join(
        (
            bytes([book.number]),
            book.keys,
            cop.number(book.count),
            book.hand.bytes() if book.hand else bytes(8),
            cop.number(book.c),
            cop.number(book.held()),
            b"".join(book.chain).ljust(33 * 32, b"\0"),
            bytes(STATUS_BYTE[status] for status in book.statuses).ljust(32, b"\0"),
            bytes(book.cells.values),
            bytes(map(cop.last_byte, book.cells.temperatures)),
            bytes([book.halt]),
        )
    )


def book_of(data):
    """The book that an image holds, or None if it holds none: an unused slot that is not zero, a status
    that is none of the three, or more than 32 places. That is part of question 8."""

    def part(name, length):
        return LAYOUT.part(data, name, 0, length)

    held = int.from_bytes(part("held", 4), "big")
    statuses = part("statuses", 32)
    if held > 32 or max(statuses) > 2:
        return None
    chain = part("chain", 33 * 32)
    hand = part("hand.count", 8)
    book = Book(
        number=data[0],
        keys=part("keys", 256),
        count=int.from_bytes(part("count", 4), "big"),
        hand=cop.entry_of(hand) if any(hand) else None,
        c=int.from_bytes(part("c", 4), "big"),
        chain=tuple(chain[32 * k : 32 * k + 32] for k in range(held + 1)),
        statuses=tuple((None, DONE, ASIDE)[status] for status in statuses[:held]),
        cells=Cells(tuple(part("cells", 16)), tuple(map(cop.signed, part("temperatures", 16)))),
        halt=data[-1],
    )
    return book if image(book) == data else None


def call(data, room, step):
    """A call on the book that an image holds, by a function of book and out bytes."""
    book = book_of(data)
    out = b"\xaa" * room
    if book is None:
        return data, cop.no(8), out
    after, outcome, out = step(book, out)
    return image(after), outcome, out


def run(slots, words):
    """A line's call on the slots: outcome and out bytes, None where there are none."""
    out = None
    if words[0] == "open":
        to, van, keys = words[1:]
        book, outcome = cop.open_book(int(van), bytes_of(keys))
        data = image(book)
    elif words[0] == "invoke":
        slot, to, *made, room = map(int, words[1:])
        data, outcome, out = call(slots[slot], room, lambda book, out: cop.make(book, *made, out))
    elif words[0] == "receive":
        slot, to, room, message = words[1:]
        data, outcome, out = call(slots[int(slot)], int(room), lambda book, out: cop.take(book, bytes_of(message), out))
    else:
        to, data, outcome = LAYOUT.change(slots, words)
    slots[int(to)] = data
    return outcome, data, out


if __name__ == "__main__":
    LAYOUT.answer([image(cop.NO_BOOK)] * 4, run)
