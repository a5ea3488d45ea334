"""Single calls on drawn states: garbage in every field, states in range with one byte drawn anew, and states in range
with a history that drawn messages fit."""

import cop
from cop import LIMIT, Book, Cells, Entry, Item, Relay
from draws import LAST_BYTES
from linked import REPLICA, SERVER, State, book_of, relay_of, replica_fields, server_fields

NEAR = (0, 1, 5, LIMIT - 40, LIMIT - 2, LIMIT - 1, LIMIT)
NEAR_DEGREES = ((20,), (-1, 0), (-40, 85), tuple(range(-40, 86)))


def drawn_count(d, most=LIMIT):
    return min(most, d.one_of(NEAR) + d.below(3) if d.below(3) else d.below(LIMIT + 1))


def drawn_entry(d, cells, amounts):
    return d.entry(1 + d.below(d.one_of((3, LIMIT))), cells, amounts, d.one_of(NEAR_DEGREES))


def drawn_made(d):
    """Kind, cell, amount and last byte to make an entry of: drawn bytes, one that is allowed, or one about the ends."""
    if d.chance(5):
        return tuple(d.bytes(4))
    entry = d.entry(1, range(16), range(256), range(-40, 86))
    return (d.spoiled(entry) if d.chance(4) else entry)[1:]


def drawn_item(d, keys, cells, amounts, author=None):
    entry = drawn_entry(d, cells, amounts)
    author = author or 1 + d.below(8)
    return Item(entry, author, cop.in_tag(keys, entry, author))


class BookCase:
    """A book in range whose chain holds the first of some items, and messages that fit it."""

    def __init__(self, d):
        self.d, self.keys = d, d.bytes(256)
        self.cells = d.one_of(((0,), (4, 5), tuple(range(16)), tuple(range(16))))
        self.amounts = d.one_of(((0, 1), (0, 1, 2, 7, 90), tuple(range(256))))
        self.van = 1 + d.below(8)
        strays = d.chance(4)  # whether own entries may stand where no status is held
        c = drawn_count(d)
        held = min(d.one_of((0, 0, 1, 2, 5, 31, 32, d.below(33))), LIMIT - c)
        more = d.below(33 - held) if d.chance(3) else d.below(min(3, 33 - held))
        authors = tuple(range(1, 9)) + (self.van,) * d.below(5)
        others = tuple(author for author in authors if author != self.van)
        self.items = [
            drawn_item(d, self.keys, self.cells, self.amounts, d.one_of(authors if k < held or strays else others))
            for k in range(min(31, held + more))
        ]
        chain = [d.bytes(32)]
        for k, item in enumerate(self.items, 1):
            chain.append(cop.chain_value(chain[-1], item.entry, (c + k) % (1 << 32), item.author))
        held = min(held, len(self.items))
        hand = drawn_entry(d, self.cells, self.amounts) if d.below(4) else None
        if hand and held > 1 and d.chance(3):  # the entry in hand stands within the places held
            at = d.below(held)
            self.items = self.items[: at + 1]
            self.items[at] = Item(hand, self.van, cop.in_tag(self.keys, hand, self.van))
            chain = chain[: at + 1]
            chain.append(cop.chain_value(chain[-1], hand, c + at + 1, self.van))
            held = at + 1
        elif hand:
            self.items.append(Item(hand, self.van, cop.in_tag(self.keys, hand, self.van)))
        degrees = d.one_of(NEAR_DEGREES)
        self.book = Book(
            number=self.van,
            keys=self.keys,
            count=drawn_count(d),
            hand=hand,
            c=c,
            chain=tuple(chain[: held + 1]),
            statuses=tuple(
                d.one_of((1, 1, 0) if item.author == self.van and item is not self.items[-1] and not strays else (1, 1, 0, None))
                for item in self.items[:held]
            ),
            cells=Cells(tuple(d.below(256) for _ in range(16)), tuple(d.one_of(degrees) for _ in range(16))),
            halt=d.one_of(cop.HALTS) if d.chance(15) else 0,
        )

    def message(self):
        d, book = self.d, self.book
        if d.below(3):
            m = cop.re_message(self.items[:32])
        else:
            at = self.items[0] if self.items and d.below(3) else drawn_item(d, self.keys, self.cells, self.amounts)
            place = book.c + 1 if d.below(12) else d.below(LIMIT + 2)
            value = cop.chain_value(book.chain[0], at.entry, place, at.author)
            if book.held() and d.chance(2):
                value = book.chain[1]
            m = cop.br_message(cop.co_message(self.keys, at.entry, at.author, place, value, d.below(2)))
        return damaged(d, m)


def damaged(d, m):
    what = d.below(9)
    if what == 0 and m:
        at = d.below(len(m) if d.chance(3) else min(len(m), 48))
        return m[:at] + bytes([d.below(256)]) + m[at + 1 :]
    if what == 1:
        return d.one_of((m[: d.below(len(m) + 1)], m + bytes(1 + d.below(41)), d.bytes(d.below(120))))
    return m


def garbage(d, layout, fields):
    """A state of drawn bytes, or one in range, half the time with a byte drawn anew. Padding is drawn."""
    if d.chance(12):
        return d.bytes(layout.size) if d.chance(2) else bytes([d.below(256)]) * layout.size
    data = bytearray(layout.pack(*fields))
    what = d.below(6)
    if what == 0:
        at = d.below(layout.size)
        data[at] = d.below(256)
    elif layout is REPLICA and what <= 2:
        numbers = (0, 260, 263, 264, 267, 268, 269, 270, 271, 271, 272, 275, 276, 279, 1400)
        at = d.one_of((*numbers, 280 + d.below(1056), 1336 + d.below(32), *(1384 + d.below(16) for _ in range(3))))
        data[at] = d.one_of((0, 1, 2, 3, 5, 6, 7, 8, 9, 16, 19, 26, 27, 32, 33, 255, *LAST_BYTES))
    elif layout is SERVER and what <= 2:
        slot = d.below(32)
        numbers = (0, 3, 4, 7, 8 + d.below(32), 40 + 41 * slot + d.below(9), 1352 + slot)
        at = d.one_of((*numbers, 1384 + d.below(1024), 2408 + d.below(1024)))
        data[at] = d.one_of((0, 1, 2, 3, 5, 6, 7, 8, 9, 16, 32, 33, 255, *LAST_BYTES))
    if layout is REPLICA:
        data[257:260], data[1401:1404] = d.bytes(3), d.bytes(3)
    return bytes(data)


def client_call(library, d):
    case = BookCase(d)
    data = garbage(d, REPLICA, replica_fields(case.book))
    state = State(REPLICA, data, book_of(REPLICA.unpack(data)))
    for _ in range(3):
        if d.chance(3):
            library.invoke(state, *drawn_made(d), d.one_of((43, 44, 100, d.below(43))))
        else:
            library.receive(state, case.message(), d.one_of((80, 80, 81, 200, d.below(80))))


def server_call(library, d):
    keys, all_cells, amounts = d.bytes(256), range(16), range(256)
    b = drawn_count(d)
    waiting = min(d.one_of((0, 1, 3, 31, 32, d.below(33))), LIMIT - b)
    items = tuple(drawn_item(d, keys, all_cells, amounts) for _ in range(waiting))
    full = d.one_of((0, 2, 5))  # which commits are there: none, half, most
    commits = []
    for k, item in enumerate(items):
        m = cop.co_message(keys, item.entry, item.author, b + 1 + k, d.bytes(32), d.below(2))
        commits.append(m if full and d.below(full) and (k or d.chance(2)) else None)
    relay = Relay(b + waiting, b, items, tuple(commits), tuple(drawn_count(d) for _ in range(8)))
    data = garbage(d, SERVER, server_fields(relay))
    state = State(SERVER, data, relay_of(SERVER.unpack(data)))
    for _ in range(3):
        author = 1 + d.below(8)
        if items and d.chance(2):
            k = next((k for k, m in enumerate(commits) if m is None), 0) if d.below(3) else d.below(waiting)
            place = b + 1 + k if d.below(8) else d.below(LIMIT + 2)
            author = items[k].author
            m = cop.co_message(keys, items[k].entry, author, place, d.bytes(32), d.below(2))
        else:
            entry = Entry(relay.last[author - 1] + 1 + d.one_of((0, 0, 0, 1)), *drawn_made(d))
            m = cop.in_message(keys, entry, author)
        line = author if d.below(10) else d.below(256)
        room = d.one_of((2560, 2560, 2561, 3 + 41 * (waiting + 1), 80, d.below(2560)))
        library.serve(state, line, damaged(d, m), room)


def other_calls(library, d):
    number = d.below(256) if d.chance(2) else 1 + d.below(8)
    library.open(number, d.bytes(d.one_of((256, 256, 0, 255, 257, d.below(400)))))
    long = d.one_of((65535, 65536, 65537, 65535 - d.below(200)))
    most = d.one_of((60, 130, 1000))
    library.digest(bytes([d.below(256)]) * long if d.chance(40) else d.bytes(d.below(most)))
    key = bytes([d.below(256)]) * long if d.chance(40) else d.bytes(d.below(most))
    library.tag(key, bytes([d.below(256)]) * long if d.chance(40) else d.bytes(d.below(most)))


def states(library, d):
    for _ in range(50):
        client_call(library, d)
        client_call(library, d)
        server_call(library, d)
        if d.chance(3):
            other_calls(library, d)
