"""Document 01's van and relay, with document 02's Q-1, Q-2 and Q-4, in plain Python, written from their text alone.

A second implementation to hold the proved one against: slow, with nothing shared. It keeps document
01's words (docs/GLOSSARY.md gives the terms of the field), so that it can be read beside the text.
Each call takes a state and gives a new one; states are never changed in place.
"""

import hashlib
import hmac
from dataclasses import dataclass, replace
from typing import NamedTuple, Optional

LIMIT = 1_000_000  # the highest own count and the highest place
WAITING = 32  # "waiting entries never exceed 32"
CELLS = 16
ADD, TAKE, READ, SET, SET_WITH_TEMP, READ_TEMP = 1, 2, 3, 4, 5, 6
COLDEST, WARMEST = -40, 85  # temperatures
DONE, ASIDE = 1, 0
HALTS = range(20, 27)  # the numbers that are halts: "20 to 25 are halts", and document 02's Q-4 has 26


# Cells and entries


class Entry(NamedTuple):
    """ "An entry is 8 bytes: the van's own count, kind, cell, amount, and a zero byte", the last one a temperature in
    kind 5 (document 02, Q-2)."""

    count: int
    kind: int
    cell: int
    amount: int
    last: int = 0

    def bytes(self):
        return number(self.count) + bytes([self.kind, self.cell, self.amount, self.last])


def number(n):
    """ "Multi-byte fields have the high byte first." """
    return n.to_bytes(4, "big")


def entry_of(eight):
    return Entry(int.from_bytes(eight[:4], "big"), *eight[4:])


def signed(byte):
    """ "a two's complement number" """
    return byte - 256 if byte >= 128 else byte


def last_byte(temperature):
    """The byte of a number from -128 to 127."""
    return temperature % 256


def temperature_allowed(temperature):
    """ "from -40 to 85" """
    return COLDEST <= temperature <= WARMEST


def in_table(kind, cell, amount, last):
    """Whether the table has it: a read has amount 0, and "Kind 6 has amount 0"; "The last byte remains zero for every
    other kind" than 5."""
    return (
        1 <= kind <= 6
        and 0 <= cell <= 15
        and 0 <= amount <= 255
        and (kind not in (READ, READ_TEMP) or amount == 0)
        and (temperature_allowed(signed(last)) if kind == SET_WITH_TEMP else last == 0)
    )


def warm(cell, amount, temperature):
    """Kind, cell, amount and last byte of a kind 5."""
    return SET_WITH_TEMP, cell, amount, last_byte(temperature)


def allowed(entry):
    """ "An entry is allowed if it meets all of this and the table." """
    return 1 <= entry.count <= LIMIT and in_table(entry.kind, entry.cell, entry.amount, entry.last)


def author_allowed(author):
    return 1 <= author <= 8


def status_allowed(status):
    return status in (DONE, ASIDE)


class Cells(NamedTuple):
    """ "16 cells, each 0 to 255, all 0 at the start" and "sixteen temperatures, 0 at the start". """

    values: tuple = (0,) * CELLS
    temperatures: tuple = (0,) * CELLS

    def at(self, cell):
        return self.values[cell], self.temperatures[cell]

    def put(self, cell, held):
        return Cells(*(kept[:cell] + (new,) + kept[cell + 1 :] for kept, new in zip(self, held)))


def run_on_cell(entry, held):
    """The table: what an entry answers where the cell holds a value and has a temperature, and both after it. "A failed
    add or take answers 256 plus the cell's value." (document 02, Q-1) "Kind 5 sets the cell to the amount and sets the
    cell's temperature from the entry's last byte", kind 6 "answers the temperature, negative ones included" (Q-2)."""
    value, temperature = held
    if entry.kind == ADD:
        return (1, (value + entry.amount, temperature)) if value + entry.amount <= 255 else (256 + value, held)
    if entry.kind == TAKE:
        return (1, (value - entry.amount, temperature)) if value >= entry.amount else (256 + value, held)
    if entry.kind == READ:
        return value, held
    if entry.kind == SET:
        return 1, (entry.amount, temperature)
    if entry.kind == SET_WITH_TEMP:
        return 1, (entry.amount, signed(entry.last))
    assert entry.kind == READ_TEMP
    return temperature, held


def run(entry, cells):
    answer, held = run_on_cell(entry, cells.at(entry.cell))
    return answer, cells.put(entry.cell, held)


def answers(entries, cells):
    given = []
    for entry in entries:
        answer, cells = run(entry, cells)
        given.append(answer)
    return given


# Conflict


def choices(entries):
    """Every list that is left when any of the entries are left out."""
    if not entries:
        return [[]]
    rest = choices(entries[1:])
    return rest + [[entries[0]] + chosen for chosen in rest]


def mixtures(others, own):
    """Every mixture that keeps both orders, each entry with whether it is an own one."""
    if not others:
        return [[(entry, True) for entry in own]]
    if not own:
        return [[(entry, False) for entry in others]]
    return [[(others[0], False)] + mixed for mixed in mixtures(others[1:], own)] + [
        [(own[0], True)] + mixed for mixed in mixtures(others, own[1:])
    ]


def own_answers(mixed, cells):
    given = []
    for entry, is_own in mixed:
        answer, cells = run(entry, cells)
        if is_own:
            given.append(answer)
    return given


def conflict_by_definition(others, own, cells):
    """ "Leave out any of the others' entries, mix the rest with the own list keeping both orders, and
    run the mixture. There is a conflict if, and only if, for some choice and mixing, an own answer
    differs from that of the own list run alone." """
    alone = answers(own, cells)
    return any(
        own_answers(mixed, cells) != alone for chosen in choices(others) for mixed in mixtures(chosen, own)
    )


def conflict_on_cell(others, own, held):
    """The same on one cell, by a search over (others gone by, own run, what the cell holds with its temperature). `own`
    has each own entry with its answer alone."""
    seen = set()
    to_do = [(0, 0, held)]
    while to_do:
        state = to_do.pop()
        if state in seen:
            continue
        seen.add(state)
        i, j, held = state
        if i < len(others):
            to_do.append((i + 1, j, held))  # left out
            to_do.append((i + 1, j, run_on_cell(others[i], held)[1]))  # run
        if j < len(own):
            entry, alone = own[j]
            answer, after = run_on_cell(entry, held)
            if answer != alone:
                return True
            to_do.append((i, j + 1, after))
    return False


def conflict(others, own, cells):
    """conflict_by_definition for long lists too. An entry reads and changes its own cell and its temperature only, so an
    own answer can differ exactly if it can with the entries of its cell alone."""
    alone = answers(own, cells)
    return any(
        conflict_on_cell(
            [entry for entry in others if entry.cell == cell],
            [(entry, answer) for entry, answer in zip(own, alone) if entry.cell == cell],
            cells.at(cell),
        )
        for cell in range(CELLS)
    )


# Marks and messages


class Item(NamedTuple):
    """ "items of entry, author, tag" """

    entry: Entry
    author: int
    tag: bytes

    def bytes(self):
        return self.entry.bytes() + bytes([self.author]) + self.tag


def digest(string):
    return hashlib.sha256(string).digest()


def tag(key, string):
    return hmac.new(key, string, hashlib.sha256).digest()


def key_of(keys, author):
    """ "every van holds all eight, van 1's first" """
    return keys[32 * (author - 1) : 32 * author]


def in_string(entry, author):
    """ "`IN`, entry, author (11 bytes)" """
    return b"IN" + entry.bytes() + bytes([author])


def co_string(entry, author, place, value, status):
    """ "`CO`, entry, author, place, digest, status (48 bytes)" """
    return b"CO" + entry.bytes() + bytes([author]) + number(place) + value + bytes([status])


def in_tag(keys, entry, author):
    return tag(key_of(keys, author), in_string(entry, author))


def co_tag(keys, entry, author, place, value, status):
    return tag(key_of(keys, author), co_string(entry, author, place, value, status))


def in_message(keys, entry, author):
    return in_string(entry, author) + in_tag(keys, entry, author)


def re_message(items):
    return b"RE" + bytes([len(items)]) + b"".join(item.bytes() for item in items)


def co_message(keys, entry, author, place, value, status):
    return co_string(entry, author, place, value, status) + co_tag(keys, entry, author, place, value, status)


def br_message(commit):
    """ "A `BR` carries the `CO` tag unchanged." """
    return b"BR" + commit[2:]


class Commit(NamedTuple):
    """The fields of a `CO` or a `BR`."""

    entry: Entry
    author: int
    place: int
    value: bytes
    status: int
    tag: bytes


def item_of(m):
    return Item(entry_of(m[:8]), m[8], m[9:41])


def commit_of(m):
    return Commit(entry_of(m[2:10]), m[10], int.from_bytes(m[11:15], "big"), m[15:47], m[47], m[48:80])


ZERO = bytes(32)  # "The chain value at place 0 is 32 zero bytes."


def chain_value(before, entry, place, author):
    """ "the digest of 45 bytes: value at p - 1, entry, p, author" """
    return digest(before + entry.bytes() + number(place) + bytes([author]))


# The van. An outcome is a tuple of a word and its numbers: ("opened",), ("made", count),
# ("answer", place, answer), ("aside", place), ("confirm", place, status), ("no", n), ("halt", n).


@dataclass(frozen=True)
class Book:
    number: int = 0
    keys: bytes = bytes(256)
    count: int = 0
    hand: Optional[Entry] = None
    c: int = 0
    chain: tuple = (ZERO,)  # the value at c, then those held past it
    statuses: tuple = ()  # 1, 0 or None for each place held
    cells: Cells = Cells()
    halt: int = 0

    def held(self):
        return len(self.statuses)

    def status(self, k):
        """The own status held for place c + k, or None."""
        return self.statuses[k - 1] if k <= self.held() else None


NO_BOOK = Book()  # "A refused opening gives an all-zero book."


def book_in_range(book):
    """Question 8 for a van."""
    return (
        author_allowed(book.number)
        and len(book.keys) == 256
        and 0 <= book.count <= LIMIT
        and 0 <= book.c <= LIMIT
        and len(book.chain) == 1 + book.held()
        and book.held() <= WAITING
        and book.c + book.held() <= LIMIT
        and (book.hand is None or allowed(book.hand))
        and all(status in (1, 0, None) for status in book.statuses)
        and all(0 <= value <= 255 for value in book.cells.values)
        and all(map(temperature_allowed, book.cells.temperatures))
        and (book.halt == 0 or book.halt in HALTS)
    )


def first_no(*questions):
    """ "The first no decides": its number, or None."""
    return next((n for yes, n in questions if not yes), None)


def first_questions(book):
    """ "Every later van call first." """
    return first_no((book_in_range(book), 8), (book.halt == 0, 3))


def no(n):
    return "no", n


def lend(out, message):
    """The out bytes after a message is written to their front."""
    assert len(message) <= len(out)
    return message + out[len(message) :]


def open_book(van, keys):
    if not author_allowed(van):
        return NO_BOOK, no(1)
    if len(keys) != 256:
        return NO_BOOK, no(2)
    return Book(number=van, keys=keys), ("opened",)


def make(book, kind, cell, amount, last, out):
    """Making an entry ("Making takes the last byte too"): the book, the outcome and the out bytes afterwards."""
    why = first_questions(book) or first_no(
        (book.hand is None, 4),
        (in_table(kind, cell, amount, last), 5),
        (book.count < LIMIT, 6),
        (len(out) >= 43, 7),
    )
    if why:
        return book, no(why), out
    count = book.count + 1
    entry = Entry(count, kind, cell, amount, last)
    message = in_message(book.keys, entry, book.number)
    return replace(book, count=count, hand=entry), ("made", count), lend(out, message)


def take(book, message, out):
    """Taking a message from the relay: the book, the outcome and the out bytes afterwards."""
    why = first_questions(book)
    if why:
        return book, no(why), out
    if is_re(message):
        if len(out) < 80:
            return book, no(7), out
        return take_re(book, message, out)
    if is_br(message):
        return take_br(book, message, out)
    return halted(book, 20, out)


def is_re(m):
    return len(m) >= 3 and m[:2] == b"RE" and m[2] <= 32 and len(m) == 3 + 41 * m[2]


def is_br(m):
    return m[:2] == b"BR" and len(m) == 80


def halted(book, n, out):
    assert n in HALTS
    return replace(book, halt=n), ("halt", n), out


def same(a, b):
    return hmac.compare_digest(a, b)


def take_re(book, message, out):
    items = [item_of(message[3 + 41 * k : 44 + 41 * k]) for k in range(message[2])]
    n = len(items)
    # Item by item, at places c + 1, c + 2 and on.
    chain = list(book.chain)
    for k, item in enumerate(items, 1):
        place = book.c + k
        if not (allowed(item.entry) and author_allowed(item.author) and place <= LIMIT):
            return halted(book, 21, out)
        if not same(item.tag, in_tag(book.keys, item.entry, item.author)):
            return halted(book, 22, out)
        value = chain_value(chain[k - 1], item.entry, place, item.author)
        if k < len(chain):
            if not same(chain[k], value):
                return halted(book, 23, out)
        else:
            chain.append(value)
        # "26, for each `RE` item after 23, if it is this van's own, isn't the last, and no status is held for its place"
        if item.author == book.number and k < n and book.status(k) is None:
            return halted(book, 26, out)
    # After all.
    if not (n >= 1 and items[-1].entry == book.hand and items[-1].author == book.number):
        return halted(book, 24, out)

    statuses = list(book.statuses) + [None] * (len(chain) - len(book.chain))
    others = [item.entry for item in items if item.author != book.number]
    own = [
        item.entry
        for k, item in enumerate(items[:-1], 1)
        if item.author == book.number and book.status(k) == DONE
    ] + [book.hand]
    place = book.c + n
    if conflict(others, own, book.cells):
        status, outcome = ASIDE, ("aside", place)
    else:
        status, outcome = DONE, ("answer", place, answers(own, book.cells)[-1])
    statuses[n - 1] = status
    commit = co_message(book.keys, book.hand, book.number, place, chain[n], status)
    after = replace(book, hand=None, chain=tuple(chain), statuses=tuple(statuses))
    return after, outcome, lend(out, commit)


def take_br(book, message, out):
    m = commit_of(message)
    if not (allowed(m.entry) and author_allowed(m.author) and status_allowed(m.status)):
        return halted(book, 21, out)
    if not (m.place == book.c + 1 and m.place <= LIMIT):
        return halted(book, 25, out)
    if not same(m.tag, co_tag(book.keys, m.entry, m.author, m.place, m.value, m.status)):
        return halted(book, 22, out)
    if book.held() >= 1:
        value = book.chain[1]
    else:
        value = chain_value(book.chain[0], m.entry, m.place, m.author)
    if not same(m.value, value):
        return halted(book, 23, out)
    cells = run(m.entry, book.cells)[1] if m.status == DONE else book.cells
    after = replace(
        book, c=m.place, chain=(value,) + book.chain[2:], statuses=book.statuses[1:], cells=cells
    )
    return after, ("confirm", m.place, m.status), out


# The relay. Outcomes: ("placed", place), ("passed", how many `BR`s), ("no", n).


@dataclass(frozen=True)
class Relay:
    t: int = 0
    b: int = 0
    items: tuple = ()  # places b + 1 to t
    commits: tuple = ()  # the `CO` message at each of these places, or None
    last: tuple = (0,) * 8  # each van's last placed count


def relay_in_range(relay):
    """Question 8 for the relay. A stored commit is kept as its `CO` message."""
    return (
        0 <= relay.b <= relay.t <= LIMIT
        and relay.t - relay.b <= WAITING
        and len(relay.items) == len(relay.commits) == relay.t - relay.b
        and all(allowed(item.entry) and author_allowed(item.author) for item in relay.items)
        and all(m is None or (is_co(m) and fields_of_commit_allowed(commit_of(m))) for m in relay.commits)
        and all(0 <= count <= LIMIT for count in relay.last)
    )


def is_in(m):
    return m[:2] == b"IN" and len(m) == 43


def is_co(m):
    return m[:2] == b"CO" and len(m) == 80


def fields_of_commit_allowed(m):
    return allowed(m.entry) and author_allowed(m.author) and status_allowed(m.status)


def relay_take(relay, line, message, out):
    """The relay takes a message from the line of a van: the state, the outcome and the out bytes."""
    if not relay_in_range(relay):
        return relay, no(8), out
    if is_in(message):
        return relay_in(relay, line, item_of(message[2:]), out)
    if is_co(message):
        return relay_co(relay, line, message, out)
    return relay, no(30), out


def last_placed(relay, van):
    return relay.last[van - 1] if author_allowed(van) else 0


def relay_in(relay, line, item, out):
    waiting = relay.t - relay.b
    why = first_no(
        (allowed(item.entry) and author_allowed(item.author), 30),
        (item.author == line, 31),
        (item.entry.count == last_placed(relay, line) + 1, 32),
        (waiting < WAITING, 33),
        (relay.t < LIMIT, 34),
        (len(out) >= 3 + 41 * (waiting + 1), 7),
    )
    if why:
        return relay, no(why), out
    items = relay.items + (item,)
    after = replace(
        relay,
        t=relay.t + 1,
        items=items,
        commits=relay.commits + (None,),
        last=relay.last[: line - 1] + (item.entry.count,) + relay.last[line:],
    )
    return after, ("placed", after.t), lend(out, re_message(items))


def relay_co(relay, line, message, out):
    m = commit_of(message)
    at = m.place - relay.b - 1
    here = 0 <= at < len(relay.items) and relay.items[at][:2] == (m.entry, m.author)
    commits = relay.commits[:at] + (message,) + relay.commits[at + 1 :] if here else relay.commits
    due = 0
    while due < len(commits) and commits[due] is not None:
        due += 1
    why = first_no(
        (fields_of_commit_allowed(m), 30),
        (m.author == line, 31),
        (here, 35),
        (here and relay.commits[at] is None, 36),
        (len(out) >= 80 * due, 7),
    )
    if why:
        return relay, no(why), out
    broadcasts = b"".join(br_message(commit) for commit in commits[:due])
    after = replace(relay, b=relay.b + due, items=relay.items[due:], commits=commits[due:])
    return after, ("passed", due), lend(out, broadcasts)
