"""The linked library beside cop.py: each call is made on both, and outcome, state and bytes are compared.

States of the library stand in memory with the layout of include/cop.h; cop.py's are turned into the same fields. A
state and an out buffer have canary bytes past them; a message stands right before a page that cannot be read.
"""

import ctypes
import mmap
import struct

import cop
from cop import ASIDE, DONE, Book, Cells, Relay

REPLICA = struct.Struct("<B256s3xI I4B II 1056s32s16s16sB3x")
SERVER = struct.Struct("<II8I1312s32s1024s1024s")
STATUS_BYTE = {None: 0, DONE: 1, ASIDE: 2}
STATUS = (None, DONE, ASIDE)
CANARY = bytes(range(0xA0, 0xC0))
ROOM_MOST = 4096
FILL = bytes((i * i * 7 + i * 13 + (i >> 8) * 31 + 5) % 256 for i in range(2 * ROOM_MOST))


class Differ(Exception):
    pass


# States as fields, and back


def replica_fields(book):
    hand = book.hand or (0, 0, 0, 0, 0)
    chain = b"".join(book.chain).ljust(1056, b"\0")
    statuses = bytes([STATUS_BYTE[s] for s in book.statuses]).ljust(32, b"\0")
    held = len(book.statuses)
    cells = bytes(book.cells.values), bytes(map(cop.last_byte, book.cells.temperatures))
    return (book.number, book.keys, book.count, *hand, book.c, held, chain, statuses, *cells, book.halt)


def book_of(fields):
    """The book with these fields, or None where none has them: an unused slot that is not zero, a status that is
    none of the three, more than 32 places. That is part of question 8."""
    number, keys, count, *hand, c, held, chain, statuses, values, temperatures, halt = fields
    if held > 32 or max(statuses) > 2:
        return None
    book = Book(
        number=number,
        keys=keys,
        count=count,
        hand=cop.Entry(*hand) if any(hand) else None,
        c=c,
        chain=tuple(chain[32 * k : 32 * k + 32] for k in range(held + 1)),
        statuses=tuple(STATUS[s] for s in statuses[:held]),
        cells=Cells(tuple(values), tuple(map(cop.signed, temperatures))),
        halt=halt,
    )
    return book if replica_fields(book) == fields else None


def server_fields(relay):
    """Of a commit is stored what its item does not say."""
    commits = relay.commits
    return (
        relay.t,
        relay.b,
        *relay.last,
        b"".join([item.bytes() for item in relay.items]).ljust(1312, b"\0"),
        bytes([STATUS_BYTE[m[47]] if m else 0 for m in commits]).ljust(32, b"\0"),
        b"".join([m[15:47] if m else bytes(32) for m in commits]).ljust(1024, b"\0"),
        b"".join([m[48:80] if m else bytes(32) for m in commits]).ljust(1024, b"\0"),
    )


def relay_of(fields):
    """The relay's state with these fields, or None, as for a book."""
    t, b, *last, items, statuses, digests, tags = fields
    if not 0 <= t - b <= 32 or max(statuses) > 2:
        return None
    items = tuple(cop.item_of(items[41 * k : 41 * k + 41]) for k in range(t - b))
    commits = []
    for k, item in enumerate(items):
        at = slice(32 * k, 32 * k + 32)
        string = cop.co_string(item.entry, item.author, (b + 1 + k) % (1 << 32), digests[at], statuses[k] % 2)
        commits.append(string + tags[at] if statuses[k] else None)
    relay = Relay(t, b, items, tuple(commits), tuple(last))
    return relay if server_fields(relay) == fields else None


# The library


class Said(ctypes.Structure):
    _fields_ = [(name, ctypes.c_uint32) for name in ("what", "number", "first")] + [("second", ctypes.c_int32)]


class Opened(ctypes.Structure):
    _fields_ = [("replica", ctypes.c_uint8 * REPLICA.size), ("said", Said)]


class Fresh(ctypes.Structure):
    _fields_ = [("server", ctypes.c_uint8 * SERVER.size)]


def said_of(outcome):
    """An outcome of cop.py as cop_said has it."""
    word, *numbers = outcome
    if word in ("no", "halt"):
        return ("no", "halt").index(word), numbers[0], 0, 0
    what = ("opened", "made", "answer", "aside", "confirm", "placed", "passed").index(word) + 2
    return what, 0, *numbers, *(0,) * (2 - len(numbers))


class Guarded:
    """Memory whose end is the end of what may be read."""

    SIZE = 1 << 17

    def __init__(self):
        page = mmap.PAGESIZE
        self.memory = mmap.mmap(-1, self.SIZE + page)
        self.start = ctypes.addressof(ctypes.c_char.from_buffer(self.memory))
        libc = ctypes.CDLL(None, use_errno=True)
        libc.mprotect.argtypes = [ctypes.c_void_p, ctypes.c_size_t, ctypes.c_int]
        if libc.mprotect(self.start + self.SIZE, page, 0) != 0:
            raise OSError(ctypes.get_errno(), "mprotect")

    def put(self, message):
        at = self.SIZE - len(message)
        self.memory[at : self.SIZE] = message
        return self.start + at

    def end(self, n):
        return self.memory[self.SIZE - n : self.SIZE]


class State:
    """A state of the library's and the same of cop.py's, `model` (None where cop.py has none such)."""

    def __init__(self, layout, data, model):
        self.layout = layout
        self.memory = ctypes.create_string_buffer(data + CANARY, layout.size + len(CANARY))
        self.model = model

    def data(self):
        return self.memory[: self.layout.size]

    def copy(self):
        return State(self.layout, self.data(), self.model)


class Library:
    """Calls on both. `seen` counts the outcomes (`failed`: the answer of an add or take that failed; `negative`: one of a kind 6),
    `calls` the calls."""

    def __init__(self, path):
        lib = self.lib = ctypes.CDLL(path)
        size, pointer, byte = ctypes.c_size_t, ctypes.c_void_p, ctypes.c_uint8
        for name, result, arguments in (
            ("cop_open", Opened, [byte, pointer, size]),
            ("cop_invoke", Said, [pointer, byte, byte, byte, byte, pointer, size]),
            ("cop_receive", Said, [pointer, pointer, size, pointer, size]),
            ("cop_fresh_server", Fresh, []),
            ("cop_serve", Said, [pointer, byte, pointer, size, pointer, size]),
            ("cop_digest", ctypes.c_uint32, [pointer, size, pointer]),
            ("cop_tag", ctypes.c_uint32, [pointer, size, pointer, size, pointer]),
        ):
            function = getattr(lib, name)
            function.restype, function.argtypes = result, arguments
        self.message = Guarded()
        self.key = Guarded()
        self.out = ctypes.create_string_buffer(ROOM_MOST + len(CANARY))
        self.calls = 0
        self.seen = {}

    def count(self, call, outcome):
        self.calls += 1
        word = outcome[0]
        if word == "answer" and not 0 <= outcome[2] <= 255:
            word = "negative" if outcome[2] < 0 else "failed"
        what = (call, word, outcome[1] if word in ("no", "halt") else 0)
        self.seen[what] = self.seen.get(what, 0) + 1

    def same(self, what, got, expected):
        if got != expected:
            raise Differ(f"{what}: the library has {got!r}, cop.py {expected!r}")

    def open(self, number, keys):
        book, outcome = cop.open_book(number, keys)
        opened = self.lib.cop_open(number, self.message.put(keys), len(keys))
        s = opened.said
        self.same("open outcome", (s.what, s.number, s.first, s.second), said_of(outcome))
        data = bytes(opened.replica)
        self.same("opened state", REPLICA.unpack(data), replica_fields(book))
        self.count("open", outcome)
        return State(REPLICA, data, book), outcome

    def fresh(self):
        data = bytes(self.lib.cop_fresh_server().server)
        self.same("fresh state", SERVER.unpack(data), server_fields(Relay()))
        self.count("fresh", ("fresh",))
        return State(SERVER, data, Relay())

    def lend(self, room):
        """`room` bytes for the out buffer, with canary bytes right past them."""
        at = self.calls % ROOM_MOST
        lent = FILL[at : at + room]
        ctypes.memmove(self.out, lent + CANARY, room + len(CANARY))
        return lent

    def both(self, call, state, fields_of, step, room, message, *arguments):
        """A call on both: cop.py's, `step`, on the model (8 where there is none), and the library's on its state."""
        lent = self.lend(room)
        fields = state.layout.unpack_from(state.memory)
        after, outcome, out = (None, cop.no(8), lent) if state.model is None else step(state.model, lent)
        if after is not None and after is not state.model:
            fields = fields_of(after)
        function = getattr(self.lib, "cop_" + call)
        s = function(ctypes.addressof(state.memory), *arguments, ctypes.addressof(self.out), room)
        self.same(call + " outcome", (s.what, s.number, s.first, s.second), said_of(outcome))
        self.same(call + " state", state.layout.unpack_from(state.memory), fields)
        self.same(call + " bytes past the state", state.memory[state.layout.size :], CANARY)
        self.same(call + " out bytes", self.out[: room + len(CANARY)], out + CANARY)
        self.same(call + " message", self.message.end(len(message)), message)
        state.model = after
        self.count(call, outcome)
        return outcome, out

    def invoke(self, state, kind, cell, amount, last, room):
        def step(book, out):
            return cop.make(book, kind, cell, amount, last, out)

        return self.both("invoke", state, replica_fields, step, room, b"", kind, cell, amount, last)

    def receive(self, state, message, room):
        def step(book, out):
            return cop.take(book, message, out)

        m = self.message.put(message)
        return self.both("receive", state, replica_fields, step, room, message, m, len(message))

    def serve(self, state, line, message, room):
        def step(relay, out):
            return cop.relay_take(relay, line, message, out)

        m = self.message.put(message)
        return self.both("serve", state, server_fields, step, room, message, line, m, len(message))

    def hashed(self, call, number, value, strings):
        """A digest or a tag: 32 bytes, or 9."""
        expected = 9 if any(len(string) > 65535 for string in strings) else 0
        self.same(call + " outcome", number, expected)
        lent = FILL[self.calls % ROOM_MOST :][:32]
        self.same(call + " out bytes", self.out[: 32 + len(CANARY)], (lent if expected else value()) + CANARY)
        self.count(call, cop.no(9) if expected else (call,))

    def digest(self, string):
        self.lend(32)
        n = self.lib.cop_digest(self.message.put(string), len(string), ctypes.addressof(self.out))
        self.hashed("digest", n, lambda: cop.digest(string), (string,))

    def tag(self, key, string):
        self.lend(32)
        out = ctypes.addressof(self.out)
        n = self.lib.cop_tag(self.key.put(key), len(key), self.message.put(string), len(string), out)
        self.hashed("tag", n, lambda: cop.tag(key, string), (key, string))
