"""What the program server_run does, over cop.py: `python3 tests/server_run.py < crates/server_run/stdin`.

The program keeps two relay states, in slots 0 and 1, all zero at first. Its input has at most 1,048,576 bytes, a line a call:

    # TEXT                                   a note: printed as it is
    fresh TO                                 a fresh state, which goes to slot TO
    receive FROM TO LINE ROOM MESSAGE        takes a message on the line of a van
    change FROM TO AT BYTES FIELD            sets bytes of a state, from AT on; FIELD, for the reader, is their field and index

A call gets the state in slot FROM, and the state afterwards goes to slot TO. MESSAGE (at most 4,096 bytes) and BYTES are in
hexadecimal, `-` for no bytes; other numbers are decimal.

Each call gives one line: the outcome's word and number (for a fresh state and a change, the word alone), and the first eight
bytes of the SHA-256 digest of the whole state; for a receive also those of the out buffer. That has 4,096 bytes of value
0xaa, of which the first ROOM are lent. A state has 3,432 bytes: each field in the order of LAYOUT, numbers in four bytes.
"""

import cop
from call_lines import Layout, bytes_of
from cop import ASIDE, DONE

# Field, number of bytes of an element, number of elements.
LAYOUT = Layout(
    (
        ("t", 4, 1),
        ("b", 4, 1),
        ("last", 4, 8),
        ("items", 1, 32 * 41),
        ("statuses", 1, 32),
        ("digests", 1, 32 * 32),
        ("tags", 1, 32 * 32),
    ),
    room=4096,
)


def image(relay):
    """A state as the program holds it: of a commit what its item does not say."""
    commits = [cop.commit_of(m) if m else None for m in relay.commits]
    return b"".join(
        (
            cop.number(relay.t),
            cop.number(relay.b),
            b"".join(map(cop.number, relay.last)),
            b"".join(item.bytes() for item in relay.items).ljust(32 * 41, b"\0"),
            bytes({None: 0, DONE: 1, ASIDE: 2}[m.status if m else None] for m in commits).ljust(32, b"\0"),
            b"".join(m.value if m else bytes(32) for m in commits).ljust(32 * 32, b"\0"),
            b"".join(m.tag if m else bytes(32) for m in commits).ljust(32 * 32, b"\0"),
        )
    )


def relay_of(data):
    """The state that an image holds, or None if it holds none: places below 0 or above 32, a status that is none of the
    three, or something in an unused slot. That is part of question 8."""

    def part(name, at, length):
        return LAYOUT.part(data, name, at, length)

    def number(name, k=0):
        return int.from_bytes(part(name, 4 * k, 4), "big")

    t, b = number("t"), number("b")
    statuses = part("statuses", 0, 32)
    if not 0 <= t - b <= 32 or max(statuses) > 2:
        return None
    items = tuple(cop.item_of(part("items", 41 * k, 41)) for k in range(t - b))
    commits = []
    for k, item in enumerate(items):
        string = cop.co_string(item.entry, item.author, b + 1 + k, part("digests", 32 * k, 32), statuses[k] % 2)
        commits.append(string + part("tags", 32 * k, 32) if statuses[k] else None)
    relay = cop.Relay(t, b, items, tuple(commits), tuple(number("last", k) for k in range(8)))
    return relay if image(relay) == data else None


def take(data, number, room, message):
    """A message on the state that an image holds."""
    relay = relay_of(data)
    out = b"\xaa" * room
    if relay is None:
        return data, cop.no(8), out
    after, outcome, out = cop.relay_take(relay, number, message, out)
    return image(after), outcome, out


def run(slots, words):
    """A line's call on the slots: outcome, state afterwards, and out bytes, None where there are none."""
    out = None
    if words[0] == "fresh":
        to, data, outcome = words[1], image(cop.Relay()), ("fresh",)
    elif words[0] == "receive":
        slot, to, number, room, message = words[1:]
        data, outcome, out = take(slots[int(slot)], int(number), int(room), bytes_of(message))
    else:
        to, data, outcome = LAYOUT.change(slots, words)
    slots[int(to)] = data
    return outcome, data, out


if __name__ == "__main__":
    LAYOUT.answer([bytes(LAYOUT.size)] * 2, run)
