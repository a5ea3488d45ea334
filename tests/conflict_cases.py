#!/usr/bin/env python3
"""Cases of the conflict test, for the program conflict_cases.

The expected answer comes from cop.py, which is written from documents 01 and 02 alone: for each case by trying every choice
of the others' operations and every interleaving. Lists too long for that are decided by cop.py's search over the values and
temperatures that each cell can reach, which is first held to the other way on 3,000 random small cases.

A line of stdin has three words in hexadecimal: the sixteen cells' values and then their temperatures (32 bytes), the others'
operations and the own ones, each in order and four bytes each: kind, cell, amount and last byte; `-` for none.

  tests/conflict_cases.py          writes crates/conflict_cases/stdin and stdout
  tests/conflict_cases.py --check  says whether they are what it would write
"""
import os, random, sys

from cop import ADD, READ, READ_TEMP, SET, SET_WITH_TEMP, TAKE
from cop import Cells, Entry, choices, conflict, conflict_by_definition, last_byte, mixtures, own_answers, warm

MOST_BYTES = 1048576  # that the program reads


def entries(ops):
    return [Entry(1, *op) for op in ops]


def by_definition(cells, others, own):
    return conflict_by_definition(entries(others), entries(own), cells)


def by_search(cells, others, own):
    return conflict(entries(others), entries(own), cells)


def as_told(told, cells, others, own):
    """The answer where only what `told` makes of the own answers is compared: by trying everything."""
    own = entries(own)
    alone = told(own, own_answers([(entry, True) for entry in own], cells))
    return any(told(own, own_answers(mixed, cells)) != alone for chosen in choices(entries(others)) for mixed in mixtures(chosen, own))


def before_q1(cells, others, own):
    """The answer if, as before document 02's Q-1, a failed add or take answered 0."""
    return as_told(lambda _, answers: [answer if answer < 256 else 0 for answer in answers], cells, others, own)


def by_values(cells, others, own):
    """The answer of a test that compares no temperature."""

    def told(own, answers):
        return [answer for entry, answer in zip(own, answers) if entry.kind != READ_TEMP]

    return as_told(told, cells, others, own)


def one(v, t=0):
    return Cells().put(0, (v, t))


def every(v, t=0):
    return Cells((v,) * 16, (t,) * 16)


def any_kind(kind, amount, temperature, cell=0):
    """An operation of this kind, with the amount and the temperature where it has one."""
    if kind == SET_WITH_TEMP:
        return warm(cell, amount, temperature)
    return kind, cell, 0 if kind in (READ, READ_TEMP) else amount


def some_op(rng, cells, amounts, temperatures):
    return any_kind(rng.randint(1, 6), rng.choice(amounts), rng.choice(temperatures), rng.randrange(cells))


def random_case(rng, most):
    wide = rng.choice([[0, 1, 2, 3], [1, 3, 5, 250], list(range(256))])
    near = rng.choice([[20], [-1, 0], [-40, 0, 85], list(range(-40, 86))])
    cells = rng.randint(1, 3)
    held = Cells()
    for cell in range(cells):
        held = held.put(cell, (rng.choice(wide + [0, 7, 250, 255]), rng.choice(near)))
    others = [some_op(rng, cells, wide, near) for _ in range(rng.randint(0, most))]
    return held, others, [some_op(rng, cells, wide, near) for _ in range(rng.randint(1, most))]


def turned():
    """Cases that Q-1 turns from "no" to "yes": an own add or take fails at two values."""
    yield one(7), [(TAKE, 0, 2)], [(TAKE, 0, 8)]
    yield one(7), [(ADD, 0, 1)], [(TAKE, 0, 255)]
    yield one(250), [(TAKE, 0, 1)], [(ADD, 0, 10)]
    yield one(255), [(TAKE, 0, 1)], [(ADD, 0, 2)]
    yield one(254), [(SET, 0, 255)], [(ADD, 0, 2)]
    yield one(0), [(SET, 0, 1)], [(TAKE, 0, 2)]
    yield one(7), [(ADD, 0, 3), (TAKE, 0, 3)], [(TAKE, 0, 20)]
    yield one(7), [(SET, 0, 7), (SET, 0, 6), (SET, 0, 7)], [(TAKE, 0, 8)]
    yield one(7), [(TAKE, 0, 8), (TAKE, 0, 7)], [(TAKE, 0, 9)]
    yield one(7), [(TAKE, 0, 1)], [(TAKE, 0, 5), (TAKE, 0, 4)]
    yield one(7), [(ADD, 0, 1)], [(TAKE, 0, 20), (TAKE, 0, 20)]
    yield one(7), [(SET, 0, 6)], [(SET, 0, 5), (TAKE, 0, 9), (SET, 0, 7)]
    yield one(7), [(ADD, 1, 1), (ADD, 0, 1)], [(TAKE, 1, 0), (TAKE, 0, 20)]
    for cell in range(16):
        yield every(7), [(TAKE, cell, 2)], [(TAKE, cell, 8)]
        yield every(250), [(TAKE, cell, 2)], [(ADD, cell, 9)]


def by_temperature():
    """Cases that conflict, and only by temperatures."""
    own_6 = (READ_TEMP, 0, 0)
    # the same value, another temperature: one degree, the sign, the ends
    for t, other in ((20, 21), (20, 19), (0, 1), (-1, -2), (84, 85), (-40, -39), (20, -20), (0, -1), (-1, 0), (-1, 1), (0, -40), (85, -40), (-40, 85)):
        yield one(7, t), [warm(0, 7, other)], [own_6]
    # the test takes any bytes, also temperatures that no call brings to it: only the high bit differs, and the ends of a byte
    for t, other in ((0, -128), (127, -1), (-128, 127)):
        yield one(7, t), [warm(0, 7, other)], [own_6]
    # the temperature equals the value of the cell, before or after
    yield one(20, 20), [warm(0, 20, 21)], [own_6]
    yield one(20, 21), [warm(0, 20, 20)], [own_6]
    # one of two left out, first or last; among others that leave the temperature; after a failure
    yield one(7, 20), [warm(0, 7, 21), warm(0, 7, 20)], [own_6]
    yield one(7, 20), [warm(0, 7, 20), warm(0, 7, 21)], [own_6]
    yield one(7, 20), [(SET, 0, 9), (ADD, 0, 1), own_6, warm(0, 9, -5), (TAKE, 0, 250)], [own_6]
    # own ones before and after: a kind 5 before the kind 6, after it, on both sides
    yield one(7, 20), [warm(0, 9, 6)], [warm(0, 9, 5), own_6]
    yield one(7, 20), [warm(0, 9, 20)], [warm(0, 9, 5), own_6]
    yield one(7, 20), [warm(0, 7, 5)], [own_6, warm(0, 7, 5)]
    yield one(7, 20), [warm(0, 7, 5)], [own_6, warm(0, 7, 5), own_6]
    yield one(7, 20), [warm(0, 7, 5)], [warm(0, 7, 20), (SET, 0, 7), own_6]
    yield one(7, 20), [warm(0, 7, 5)], [(READ, 0, 0), own_6]
    yield one(7, 20), [warm(0, 7, 5)], [(TAKE, 0, 8), (ADD, 0, 255), own_6]
    # several cells
    yield every(7, 20), [warm(1, 7, 20), warm(0, 7, 5)], [(READ_TEMP, 1, 0), own_6]
    yield every(7, 20), [warm(3, 9, 20), warm(2, 7, 5), warm(1, 7, 5)], [(READ_TEMP, 3, 0), (READ, 1, 0), (READ_TEMP, 2, 0)]
    for cell in range(16):
        yield every(7, -7), [warm(cell, 7, 7)], [(READ_TEMP, cell, 0)]


def no_conflict_by_temperature():
    """Cases with temperatures that do not conflict."""
    own_6 = (READ_TEMP, 0, 0)
    for t in (-40, -1, 0, 1, 20, 85):
        yield one(7, t), [warm(0, 7, t)], [own_6]
        yield one(7, t), [warm(0, 9, t)], [own_6]
        yield one(7, t), [(SET, 0, 9), (SET, 0, 0), (ADD, 0, 5), (TAKE, 0, 9), (READ, 0, 0), own_6], [own_6]
        yield one(7, t), [warm(0, 7, 3)], [(READ, 0, 0)]
        yield one(7, t), [warm(0, 7, 3)], [(TAKE, 0, 8), (ADD, 0, 249), (TAKE, 0, 7)]
        yield one(7, t), [warm(0, 200, 3), warm(0, 30, -3)], [(TAKE, 0, 7)]
        yield one(7, t), [warm(0, 9, 3), own_6], [warm(0, 8, 4), warm(0, 9, 5), (SET, 0, 1)]
        yield one(7, t), [warm(0, 9, 5), warm(0, 8, 5)], [warm(0, 3, 5), own_6]
        yield one(7, t), [own_6, (READ, 0, 0)], [own_6, (READ, 0, 0), (TAKE, 0, 8)]
    yield one(7, 20), [warm(0, 7, 20), (SET, 0, 7)], [(READ, 0, 0), own_6]
    for cell in range(16):
        yield every(7, -7), [warm((cell + k) % 16, 9, 9) for k in range(1, 16)], [(READ_TEMP, cell, 0), (READ, cell, 0)]
    # any bytes again: in kinds other than 5 the last one counts for nothing
    yield one(7, 20), [(SET, 0, 7, 5), (ADD, 0, 0, 6), (TAKE, 0, 0, 7), (READ, 0, 0, 8), (READ_TEMP, 0, 0, 9)], [own_6, (READ, 0, 0)]
    yield one(7, 20), [warm(0, 7, 20)], [(SET, 0, 7, 5), (ADD, 0, 0, 6), (READ_TEMP, 0, 1, 9)]


def cases():
    rng = random.Random(1)
    # document 01's own
    yield one(7), [(ADD, 0, 3)], [(TAKE, 0, 5)]
    yield one(7), [(ADD, 0, 3)], [(TAKE, 0, 5), (TAKE, 0, 4)]
    yield one(7), [(TAKE, 0, 2), (TAKE, 0, 1)], [(TAKE, 0, 5)]
    yield one(7), [(ADD, 0, 3), (TAKE, 0, 4)], [(TAKE, 0, 5)]
    yield one(7), [(SET, 0, 7)], [(READ, 0, 0)]
    yield one(7), [(SET, 0, 9)], [(READ, 0, 0)]
    yield one(7), [(ADD, 1, 3)], [(READ, 0, 0)]
    yield one(7), [], [(TAKE, 0, 5)]
    yield one(250), [(ADD, 0, 6), (TAKE, 0, 6)], [(READ, 0, 0)]
    # an own failure, with others that turn it to "yes" and with others that leave its value
    yield from turned()
    yield one(7), [(SET, 0, 7)], [(TAKE, 0, 8)]
    yield one(7), [(ADD, 0, 0), (TAKE, 0, 0), (READ, 0, 0)], [(TAKE, 0, 8), (ADD, 0, 250)]
    yield one(7), [(TAKE, 0, 8), (ADD, 0, 249)], [(TAKE, 0, 8)]
    yield every(7), [(TAKE, 1, 2)], [(TAKE, 0, 8)]
    # an own kind 6, and others that change its answer or do not; others' kind 5 against every own kind
    yield from by_temperature()
    yield from no_conflict_by_temperature()
    for mine in ((ADD, 0, 200), (ADD, 0, 250), (TAKE, 0, 7), (TAKE, 0, 8), (READ, 0, 0), (SET, 0, 7), warm(0, 7, 20), (READ_TEMP, 0, 0)):
        for theirs in (warm(0, 7, 20), warm(0, 7, -20), warm(0, 9, 20), warm(0, 0, -20), warm(0, 255, 20)):
            yield one(7, 20), [theirs], [mine]
    # a conflict only where others' kind 5 is left out, or only where it is run; an own kind 5 before own ones that its value tells
    yield one(7, 20), [warm(0, 100, 20), (TAKE, 0, 4)], [(TAKE, 0, 5)]
    yield one(5, 20), [warm(0, 200, -20), (ADD, 0, 250)], [(ADD, 0, 1)]
    yield one(7, 20), [warm(0, 4, 20), (ADD, 0, 1)], [(TAKE, 0, 5)]
    yield one(7, 20), [warm(0, 100, -20), (TAKE, 0, 2)], [(TAKE, 0, 5)]
    yield one(7, 20), [(TAKE, 0, 4)], [warm(0, 9, 20), (TAKE, 0, 5)]
    yield one(7, 20), [(TAKE, 0, 4)], [warm(0, 8, 20), (TAKE, 0, 5)]
    yield one(7, 20), [(SET, 0, 9)], [warm(0, 9, -20), (READ, 0, 0)]
    yield one(7, 20), [(SET, 0, 7)], [warm(0, 9, -20), (READ, 0, 0)]
    # every kind against every kind
    for theirs in range(1, 7):
        for mine in range(1, 7):
            for held in (0, 7, 250):
                for a, b in ((0, 0), (5, 7), (249, 3)):
                    yield one(held, 5), [any_kind(theirs, a, a % 86)], [any_kind(mine, b, b)]
    # the last cell; the own list alone; nothing at all
    yield Cells().put(15, (9, 0)), [(TAKE, 15, 3), (TAKE, 15, 3)], [(TAKE, 15, 4)]
    yield every(9, -9), [], [any_kind(k, 9, 9, c) for c in range(0, 16, 4) for k in range(1, 7)]
    yield one(7), [(SET, 0, 9)], []
    yield one(7, 20), [warm(0, 9, 21)], []
    # small, at random
    for _ in range(400):
        yield random_case(rng, 4)
    # full lists
    powers = [(ADD, 0, 1 << i % 8) for i in range(32)]
    yield one(0), powers, [(TAKE, 0, 0)] * 32
    yield one(0), powers, [(SET, 0, 37 * i % 256) for i in range(32)]
    yield one(0), powers, [(SET, 0, i) for i in range(31)] + [(TAKE, 0, 30)]
    yield one(0), powers, [(SET, 0, 31 - i) for i in range(31)] + [(TAKE, 0, 30)]
    yield one(0), powers, [(ADD, 0, 0)] * 31 + [(READ, 0, 0)]
    yield one(0), [(ADD, 0, 1)] * 32, [(ADD, 0, 6)] * 32
    yield one(31), [(ADD, 0, 1)] * 32, [(ADD, 0, 6)] * 32
    yield one(32), [(ADD, 0, 1)] * 32, [(ADD, 0, 6)] * 32
    yield one(255), [(TAKE, 0, 7)] * 32, [(TAKE, 0, 1)] * 31
    yield one(255), [(TAKE, 0, 7)] * 32, [(TAKE, 0, 1)] * 32
    yield one(255), [(TAKE, 0, 7)] * 31, [(TAKE, 0, 1)] * 32
    yield one(255), [(TAKE, 0, 7)] * 31, [(TAKE, 0, 38)]
    yield one(255), [(TAKE, 0, 7)] * 31, [(TAKE, 0, 39)]
    yield every(0), [(ADD, i % 16, 1) for i in range(32)], [(ADD, i % 16, 1) for i in range(32)]
    yield every(0), [(ADD, i % 16, 1) for i in range(32)], [(ADD, i % 16, 1) for i in range(31)] + [(READ, 15, 0)]
    yield every(0), [(ADD, i % 8, 1) for i in range(32)], [(READ, 8 + i % 8, 0) for i in range(32)]
    yield every(253), [(ADD, i % 16, 1) for i in range(16)], [(ADD, i % 16, 1) for i in range(32)]
    yield every(254), [(ADD, i % 16, 1) for i in range(16)], [(ADD, i % 16, 1) for i in range(32)]
    # full lists with own failures: others that leave the value, then that change it once, first or last, and found at 255
    still = [(ADD, 0, 0), (TAKE, 0, 0), (READ, 0, 0), (SET, 0, 100), (ADD, 0, 200)]
    calm = [still[i % 5] for i in range(31)]
    for fails in ([(ADD, 0, 200)] * 32, [(TAKE, 0, 101)] * 32, [(ADD, 0, 200)]):
        yield one(100), calm + [(READ, 0, 0)], fails
        yield one(100), calm + [(SET, 0, 101)], fails
        yield one(100), [(TAKE, 0, 1)] + calm, fails
        yield one(100), calm + [(SET, 0, 255)], fails
    yield one(100), calm, [(ADD, 0, 0)] * 31 + [(ADD, 0, 200)]
    yield one(100), calm + [(ADD, 0, 1)], [(ADD, 0, 0)] * 31 + [(ADD, 0, 200)]
    # full lists with temperatures: others that leave it (their values do not matter), then that change it once, first or last
    own_6 = (READ_TEMP, 0, 0)
    mild = [warm(0, 37 * i % 256, -5) if i % 3 else powers[i] for i in range(31)]
    for own in ([own_6] * 32, [own_6], [warm(0, i, -5) for i in range(31)] + [own_6], [own_6] + [warm(0, i, -5) for i in range(31)]):
        yield one(0, -5), mild + [warm(0, 0, -5)], own
        yield one(0, -5), mild + [warm(0, 0, -6)], own
        yield one(0, -5), [warm(0, 0, 5)] + mild, own
        yield one(0, -5), mild + [(SET, 0, 251)], own
    # own kind 5 at the end sets it back; own ones of two temperatures before the kind 6
    yield one(0, -5), [warm(0, 9, i - 20) for i in range(32)], [warm(0, 9, 5)] * 32
    yield one(0, -5), [warm(0, 9, 5)] * 32, [warm(0, 9, 6), warm(0, 9, 5)] * 15 + [own_6]
    yield one(0, -5), [warm(0, 9, 5)] * 31 + [warm(0, 9, 4)], [warm(0, 9, 6), warm(0, 9, 5)] * 15 + [own_6]
    yield one(0, 5), [warm(0, 9, 5)] * 32, [warm(0, 9, 6), own_6] * 16
    # sixteen cells, the last one's temperature changed or not
    for last in (9, 10):
        others = [warm(i % 16, i, 9) for i in range(31)] + [warm(15, 31, last)]
        yield every(0, 9), others, [(READ_TEMP, i % 16, 0) for i in range(32)]
        yield every(0, 9), others, [(SET, i % 16, i) for i in range(16)] + [(READ_TEMP, 15 - i, 0) for i in range(16)]
    yield every(0, 9), [warm(i % 8, 9, i) for i in range(32)], [(READ_TEMP, 8 + i % 8, 0) for i in range(32)]
    for k in range(40):
        amounts = ([0, 1], [0, 1, 2, 3], list(range(256)))[k % 3]
        near = ([20], [20], [-1, 0], [-40, 85])[k % 4]
        cells = rng.choice([1, 4, 16])
        held = Cells(tuple(rng.choice([0, 100, 128, 255]) for _ in range(16)), tuple(rng.choice(near) for _ in range(16)))
        others = [some_op(rng, cells, amounts, near) for _ in range(32)]
        if k % 4 == 0:  # own ones that only values can tell: none, or sets of both kinds
            own = [rng.choice([(SET, rng.randrange(cells), rng.choice(amounts)), warm(rng.randrange(cells), 3, 85)]) for _ in range(32)]
        elif k % 4 == 1:  # own ones that only temperatures can tell, with others that leave them
            own = [rng.choice([(READ_TEMP, rng.randrange(cells), 0), (SET, rng.randrange(cells), 7)]) for _ in range(32)]
        else:
            own = [some_op(rng, cells, amounts, near) for _ in range(32)]
        yield held, others, own


def operations(ops):
    return b"".join(entry.bytes()[4:] for entry in entries(ops)).hex() or "-"


def line(case):
    held, others, own = case
    return " ".join(((bytes(held.values) + bytes(map(last_byte, held.temperatures))).hex(), operations(others), operations(own)))


def main():
    rng = random.Random(2)
    for _ in range(3000):
        case = random_case(rng, 4)
        assert by_search(*case) == by_definition(*case), line(case)
    for case in turned():
        assert by_definition(*case) and not before_q1(*case), line(case)
    for case in by_temperature():
        assert by_definition(*case) and not by_values(*case), line(case)
    for case in no_conflict_by_temperature():
        assert not by_search(*case), line(case)
    given, expected, changed, temperatures = [], [], 0, 0
    for case in cases():
        answer = by_search(*case)
        if len(case[1]) + len(case[2]) <= 9:
            assert answer == by_definition(*case), line(case)
            earlier = before_q1(*case)
            assert answer or not earlier, line(case)  # Q-1 takes no case from "yes" to "no"
            changed += answer != earlier
            temperatures += answer != by_values(*case)
        given.append(line(case))
        expected.append("yes" if answer else "no")
    root = os.path.join(os.path.dirname(os.path.abspath(__file__)), "..", "crates", "conflict_cases")
    texts = {"stdin": "\n".join(given) + "\n", "stdout": "\n".join(expected) + "\n"}
    assert len(texts["stdin"]) <= MOST_BYTES
    counts = (len(given), expected.count("yes"), changed, temperatures, len(texts["stdin"]))
    print("%d cases, %d of them conflicts, %d by Q-1, %d by temperatures alone, %d bytes" % counts)
    for name, text in texts.items():
        path = os.path.join(root, name)
        if "--check" in sys.argv:
            if open(path).read() != text:
                sys.exit(name + " is not what this program writes")
        else:
            open(path, "w").write(text)


main()
