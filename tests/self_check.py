"""Checks cop.py and trial.py: document 01's cases (with document 02's answers and temperatures), its trial listing, the two conflict
tests against each other, document 02's number 26, and what document 01 says of whole runs, on drawn schedules; and meter_log.py: cases of
document 02's Q-5, sound quoting told in two ways, Python's csv, and an added column on drawn logs. `python3 tests/self_check.py`."""

import csv
import io
import re
from dataclasses import replace
from itertools import product

import cop
import log_csv
import log_draws
import meter_log
from cop import ADD, ASIDE, DONE, READ, READ_TEMP, SET, SET_WITH_TEMP, TAKE, Cells, Entry
from draws import TEMPERATURES, Draws
from trial import KEYS, VANS, Trial, lines_of, run


def cells_with(value, temperature=0, cell=0):
    return Cells().put(cell, (value, temperature))


def entries(*pairs, cell=0):
    """Entries of kinds and amounts, with a temperature third in kind 5."""
    return [Entry(1, kind, cell, amount, *map(cop.last_byte, temperature)) for kind, amount, *temperature in pairs]


def table_cases():
    for value, kind, amount, answer, after in (
        (250, ADD, 5, 1, 255),
        (250, ADD, 6, 506, 250),
        (7, TAKE, 7, 1, 0),
        (7, TAKE, 8, 263, 7),
        (7, READ, 0, 7, 7),
        (7, SET, 9, 1, 9),
        (255, ADD, 1, 511, 255),
        (0, TAKE, 1, 256, 0),
    ):
        for cell in range(16):
            for temperature in (-40, -1, 0, 85):
                (entry,) = entries((kind, amount), cell=cell)
                assert cop.run(entry, cells_with(value, temperature, cell)) == (answer, cells_with(after, temperature, cell))
                (entry,) = entries((SET_WITH_TEMP, amount, temperature), cell=cell)
                assert cop.run(entry, cells_with(value, 20, cell)) == (1, cells_with(amount, temperature, cell))
                (entry,) = entries((READ_TEMP, 0), cell=cell)
                assert cop.run(entry, cells_with(value, temperature, cell)) == (temperature, cells_with(value, temperature, cell))


def table_ranges():
    assert [cop.signed(byte) for byte in (0, 85, 127, 128, 216, 255)] == [0, 85, 127, -128, -40, -1]
    assert all(cop.signed(cop.last_byte(n)) == n for n in range(-128, 128))
    lasts = {kind: [0] for kind in range(1, 7)} | {SET_WITH_TEMP: [*range(86), *range(216, 256)]}
    for kind in range(256):
        for amount in (0, 1, 255):
            by_amount = amount == 0 or kind not in (READ, READ_TEMP)
            found = [last for last in range(256) if cop.in_table(kind, 15, amount, last)]
            assert found == (lasts.get(kind, []) if by_amount else []), (kind, amount)
            assert not any(cop.in_table(kind, 16, amount, last) for last in range(256))
    book, _ = cop.open_book(1, KEYS)
    for temperature in range(-128, 128):
        for cell in range(16):
            strange = replace(book, cells=cells_with(0, temperature, cell))
            assert cop.book_in_range(strange) == (-40 <= temperature <= 85)


def conflict_cases():
    for value, others, own, expected in (
        (7, entries((ADD, 3)), entries((TAKE, 5)), False),
        (7, entries((ADD, 3)), entries((TAKE, 5), (TAKE, 4)), True),
        (7, entries((TAKE, 2), (TAKE, 1)), entries((TAKE, 5)), True),
        (7, entries((TAKE, 2)), entries((TAKE, 5)), False),
        (7, entries((TAKE, 1)), entries((TAKE, 5)), False),
        (7, entries((ADD, 3), (TAKE, 4)), entries((TAKE, 5)), True),
        (7, entries((SET, 7)), entries((READ, 0)), False),
        (7, entries((SET, 9)), entries((READ, 0)), True),
        (7, entries((SET, 9), cell=1), entries((READ, 0)), False),
        (7, [], entries((TAKE, 5), (TAKE, 4), (READ, 0)), False),
        (250, entries((ADD, 6), (TAKE, 6)), entries((READ, 0)), True),
        (7, entries((TAKE, 2)), entries((TAKE, 8)), True),
        (7, entries((SET, 7)), entries((TAKE, 8)), False),
        (7, entries((TAKE, 8)), entries((TAKE, 8)), False),
        (7, entries((SET_WITH_TEMP, 7, 20)), entries((READ_TEMP, 0)), False),
        (7, entries((SET_WITH_TEMP, 9, 20)), entries((READ_TEMP, 0)), False),
        (7, entries((SET_WITH_TEMP, 7, -20)), entries((READ_TEMP, 0)), True),
        (7, entries((SET_WITH_TEMP, 7, -20), cell=1), entries((READ_TEMP, 0)), False),
        (7, entries((SET_WITH_TEMP, 7, -20), (SET_WITH_TEMP, 7, 20)), entries((READ_TEMP, 0)), True),
        (7, entries((SET, 9), (ADD, 1), (TAKE, 1), (READ, 0), (READ_TEMP, 0)), entries((READ_TEMP, 0)), False),
        (7, entries((SET_WITH_TEMP, 7, -20)), entries((READ, 0)), False),
        (7, entries((SET_WITH_TEMP, 9, 20)), entries((READ, 0)), True),
        (7, entries((SET_WITH_TEMP, 9, -20)), entries((SET_WITH_TEMP, 3, 85), (SET, 4)), False),
        (7, entries((SET_WITH_TEMP, 9, 5)), entries((SET_WITH_TEMP, 3, 5), (READ_TEMP, 0)), False),
        (7, entries((SET_WITH_TEMP, 9, 5)), entries((SET_WITH_TEMP, 9, 6), (READ_TEMP, 0)), True),
        (7, entries((READ_TEMP, 0)), entries((READ_TEMP, 0), (READ, 0)), False),
    ):
        for test in (cop.conflict_by_definition, cop.conflict):
            assert test(others, own, cells_with(value, 20)) == expected, (value, others, own)


def conflict_agrees():
    draws = Draws("conflict")
    yes = 0
    for case in range(1500):
        values = tuple(draws.one_of((0, 1, 3, 5, 250, 255)) for _ in range(16))
        cells = Cells(values, tuple(draws.one_of(TEMPERATURES) for _ in range(16)))
        used = range(1 + draws.below(3))
        others = [draws.entry(1, used, (0, 1, 2, 3, 5, 250, 255)) for _ in range(draws.below(6))]
        own = [draws.entry(1, used, (0, 1, 2, 3, 5, 250, 255)) for _ in range(1 + draws.below(4))]
        expected = cop.conflict_by_definition(others, own, cells)
        assert cop.conflict(others, own, cells) == expected, (others, own, cells)
        yes += expected
    assert 300 < yes < 1200, yes


LISTING = """\
1 1 placed 1
2 1 answer 1 1
3 1 confirm 1 1
4 2 confirm 1 1
5 2 placed 2
6 1 placed 3
7 1 answer 3 1
8 1 placed 4
9 1 aside 4"""


def trial_listing():
    data = b"I 1 4 0 7\nD 1\nD 1\nD 2\nI 2 1 0 3\nI 1 2 0 5\nD 1\nI 1 2 0 4\nD 1"
    assert "\n".join(run(lines_of(data))) == LISTING
    assert run(lines_of(data + b"\n")) == run(lines_of(data)) and lines_of(b"") == [] and lines_of(b"\n") == [b""]


def trial_words():
    assert run([b"I 1 7 0 0", b"I 9 1 0 0", b"D 1", b"D 0", b"I 1 1 0 256", b"X", b"", b"I 1 1 0  0", b"D 1 "]) == [
        "1 1 no 5",
        "2 0 bad",
        "3 1 empty",
        "4 0 bad",
        "5 0 bad",
        "6 0 bad",
        "7 0 bad",
        "8 0 bad",
        "9 0 bad",
    ]
    # Kind 5 sets the cell, and its temperature to 0; kind 6 answers that, and has amount 0.
    assert run([b"I 1 6 3 1", b"I 1 5 3 9", b"D 1", b"D 1", b"I 1 6 3 0", b"D 1", b"D 1", b"I 1 3 3 0", b"D 1"]) == [
        "1 1 no 5",
        "2 1 placed 1",
        "3 1 answer 1 1",
        "4 1 confirm 1 1",
        "5 1 placed 2",
        "6 1 answer 2 0",
        "7 1 confirm 2 1",
        "8 1 placed 3",
        "9 1 answer 3 9",
    ]
    # Van 2's `RE` is not delivered, so places fill up: the 33rd `IN` is refused and offered again.
    lines = [b"I 2 1 0 0"] + [b"I 1 1 1 0", b"D 1"] * 31 + [b"I 1 1 1 0", b"I 1 1 1 0", b"D 2", b"D 1", b"D 2"]
    printed = run(lines)
    assert printed[62].split() == ["63", "1", "answer", "32", "1"]
    assert printed[63:] == ["64 1 no 33", "65 1 no 4", "66 2 answer 1 1", "67 1 confirm 1 1", "68 2 confirm 1 1"]
    # Vans 2 to 8 take nothing: after 256 places passed on, an `I` gives `full` until each took one.
    lines = [b"I 1 1 0 0", b"D 1", b"D 1"] * 256 + [b"I 1 1 0 0"] + [b"D %d" % van for van in range(2, 9)] + [b"I 1 1 0 0"]
    printed = run(lines)
    assert printed[768:770] == ["769 1 full", "770 2 confirm 1 1"] and printed[-1] == "777 1 placed 257"


def halt_marks():
    """Question 8's "halt mark clear or a halt's number"."""
    book, _ = cop.open_book(1, KEYS)
    assert [n for n in range(256) if cop.book_in_range(replace(book, halt=n))] == [0, *range(20, 27)]


def uncommitted():
    """Van 1's `RE` of three, the last in hand: 26 exactly if one of the first two is its own and has no status held. Each author, each
    status, and up to three places held."""
    seen = set()
    hand = Entry(3, ADD, 0, 1)
    for authors in product((1, 2), repeat=2):
        items = [cop.Item(e, a, cop.in_tag(KEYS, e, a)) for e, a in [*zip((Entry(1, ADD, 1, 1), Entry(2, ADD, 2, 1)), authors), (hand, 1)]]
        chain = [cop.ZERO]
        for place, item in enumerate(items, 1):
            chain.append(cop.chain_value(chain[-1], item.entry, place, item.author))
        for held in range(4):
            for statuses in product((None, DONE, ASIDE), repeat=held):
                book = replace(cop.open_book(1, KEYS)[0], hand=hand, chain=tuple(chain[: held + 1]), statuses=statuses)
                _, outcome, _ = cop.take(book, cop.re_message(items), bytes(80))
                stray = any(author == 1 and (held <= k or statuses[k] is None) for k, author in enumerate(authors))
                assert outcome == (("halt", 26) if stray else ("answer", 3, 1)), (authors, statuses, outcome)
                seen.add(outcome)
    assert len(seen) == 2


def relay_numbers():
    """Each of the relay's refusals once, and that out bytes and state stay."""
    book, _ = cop.open_book(1, KEYS)
    book, _, made = cop.make(book, ADD, 0, 1, 0, bytes(43))
    fresh = cop.Relay()
    out = b"\xaa" * 200

    def refused(relay, line, message, out, n):
        assert cop.relay_take(relay, line, message, out) == (relay, ("no", n), out), n

    refused(cop.Relay(b=1), 1, made, out, 8)
    for bad in (b"", b"IN", made[:-1], made + b"\0", b"RE\0", made[:5] + b"\0" + made[6:]):
        refused(fresh, 1, bad, out, 30)
    refused(fresh, 2, made, out, 31)
    refused(cop.Relay(last=(1,) + (0,) * 7), 1, made, out, 32)
    refused(fresh, 1, made, out[:43], 7)
    filler = cop.Item(Entry(1, ADD, 0, 0), 2, bytes(32))
    refused(cop.Relay(t=32, items=(filler,) * 32, commits=(None,) * 32), 1, made, out, 33)
    refused(cop.Relay(t=cop.LIMIT, b=cop.LIMIT), 1, made, out, 34)
    relay, outcome, after = cop.relay_take(fresh, 1, made, out)
    assert outcome == ("placed", 1) and after == b"RE\1" + made[2:] + out[44:]
    book, outcome, commit = cop.take(book, after[:44], bytes(80))
    assert outcome == ("answer", 1, 1)
    refused(relay, 1, commit[:14] + b"\2" + commit[15:], out, 35)
    refused(relay, 1, commit[:14] + b"\0" + commit[15:], out, 35)
    refused(relay, 1, commit[:8] + b"\7" + commit[9:], out, 35)
    refused(relay, 1, commit[:47] + b"\2" + commit[48:], out, 30)
    refused(relay, 3, commit, out, 31)
    refused(relay, 1, commit, out[:79], 7)
    two = cop.Relay(t=2, items=(filler,) + relay.items, commits=(None, commit), last=(1, 1) + (0,) * 6)
    again = cop.co_message(KEYS, Entry(1, ADD, 0, 1), 1, 2, bytes(32), 1)
    refused(two, 1, again, out, 36)
    relay, outcome, after = cop.relay_take(relay, 1, commit, out)
    assert outcome == ("passed", 1) and after == b"BR" + commit[2:] + out[80:] and relay.b == 1 and not relay.items


def whole_runs():
    """With this relay no van halts, vans confirm one history, and each author got what it says."""
    negative = 0
    for seed in range(6):
        draws = Draws("run %d" % seed)
        trial = Trial()
        confirmed = {van: [] for van in VANS}
        got = {}
        words = set()
        for step in range(1200):
            van = 1 + draws.below(3 if seed < 3 else 8)
            if draws.below(2):
                trial.offer_again()
                if not trial.full():
                    e = draws.entry(1, range(2 + seed), (0, 1, 2, 3, 5, 200))
                    words.add(trial.make(van, *e[1:])[0])
                continue
            head = trial.to_van[van][0] if trial.to_van[van] else b""
            outcome = trial.deliver(van)
            words.add(outcome[0])
            assert outcome[0] in ("empty", "answer", "aside", "confirm"), outcome
            if outcome[0] == "confirm":
                m = cop.commit_of(head)
                confirmed[van].append((m.entry, m.author, m.place, m.status, trial.books[van].cells))
            elif outcome[0] != "empty":
                item = cop.item_of(head[-41:])
                assert (item.entry, item.author) not in got
                got[item.entry, item.author] = outcome
                negative += outcome[0] == "answer" and outcome[2] < 0
        longest = max(confirmed.values(), key=len)
        assert len(longest) > 50 and {"empty", "answer", "aside", "confirm", "placed"} <= words, words
        for history in confirmed.values():
            assert history == longest[: len(history)]
        cells = Cells()
        for at, (entry, author, place, status, after) in enumerate(longest, 1):
            expected = ("aside", at)
            if status == cop.DONE:
                answer, cells = cop.run(entry, cells)
                expected = ("answer", at, answer)
            assert place == at and cells == after and got[entry, author] == expected
    assert negative > 10, negative


def log_cases():
    """Logs, and what is printed for each of their lines."""
    for log, printed in (
        (b"", []),
        (b"\n", ["no 40"]),
        (b"cell,flow,temp", ["header"]),
        (b"cell,flow,temp\r\n", ["header"]),
        (b"cell,flow,temp\r", ["no 40"]),
        (b"cell,flow,temp\r\r\n1,2,3\n", ["no 40", "no 40"]),
        (b"temp,x,cell,flow\n-40,,15,255\n85,,0,0", ["header", "5 15 255 -40", "5 0 0 85"]),
        (b"cell,flow,temp\n1,2,3\r\n1,2,3\r", ["header", "5 1 2 3", "no 42"]),
        (b"cell,flow,temp\n001,002,-003\n1,2,-0\n0001,2,3\n1,-2,3\n", ["header", "5 1 2 -3", "5 1 2 0", "no 42", "no 42"]),
        (b"cell,flow,temp\n16,2,3\n1,256,3\n1,2,86\n1,2,-41\n1,2,\n", ["header"] + ["no 42"] * 5),
        (b'cell,flow,temp\n"1",2,3\n1,2\n1,2,3,\n\n', ["header", "no 42", "no 41", "no 41", "no 41"]),
        (b'cell,flow,temp,n\n1,2,3,"a,""b"\n1,2,3,a"\n1,2,3,"a"b\n', ["header", "5 1 2 3", "no 41", "no 41"]),
        (b'cell,flow,temp,n\n1,2,3,"a\nb"\n1,2,3,"a\n1,2,3,4\n"\n', ["header", "no 41", "no 41", "no 41", "5 1 2 3", "no 41"]),
        (b'cell,flow,temp,"cell"\n1,2,3,4\n', ["header", "5 1 2 3"]),
        (b"cell,flow,temp,cell\n1,2,3,4\n", ["no 40", "no 40"]),
        (b'cell,flow,"temp"\n1,2,3\n', ["no 40", "no 40"]),
        (b"cell,flow, temp\n1,2,3\n", ["no 40", "no 40"]),
        (b'cell,flow,temp,"\n"\n', ["no 40", "no 40"]),
        (b"cell,flow,temp,n\n1,2,3," + b"x" * 65529 + b"\n1,2,3," + b"x" * 65530 + b"\n1,2,3,", ["header", "5 1 2 3", "long", "5 1 2 3"]),
        (b"cell,flow,temp,n\n1,2,3," + b"x" * 65528 + b"\r\n1,2,3," + b"x" * 65529 + b"\r\n", ["header", "5 1 2 3", "long"]),
        (b"cell,flow,temp,n\n1,2,3," + b"x" * 65530, ["header", "long"]),
        (b"cell,flow,temp," + b"x" * 65521 + b"\n1,2,3,\n", ["long", "long"]),
    ):
        assert meter_log.run(log) == printed, (log[:60], meter_log.run(log))


def log_quotes():
    """On every line of up to seven bytes of these: one expression for the whole line, against counting quotes."""
    one = meter_log.FIELD.pattern
    whole = re.compile(b"(?:%s)(?:,(?:%s))*" % (one, one))
    lines = [bytes(text) for size in range(8) for text in product(b'",a\r', repeat=size)]
    sound = [line for line in lines if whole.fullmatch(line)]
    assert sound == [line for line in lines if meter_log.fields_of(line) is not None] and len(sound) == 5436, len(sound)
    for line in sound:
        assert b",".join(meter_log.fields_of(line)) == line
    assert all(meter_log.FIELD.fullmatch(field) for field in log_draws.OTHER_NAMES + log_draws.OTHER_VALUES)


def by_csv(log):
    """What log_csv.py prints for the records up to one that csv refuses."""
    printed = []
    try:
        printed.extend(log_csv.printed(io.StringIO(log.decode("latin-1"), newline="")))
    except csv.Error:
        printed.append("refused")
    return printed


def log_as_csv():
    """Where csv reads a log as Q-5 does, and each way in which it does not (tests/README.md)."""
    head = b"cell,flow,temp,n\n"
    for log in (b"", b"\n", head + b'1,2,3,"a,""b"""\r\n1,2,3,\n\n""\n1,2,-0,\xff\n 1,2,3,4\n1,2,3', head + b'1,2,3,"\r"\n', b"a,b\n1,2\n\n"):
        assert by_csv(log) == meter_log.run(log), log
    for log, expected in (
        (head + b'1,2,3,"a\n1,2,3,b"\n', ["header", "5 1 2 3"]),  # a line feed in quotes: one record
        (head + b'1,2,3,"a\n1,2,3,4\n1,2,3,"\n1,2,3,5\n', ["header", "5 1 2 3", "5 1 2 3"]),
        (head + b'1,2,3,"a\n1,2,3,4\n', ["header", "refused"]),  # an open quote takes in all that follows
        (head + b'"1","2","-3",4\n', ["header", "5 1 2 -3"]),  # quotes are gone
        (b'"cell",flow,temp\n1,2,3\n', ["header", "5 1 2 3"]),
        (b'cell,flow,temp,"cell"\n1,2,3,4\n', ["no 40", "no 40"]),
        (head + b'1,2,3,a"b\n1,2,3, "a"\n1,2,3,a"\n', ["header"] + ["5 1 2 3"] * 3),  # a quote in a field that does not begin with one
        (head + b'1,2,3,"a"b\n', ["header", "refused"]),  # a byte after the closing quote
        (head + b"1,2,3,a\r1,2,3,b\n", ["header", "5 1 2 3", "5 1 2 3"]),  # a carriage return ends a record, if not in quotes
        (head + b"1,2,3,a\r\r\n", ["header", "5 1 2 3", "no 41"]),
        (b"cell,flow,temp\n1,2,3\r", ["header", "5 1 2 3"]),
        (b"cell,flow,temp\r", ["header"]),
        (head + b"1,2,3," + b"x" * 65530 + b"\n", ["header", "5 1 2 3"]),  # its limit is one of fields, of 131,072 characters
        (head + b"1,2,3," + b"x" * 131073 + b"\n", ["header", "refused"]),
    ):
        assert by_csv(log) == expected != meter_log.run(log), (log[:60], by_csv(log))
    assert list(csv.reader(['"a"b,"c" ,"d\n'])) == [["ab", "c ", "d\n"]]  # without strict=True
    rows = ["a,b\n", "\n", "1,2\n"]
    assert list(csv.reader(rows)) == [["a", "b"], [], ["1", "2"]] and list(csv.DictReader(rows)) == [{"a": "1", "b": "2"}]
    for line in ('"a"b\n', "a\rb\n"):  # the second: in lines that are cut at line feeds only
        reader = csv.reader([line, "c\n"], strict=True)
        try:
            raise AssertionError(next(reader))
        except csv.Error:
            assert next(reader) == ["c"]  # goes on after an error
    assert [int(text) for text in (" 7", "+7", "0_7", "\u0667", "7\r")] == [7] * 5


def log_added_column():
    """ "A column added at one position in all lines … must leave the entries the same." """
    entries = 0
    for case in range(300):
        draws = Draws("added %d" % case)
        log = log_draws.log(draws, 20, case % 4 == 0)
        printed = meter_log.run(log)
        more = log_draws.added(draws, meter_log.lines_of(log))
        assert meter_log.run(more) == printed and more != log, (log, more)
        entries += sum(line.startswith("5") for line in printed)
    assert entries > 1500, entries


CHECKS = (
    table_cases,
    table_ranges,
    conflict_cases,
    conflict_agrees,
    trial_listing,
    trial_words,
    halt_marks,
    uncommitted,
    relay_numbers,
    whole_runs,
    log_cases,
    log_quotes,
    log_as_csv,
    log_added_column,
)

if __name__ == "__main__":
    for check in CHECKS:
        check()
        print("ok", check.__name__)
