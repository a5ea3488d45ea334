"""Drawn runs of eight vans, each call through linked.Library, and demand 3's claims on a run (document 01, "Whole
runs"). Here with a relay that follows the rules; hostile_runs.py has those with one that does not."""

from collections import deque

import cop
from cop import DONE
from draws import TEMPERATURES, Draws

VANS = range(1, 9)


class Drawn(Draws):
    def chance(self, n):
        """True once in n."""
        return self.below(n) == 0

    def bytes(self, n):
        made = b""
        while len(made) < n:
            self.below(1)
            made += self.state
        return made[:n]

    def shuffled(self, things):
        things = list(things)
        for i in range(len(things) - 1, 0, -1):
            j = self.below(i + 1)
            things[i], things[j] = things[j], things[i]
        return things


def claim(holds, what):
    if not holds:
        raise AssertionError("claim broken: " + what)


class Run:
    """Eight books opened with the same keys, and what demand 3 speaks of."""

    def __init__(self, library, draws):
        self.library, self.draws = library, draws
        self.keys = draws.bytes(256)
        self.vans = {v: library.open(v, self.keys)[0] for v in VANS}
        self.tagged = set()  # (author, string): tagged by a successful call of the author's van
        self.confirmed = {v: [] for v in VANS}  # ((entry, author, place, status), cells after)
        self.got = {}  # (author, count): what the author was given, in order
        self.forged = False  # a right tag over a string not tagged before: document 01 lets the run off
        self.let_off = False  # such a tag of a commit: since number 26 no other is needed for demand 3
        self.halts = 0
        self.cells = draws.one_of(((0,), (3,), (0, 15), (1, 2, 3, 4), tuple(range(16))))
        self.amounts = draws.one_of(((0, 1, 2), (0, 1, 5, 40), (100, 128, 255), tuple(range(256))))
        self.temperatures = draws.one_of(((0,), (-1, 0), TEMPERATURES, tuple(range(-40, 86))))

    # Calls

    def room(self, enough):
        """Out bytes to lend: mostly enough, at times too few."""
        d = self.draws
        if d.chance(14):
            return d.below(enough)
        return enough + d.one_of((0, 0, 1, 7, 100))

    def entry(self, count=1):
        return self.draws.entry(count, self.cells, self.amounts, self.temperatures)

    def make(self, v):
        """Van v makes a drawn entry, at times one that is not allowed."""
        d = self.draws
        if d.chance(40):
            made = tuple(d.bytes(4))
        elif d.chance(20):
            made = d.spoiled(self.entry())[1:]
        else:
            made = self.entry()[1:]
        outcome, out = self.library.invoke(self.vans[v], *made, self.room(43))
        if outcome[0] != "made":
            return None
        self.tagged.add((v, out[:11]))
        return out[:43]

    def take(self, v, message):
        """Van v takes a message: the outcome, and the `CO` if one was written."""
        room = self.room(80) if message[:2] == b"RE" else self.draws.below(90)
        outcome, out = self.library.receive(self.vans[v], message, room)
        if outcome[0] == "halt":
            self.halts += 1
        if outcome[0] in ("answer", "aside"):
            for k in range(message[2]):
                item = cop.item_of(message[3 + 41 * k : 44 + 41 * k])
                self.check_tagged(item.author, cop.in_string(item.entry, item.author))
            self.tagged.add((v, out[:48]))
            self.got.setdefault((v, item.entry.count), []).append((item.entry, outcome))
            return outcome, out[:80]
        if outcome[0] == "confirm":
            m = cop.commit_of(message)
            self.check_tagged(m.author, b"CO" + message[2:48])
            self.confirmed[v].append(((m.entry, m.author, m.place, m.status), self.vans[v].model.cells))
            if not self.let_off:
                claim((m.author, m.entry.count) in self.got, "confirmed before its author got anything")
        return outcome, None

    def check_tagged(self, author, string):
        if (author, string) not in self.tagged:
            self.forged = True
            self.let_off |= string[:2] == b"CO"

    # Claims

    def check_claims(self):
        """Demand 3, for a run that is not let off."""
        where = {}
        for v in VANS:
            where[v] = {}
            for i, ((entry, author, place, status), _) in enumerate(self.confirmed[v]):
                claim(place == i + 1, "places in order")
                claim((author, entry.count) not in where[v], "an entry is confirmed once")
                where[v][author, entry.count] = i
            self.check_running(v)
        common = 0
        for u in VANS:
            for v in range(u + 1, 9):
                shared = where[u].keys() & where[v].keys()
                common += len(shared)
                if shared:
                    claim(all(where[u][key] == where[v][key] for key in shared), "a common entry at the same place")
                    end = 1 + max(where[u][key] for key in shared)
                    claim(self.confirmed[u][:end] == self.confirmed[v][:end], "the same past and cells")
        return common

    def check_running(self, v):
        """The cells, with their temperatures, are what running gives, and each author got what is due, and nothing else."""
        cells = cop.Cells()
        for (entry, author, place, status), after in self.confirmed[v]:
            due = ("aside", place)
            if status == DONE:
                answer, cells = cop.run(entry, cells)
                due = ("answer", place, answer)
            claim(after == cells, "the cells are what running gives")
            claim(self.got[author, entry.count] == [(entry, due)], "the author got what is due")


def honest(library, draws):
    """A relay that follows the rules. No call halts."""
    run, d = Run(library, draws), draws
    steps = 300 + d.below(1500)
    relay = library.fresh()
    up, down = {v: deque() for v in VANS}, {v: deque() for v in VANS}
    stalled = d.one_of(VANS) if d.chance(2) else 0  # this van's line to the relay waits for its last third
    active = d.shuffled(VANS)[: 1 + d.below(8)]
    if stalled and stalled not in active:
        active.append(stalled)
    slow = d.below(4)
    for step in range(steps):
        v = d.one_of(active)
        what = d.below(4)
        if what == 0:
            if run.vans[v].model.hand and d.below(8):
                continue
            message = run.make(v)
            if message:
                up[v].append(message)
        elif what == 1:
            if not up[v] or (v == stalled and step < 2 * steps // 3 and run.vans[v].model.count > 1):
                continue
            head = up[v][0]
            if head[:2] == b"IN":
                waiting = relay.model.t - relay.model.b
                enough = 3 + 41 * (waiting + 1)
            else:
                enough = d.one_of((80, 2560, 2560, 2560))
            outcome, out = library.serve(relay, v, head, run.room(enough))
            pass_on(outcome, out, v, up, down, VANS)
        else:
            u = v if d.below(4) >= slow else d.one_of(VANS)
            if down[u]:
                outcome, commit = run.take(u, down[u][0])
                if outcome[0] != "no":
                    down[u].popleft()
                if commit:
                    up[u].append(commit)
    claim(run.halts == 0 and not run.forged, "no call halts, nothing is let off, with a relay that follows the rules")
    return run


def pass_on(outcome, out, v, up, down, members):
    """A success of the relay's takes away the head and puts what it wrote at line ends."""
    if outcome[0] == "placed":
        up[v].popleft()
        down[v].append(out[: 3 + 41 * out[2]])
    elif outcome[0] == "passed":
        up[v].popleft()
        for k in range(outcome[1]):
            for u in members:
                down[u].append(out[80 * k : 80 * k + 80])
