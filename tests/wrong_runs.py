"""Why each edit of crates/progress/must-fail makes `NoHalt` false: a list of actions that halts a client in the run so
edited, and halts none in the run as document 01 has it.

  tests/wrong_runs.py          runs each list both ways, by cop.py
"""

import sys
from pathlib import Path

import cop

KEYS = bytes(range(256))
VANS = range(1, 9)
ROOM = bytes(2048)  # out bytes lent: enough for any call


class World:
    """Books, the relay and a line each way per van (crates/progress/specs/HonestRuns.antt), with one thing changed."""

    def __init__(self, edit=None):
        self.edit = edit
        self.relay = cop.Relay()
        self.books = {v: cop.open_book(v, KEYS[v:] + KEYS[:v] if edit == "keys_apart" else KEYS)[0] for v in VANS}
        self.up = {v: [] for v in VANS}
        self.down = {v: [] for v in VANS}

    def put_one(self, lines, van, message):
        messages = [message] * (2 if self.edit == "written_twice" else 1)
        lines[van] = messages + lines[van] if self.edit == "reply_in_front" else lines[van] + messages

    def put_all(self, messages):
        for v in VANS:
            if self.edit == "broadcast_in_front":
                self.down[v] = messages + self.down[v]
            elif self.edit != "broadcast_to_one" or v == 1:
                self.down[v] = self.down[v] + messages

    def make(self, van):
        """The van sets cell 0 to its number."""
        self.books[van], outcome, out = cop.make(self.books[van], 4, 0, van, 0, ROOM)
        if outcome[0] == "made":
            self.put_one(self.up, van, out[:43])
        return outcome

    def serve(self, van):
        if not self.up[van]:
            return ("empty",)
        relay, outcome, out = cop.relay_take(self.relay, van, self.up[van][0], ROOM)
        if outcome[0] == "placed":
            to = van % 8 + 1 if self.edit == "reply_astray" else van
            self.put_one(self.down, to, out[: 3 + 41 * len(relay.items)])
        elif outcome[0] == "passed":
            pieces = [out[80 * k : 80 * k + 80] for k in range(outcome[1])]
            self.put_all(pieces[::-1] if self.edit == "broadcasts_turned" else pieces)
        else:
            return outcome
        self.up[van] = self.up[van][1:]
        if not (outcome[0] == "passed" and self.edit == "commit_forgotten"):
            self.relay = relay
        return outcome

    def deliver(self, van):
        if not self.down[van]:
            return ("empty",)
        book, outcome, out = cop.take(self.books[van], self.down[van][0], ROOM)
        if self.edit != "wound_back":
            self.books[van] = book
        if outcome[0] in ("answer", "aside"):
            self.put_one(self.up, van, out[:80])
        if outcome[0] in ("answer", "aside") or (outcome[0] == "confirm" and self.edit != "confirmed_stays"):
            self.down[van] = self.down[van][1:]
        return outcome

    def run(self, actions):
        """What the actions tell, in order: m van makes an entry, s the relay takes its head, d it takes its own."""
        do = {"m": self.make, "s": self.serve, "d": self.deliver}
        return [do[a[0]](int(a[1])) for a in actions.split()]


def whole(v):
    """An entry of van v made, placed, answered and passed on."""
    return f"m{v} s{v} d{v} s{v} "


RUNS = {
    # places 1 and 2 are passed on before van 3 takes anything: BR 2 then stands before BR 1
    "broadcast_in_front": (whole(1) + "d1 " + "m1 s1 d1 s1 " + "d3", 25),
    # van 2 gets no BR: its second RE begins at place 2, which it takes for place 1 and holds otherwise
    "broadcast_to_one": (whole(2) + "m2 s2 d2", 23),
    # places 1 and 2 are passed on by one call, 2 first
    "broadcasts_turned": ("m1 m2 s1 s2 d2 s2 d1 s1 d3", 25),
    # BR 1 taken twice
    "confirmed_stays": (whole(1) + "d3 d3", 25),
    # the relay forgets that place 1 is passed on: the next RE lists it again, at place 2
    "commit_forgotten": (whole(1) + "d1 m1 s1 d1", 26),
    # van 2 has another key for van 1
    "keys_apart": (whole(1) + "d2", 22),
    # the RE for van 1 reaches van 2
    "reply_astray": ("m1 s1 d2", 24),
    # van 2 takes its RE of place 2 before BR 1: it holds its own entry's chain value at place 1
    "reply_in_front": (whole(1) + "m2 s2 d2 d2", 23),
    # van 3 forgets that it confirmed place 1
    "wound_back": ("m1 m2 s1 s2 d1 d2 s1 s2 d3 d3", 25),
    # an RE taken twice: the second time no entry is in hand
    "written_twice": ("m1 s1 d1 d1", 24),
}


def main():
    edits = {f.stem for f in (Path(__file__).parent.parent / "crates/progress/must-fail").glob("*.edit")}
    bad = [f"{name}: no list here" for name in edits - RUNS.keys()]
    bad += [f"{name}: no such edit" for name in RUNS.keys() - edits]
    for name, (actions, number) in RUNS.items():
        wrong, right = World(name).run(actions), World().run(actions)
        if wrong[-1] != ("halt", number):
            bad.append(f"{name}: {wrong}")
        if any(outcome[0] == "halt" for outcome in right):
            bad.append(f"{name}, unedited: {right}")
    for line in bad:
        print(line)
    print(f"{len(RUNS)} edits, {len(bad)} wrong")
    sys.exit(1 if bad else 0)


if __name__ == "__main__":
    main()
