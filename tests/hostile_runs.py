"""Drawn runs of eight vans with a hostile relay: it tells groups of vans different things, drops, repeats, reorders and
damages messages, and in some runs has the keys."""

from collections import deque

import cop
from drawn_runs import VANS, Run, claim, pass_on


class Hostile:
    """A relay that follows no rules. It keeps a state for each group of vans that it tells the same things to."""

    def __init__(self, library, draws, has_keys):
        self.run = Run(library, draws)
        self.library, self.d, self.has_keys = library, draws, has_keys
        self.groups = [library.fresh()]
        self.group = {v: 0 for v in VANS}
        self.up, self.down = {v: deque() for v in VANS}, {v: deque() for v in VANS}
        self.ins, self.cos, self.sent = [], [], []  # what the vans wrote; what it has sent
        self.harm = draws.one_of((4000, 1000, 200, 60, 12))  # once in so many steps
        self.relists = draws.one_of((1000, 60, 10))  # once in so many `RE`s
        self.splits = 1 + draws.below(4)

    def steps(self, n):
        d = self.d
        split_at = {d.below(n) for _ in range(self.splits)} if d.below(4) else set()
        for step in range(n):
            if step in split_at:
                self.split()
            v = 1 + d.below(8)
            book = self.run.vans[v].model
            if book.halt and d.below(8):
                continue
            what = d.below(9)
            if what <= 1:
                if book.hand and d.below(8):
                    continue
                message = self.run.make(v)
                if message:
                    self.up[v].append(message)
                    self.ins.append(message)
            elif what <= 4:
                self.serve(v)
            elif what == 8 and len(self.groups) > 1 and d.chance(30):
                self.put(d.below(len(self.groups)), d.one_of(self.ins[-6:] + self.cos[-6:] or [b"IN"]))
            else:
                self.deliver(v)
        return self.run

    def split(self):
        """The group of a drawn van is told different things from here on."""
        g = self.group[1 + self.d.below(8)]
        if len(self.groups) < 4:
            self.groups.append(self.groups[g].copy())
            for v in VANS:
                if self.group[v] == g and self.d.chance(2):
                    self.group[v] = len(self.groups) - 1

    def members(self, g):
        return [v for v in VANS if self.group[v] == g]

    def serve(self, v):
        d, g = self.d, self.group[v]
        if d.chance(self.harm):
            message = self.damaged(d.one_of(self.ins + self.cos or [b"IN"]), v)
            self.library.serve(self.groups[g], d.one_of((v, v, d.below(256))), message, self.run.room(2560))
        elif self.up[v]:
            head = self.up[v][0]
            outcome, out = self.library.serve(self.groups[g], v, head, self.run.room(2560))
            pass_on(outcome, out, v, self.up, self.down, self.members(g))
            if outcome[0] == "passed":
                for other in range(len(self.groups)):
                    if other != g:
                        self.put(other, head)
            if outcome[0] == "no" and outcome[1] in (32, 35, 36):
                self.up[v].popleft()

    def put(self, g, message):
        """What a van of one group wrote is put before another."""
        author = message[10] if len(message) > 10 else 0
        outcome, out = self.library.serve(self.groups[g], author, message, 2560)
        if outcome[0] == "passed":
            pass_on(outcome, out, author, {author: deque([message])}, self.down, self.members(g))

    def deliver(self, v):
        d = self.d
        if d.chance(self.harm):
            message = self.damaged(d.one_of(list(self.down[v])[:1] * 3 + self.sent[-20:] or [b"BR"]), v)
        elif self.has_keys and d.chance(20):
            message = self.forged(v)
        elif self.down[v]:
            message = self.down[v][0]
            if cop.is_re(message) and d.chance(self.relists):
                message = self.relisted(message, v)
        else:
            return
        outcome, commit = self.run.take(v, message)
        if outcome[0] != "no" and self.down[v] and (message == self.down[v][0] or d.chance(3)):
            self.down[v].popleft()
        if outcome == ("no", 3) and self.down[v]:
            self.down[v].popleft()
        self.sent.append(message)
        if commit:
            self.up[v].append(commit)
            self.cos.append(commit)

    def damaged(self, m, v):
        """A message made from what was seen, by a drawn kind of damage."""
        d = self.d
        what = d.below(10)
        if what <= 2 and m:  # a byte changed, one of the front ones as often as not
            at = d.below(len(m) if d.chance(2) else min(len(m), 16))
            return m[:at] + bytes([m[at] ^ (1 << d.below(8)) if d.chance(2) else d.below(256)]) + m[at + 1 :]
        if what == 3:  # another length
            return d.one_of((m[: d.below(len(m) + 1)], m + d.bytes(1 + d.below(50)), b"", m + m))
        if what == 4:  # an earlier message again
            return d.one_of(self.sent or [m])
        if what == 5 and self.cos:  # a commit as `BR`, too early, too late or of another group
            return cop.br_message(d.one_of(self.cos))
        if what <= 7 and self.ins:  # a `RE` of seen items
            return self.rebuilt(m, v)
        if what == 8:  # right length and mark, the rest drawn
            n = d.below(34)
            re = b"RE" + bytes([n]) + d.bytes(41 * n)
            return d.one_of((re, b"BR" + d.bytes(78), b"CO" + d.bytes(78), d.bytes(d.below(200))))
        if len(m) == 80:  # status or place changed
            at = d.one_of((11, 12, 13, 14, 47))
            return m[:at] + bytes([m[at] ^ 1]) + m[at + 1 :]
        return m

    def rebuilt(self, m, v):
        """The items of a `RE` left out, doubled, reordered or joined by others, the entry in hand mostly last."""
        d = self.d
        items = items_in(m) if cop.is_re(m) else []
        if items and d.chance(2):
            items = items[:-1] if d.chance(2) else d.shuffled(items)
        else:
            items = [item for item in items if not d.chance(4)] + [d.one_of(self.ins)[2:] for _ in range(d.below(3))]
        own = self.own_items(v)
        if own and d.below(4):
            items = [item for item in items if item != own[-1]] + [own[-1]]
        return re_of(items[:33])

    def own_items(self, v):
        return [i[2:] for i in self.ins if i[10] == v]

    def relisted(self, m, v):
        """A `RE` with one or two entries of the van's own listed once more before its last item; with the keys, also ones never made."""
        d, items = self.d, items_in(m)
        for _ in range(1 + d.below(2)):
            again = self.forged_item(v).bytes() if self.has_keys and d.chance(2) else d.one_of(self.own_items(v))
            items.insert(d.below(len(items)), again)
        return re_of(items[:32])

    def forged_entry(self):
        """Mostly one that is allowed."""
        entry = self.run.entry(1 + self.d.below(9))
        return self.d.spoiled(entry) if self.d.chance(10) else entry

    def forged_item(self, author):
        entry = self.forged_entry()
        return cop.Item(entry, author, cop.in_tag(self.run.keys, entry, author))

    def forged(self, v):
        """With the keys: a `BR` or a `RE` with right tags over what no van wrote."""
        d, book, keys = self.d, self.run.vans[v].model, self.run.keys
        if d.chance(2):
            entry, author = self.forged_entry(), 1 + d.below(8)
            place = book.c + 1
            value = book.chain[1] if book.held() else cop.chain_value(book.chain[0], entry, place, author)
            if d.chance(10):
                value = d.bytes(32)
            return cop.br_message(cop.co_message(keys, entry, author, place, value, d.below(2)))
        items = [self.forged_item(1 + d.below(8)) for _ in range(d.below(4))]
        if book.hand:
            items.append(cop.Item(book.hand, v, cop.in_tag(keys, book.hand, v)))
        return cop.re_message(items)


def items_in(m):
    """The items of a `RE`, as bytes."""
    return [m[3 + 41 * k : 44 + 41 * k] for k in range(m[2])]


def re_of(items):
    return b"RE" + bytes([len(items)]) + b"".join(items)


def hostile(library, draws):
    run = Hostile(library, draws, has_keys=False).steps(300 + draws.below(1500))
    claim(not run.forged, "without a key no tag is right over what its van did not tag")
    return run


def with_keys(library, draws):
    return Hostile(library, draws, has_keys=True).steps(300 + draws.below(1500))
