"""The linked library against cop.py, on drawn calls: `tests/differential.sh [CALLS] [SEED]` links the library and runs
this. Every outcome, every field of the state and every byte of the out buffer is compared.

It prints how often each outcome was seen, by call and kind of run, and fails at the first difference, at a broken claim
of demand 3, or where one of the numbers was not seen. Equal CALLS and SEED give equal calls everywhere.
"""

import pathlib
import sys
import time
from concurrent.futures import ProcessPoolExecutor
from concurrent.futures.process import BrokenProcessPool

import cop
from drawn_runs import Drawn, honest
from drawn_states import states
from hostile_runs import hostile, with_keys
from linked import Library

PATH = str(pathlib.Path(__file__).resolve().parent.parent / "target" / "tests" / "libcop.so")
RUNS = {"honest": honest, "hostile": hostile, "with keys": with_keys, "states": states}
KINDS = tuple(RUNS)
ORDER = (0, 1, 3, 2, 1, 3, 0, 1)  # kinds of run, over and over
NUMBERS = (*range(1, 10), *cop.HALTS, *range(30, 37))
SUCCESSES = ("opened", "made", "answer", "failed", "negative", "aside", "confirm", "fresh", "placed", "passed", "digest", "tag")


def one_run(task):
    """A run: its kind, the calls, the outcomes seen, and what the claims were checked on."""
    seed, i = task
    library = Library(PATH)
    kind = KINDS[ORDER[i % len(ORDER)]]
    draws = Drawn(f"{seed} {i}")
    facts = {"runs": 1}
    try:
        run = RUNS[kind](library, draws)
        if run:
            facts["halts"] = run.halts
            if run.let_off:
                facts["let off"] = 1
            else:
                facts["with an IN tag forged"] = int(run.forged)
                facts["claims checked"] = 1
                facts["entries common to two vans"] = run.check_claims()
                facts["forked"] = forked(run)
    except Exception as wrong:
        where = f"run {i} of seed {seed!r} ({kind}), call {library.calls + 1}"
        return kind, library.calls, library.seen, facts, f"{where}: {wrong!r}"
    return kind, library.calls, library.seen, facts, None


def forked(run):
    """Whether two vans confirmed different entries at one place."""
    lists = [c for c in run.confirmed.values() if c]
    return any(a[0] != b[0] for c in lists for e in lists for a, b in zip(c, e))


def main():
    calls_wanted = int(sys.argv[1]) if len(sys.argv) > 1 else 1_000_000
    seed = sys.argv[2] if len(sys.argv) > 2 else "1"
    started = time.time()
    calls, seen, facts = 0, {}, {kind: {} for kind in KINDS}
    with ProcessPoolExecutor() as pool:
        i = 0
        while calls < calls_wanted:
            for kind, n, outcomes, found, wrong in pool.map(one_run, [(seed, i + k) for k in range(64)], chunksize=4):
                if wrong:
                    print(wrong)
                    return 1
                calls += n
                for what, times in outcomes.items():
                    row = seen.setdefault(what, dict.fromkeys(KINDS, 0))
                    row[kind] += times
                facts[kind]["calls"] = facts[kind].get("calls", 0) + n
                for name, value in found.items():
                    facts[kind][name] = facts[kind].get(name, 0) + value
            i += 64
    report(calls, seen, facts, time.time() - started)
    numbers = {number for _, word, number in seen if word in ("no", "halt")}
    words = {word for _, word, _ in seen}
    missing = [str(n) for n in NUMBERS if n not in numbers] + [word for word in SUCCESSES if word not in words]
    if calls_wanted >= 20_000 and missing:
        print("not seen: " + ", ".join(missing))
        return 1
    print("differential: ok")
    return 0


def report(calls, seen, facts, seconds):
    print(f"{calls} calls in {seconds:.0f} s, each the same from the library and from cop.py")
    for kind in KINDS:
        found = ", ".join(f"{value} {name}" for name, value in facts[kind].items())
        print(f"  {kind}: {found}")
    print(f"{'call':8} {'outcome':10} " + " ".join(f"{kind:>10}" for kind in (*KINDS, "in all")))
    for (call, word, number), row in sorted(seen.items(), key=lambda x: (x[0][0], x[0][2], x[0][1])):
        name = f"{word} {number}" if number else word
        print(f"{call:8} {name:10} " + " ".join(f"{n:>10}" for n in (*row.values(), sum(row.values()))))


if __name__ == "__main__":
    try:
        sys.exit(main())
    except BrokenProcessPool:
        sys.exit("a call ended its process: it read or wrote where it may not")
