"""Lines for the trial program: `python3 bench/trial_lines.py plain|flood COUNT`. The same on every machine."""

import pathlib
import sys

sys.path.insert(0, str(pathlib.Path(__file__).parents[1] / "tests"))
from draws import Draws  # noqa: E402
from make_trial_data import deliver, invoke, join  # noqa: E402
from trial import VANS  # noqa: E402


def lines(load, count):
    """plain: a third of the lines invoke, all clients take their messages. flood: most invoke, and client 8 takes none, so that places and
    broadcasts pile up and most lines are refused."""
    draws = Draws(load)
    making, takers = {"plain": (35, VANS), "flood": (60, range(1, 8))}[load]
    for _ in range(count):
        if draws.below(100) < making:
            entry = draws.entry(1, range(16), (0, 1, 2, 3, 5, 200, 255), (0,))
            yield invoke(draws.one_of(VANS), entry.kind, entry.cell, entry.amount)
        else:
            yield deliver(draws.one_of(list(takers)))


if __name__ == "__main__":
    sys.stdout.buffer.write(join(lines(sys.argv[1], int(sys.argv[2]))))
