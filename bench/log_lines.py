"""A meters' log of ten columns for bench/log.sh: `python3 bench/log_lines.py MEGABYTES`. The same on every machine."""

import pathlib
import sys

sys.path.insert(0, str(pathlib.Path(__file__).parents[1] / "tests"))
from draws import Draws  # noqa: E402

HEADER = "time,station,meter,cell,flow,temp,unit,operator,note,crc\r\n"
STATIONS = ("North", "North 2", "Harbour", "Mill Lane", "Weir", "Reservoir East")
OPERATORS = ("auto", "auto", "auto", "k.lind", "b.osei", "t.ferreira")
NOTES = ("", "", "", "", "", "", "ok", "checked", "seal worn")


def line(n, draw):
    """Line n, by one large draw. A note in quotes, with a comma, in one of ten; a value that is none in one of fifty; a field too few in
    one of five hundred."""

    def below(k):
        nonlocal draw
        draw, rest = divmod(draw, k)
        return rest

    note = '"valve %d, side %d"' % (below(40), below(2)) if below(10) == 0 else NOTES[below(len(NOTES))]
    values = ["%d" % below(16), "%d" % below(256), "%d" % (below(126) - 40)]
    if below(50) == 0:
        values[below(3)] = ("", "n/a", "300", "12.5")[below(4)]
    if below(500) == 0:
        del values[below(3)]
    at = "2031-%02d-%02d %02d:%02d:%02d" % (1 + n // 2419200 % 12, 1 + n // 86400 % 28, n // 3600 % 24, n // 60 % 60, n % 60)
    fields = (at, STATIONS[below(6)], "M-%04d" % below(10000), *values, "l/s", OPERATORS[below(6)], note, "%08x" % below(1 << 32))
    return ",".join(fields) + "\r\n"


def main():
    draws = Draws("log")
    left = int(sys.argv[1]) * 1000000 - len(HEADER)
    sys.stdout.reconfigure(newline="")
    sys.stdout.write(HEADER)
    n = 0
    while left > 0:
        made = line(n, draws.below(1 << 256))
        sys.stdout.write(made)
        left -= len(made)
        n += 1


if __name__ == "__main__":
    main()
