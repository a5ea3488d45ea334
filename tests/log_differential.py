"""Holds a log program to meter_log.py on drawn logs: `python3 tests/log_differential.py PROGRAM LOGS SEED`, PROGRAM being a command line.
Prints how many lines of each kind there were; exit status 1 at the first difference."""

import os
import shlex
import subprocess
import sys
import tempfile
from collections import Counter
from itertools import product

import log_draws
from draws import Draws
from meter_log import LONGEST, lines_of, numbered, run

KINDS = ("header", "entry", "no 40", "no 41", "no 42", "long")


class Differs(Exception):
    pass


def pieces(log, sizes):
    at = 0
    while at < len(log):
        size = sizes()
        yield log[at : at + size]
        at += size


def feed(command, out, log, sizes, packets):
    """Runs the program on a pipe that gets the log in pieces. In packets, a read takes one piece at most, and loses what it has no room for:
    so these are for logs shorter than the program's buffer."""
    reader, writer = os.pipe2(os.O_CLOEXEC | (os.O_DIRECT if packets else 0))
    with subprocess.Popen(command, stdin=reader, stdout=out) as child:
        os.close(reader)
        try:
            for piece in pieces(log, sizes):
                os.write(writer, piece)
        except BrokenPipeError:
            pass
        os.close(writer)
    return child.returncode


def printed(command, log, sizes=None, packets=False):
    """What the program prints for a log that comes from a file, or in pieces of such sizes."""
    with tempfile.TemporaryFile() as source, tempfile.TemporaryFile() as out:
        if sizes:
            status = feed(command, out, log, sizes, packets)
        else:
            source.write(log)
            source.seek(0)
            status = subprocess.run(command, stdin=source, stdout=out).returncode
        if status:
            raise Differs("exit status %d" % status)
        out.seek(0)
        return out.read().decode("latin-1")


def compare(command, log, sizes=None, packets=False):
    """Raises Differs where the program and meter_log.py do."""
    expected = run(log)
    got = printed(command, log, sizes, packets)
    if got == numbered(expected):
        return expected
    for n, (line, right, wrong) in enumerate(zip(lines_of(log), numbered(expected).split("\n"), got.split("\n")), 1):
        if right != wrong:
            raise Differs("line %d, %r and %d bytes: %r, not %r" % (n, line[0][:200], len(line[0]), wrong, right))
    raise Differs("%d lines expected, got %r at the end" % (len(expected), got[-80:]))


def every_line():
    """Three columns, and under them every line of up to seven bytes of these."""
    return b"cell,flow,temp\n" + b"".join(bytes(text) + b"\n" for size in range(8) for text in product(b',"1-\r', repeat=size))


def noise(draws):
    return b"".join(draws.one_of(log_draws.TOKENS) for _ in range(draws.below(16)))


def long_log(draws):
    """Some lines, the first at times among them, about the limit and about whole buffers."""
    names = log_draws.header(draws, draws.below(3)) + [b"note"]
    log = b""
    for n in range(5):
        text = b",".join(names) if n == 0 else log_draws.line(draws, names)
        if draws.below(2 if n else 4) == 0:
            size = draws.one_of((1, 1, 1, 2, 3)) * (LONGEST + 1) + draws.one_of((-2, -1, -1, 0, 0, 1, 2))
            text += draws.one_of((b"x", b"x", b"7", b",", b'"', b"\r")) * (size - len(text))
        log += text + log_draws.end(draws)
    return log if draws.below(2) else log[:-1]


def one_log(command, draws, case):
    """A drawn log and, of one in eight, the same with a column more. What is printed, by lines."""
    sizes = draws.one_of((lambda: 1, lambda: 1 + draws.below(8), lambda: 1 + draws.below(300)))
    if case % 8 == 6:
        wide = draws.one_of((None, lambda: 1 + draws.below(70000), lambda: 65535 + draws.below(3)))
        return compare(command, long_log(draws), wide)
    log = noise(draws) if case % 8 == 7 else log_draws.log(draws, draws.below(60), case % 8 < 2)
    seen = compare(command, log, *draws.one_of(((), (sizes, True))))
    if case % 8 == 5:
        more = log_draws.added(draws, lines_of(log))
        if compare(command, more, *draws.one_of(((), (sizes, True)))) != seen:
            raise Differs("an added column: %r and %r" % (log, more))
    return seen


def main():
    command, logs, seed = shlex.split(sys.argv[1]), int(sys.argv[2]), sys.argv[3]
    seen = Counter()
    case = "every line"
    try:
        lines = compare(command, every_line())
        for case in range(logs):
            seen.update("entry" if line.startswith("5") else line for line in lines)
            lines = one_log(command, Draws("log %s %d" % (seed, case)), case)
    except Differs as difference:
        print("log %s of seed %s: %s" % (case, seed, difference))
        return 1
    seen.update("entry" if line.startswith("5") else line for line in lines)
    kinds = ", ".join("%d %s" % (seen[kind], kind) for kind in KINDS)
    print("%d logs and %d with a column more, %d lines: %s; no difference" % (logs + 1, (logs + 2) // 8, seen.total(), kinds))
    return 0 if logs < 100 or all(seen[kind] for kind in KINDS) else 1


if __name__ == "__main__":
    sys.exit(main())
