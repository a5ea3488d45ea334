#!/usr/bin/env bash
# Megabytes a second of the log program, beside Python's csv and plain C, in one run; method: bench/README-log.md.
# bench/log.sh [MEGABYTES] [PROGRAM]: 100, and target/bin/log_export, where not said. Exit status 0 if all print the same.
set -euo pipefail
cd "$(dirname "$0")/.."
for tool in python3 gcc wc; do command -v "$tool" > /dev/null || { echo "missing: $tool"; exit 2; }; done
program=${2:-target/bin/log_export}
if [ $# -lt 2 ]; then
  command -v rt > /dev/null || { echo "missing: rt"; exit 2; }
  sh tools/build.sh log_export > /dev/null
fi
mkdir -p target/bench
gcc -std=c11 -O2 -Wall -Wextra bench/log_scan.c -o target/bench/log_scan
gcc -std=c11 -O2 -fno-tree-vectorize -Wall -Wextra bench/log_floor.c -o target/bench/log_floor
work=$(mktemp -d)
trap 'rm -rf "$work"' EXIT
python3 bench/log_lines.py "${1:-100}" > "$work/log"
"$program" < "$work/log" > "$work/printed"
for other in "python3 tests/log_csv.py" target/bench/log_scan; do
  $other < "$work/log" | cmp "$work/printed" - || { echo "$other prints something else"; exit 1; }
done
python3 - "$work/log" "$work/printed" "$program" <<'PY'
import collections, os, statistics, subprocess, sys, time

log, printed, program = sys.argv[1:]
size = os.path.getsize(log) / 1e6
with open(printed) as lines:
    told = (line.strip().split(" ", 1)[1] for line in lines)
    kinds = collections.Counter("entry" if said.startswith("5") else said for said in told)
print("%.1f MB, %d lines: %s" % (size, kinds.total(), ", ".join("%d %s" % (n, kind) for kind, n in sorted(kinds.items()))))
programs = {
    os.path.basename(program): [program],
    "Python's csv": ["python3", "tests/log_csv.py"],
    "plain C": ["target/bench/log_scan"],
    "line feeds, in C": ["target/bench/log_floor"],
    "wc -l": ["wc", "-l"],
}
took = {name: [] for name in programs}
for _ in range(5):
    for name, command in programs.items():
        with open(log, "rb") as source:
            start = time.perf_counter()
            subprocess.run(command, stdin=source, stdout=subprocess.DEVNULL, check=True)
            took[name].append(time.perf_counter() - start)
print("%-20s %10s %10s %12s %12s" % ("", "best, s", "median, s", "best, MB/s", "median, MB/s"))
for name, times in took.items():
    best, median = min(times), statistics.median(times)
    print("%-20s %10.3f %10.3f %12.1f %12.1f" % (name, best, median, size / best, size / median))
PY
