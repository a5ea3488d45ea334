#!/usr/bin/env bash
# Lines a second of the trial program, beside the second implementation in Python; method: bench/README-trial.md. Exit status 0 if the bar is met.
set -euo pipefail
cd "$(dirname "$0")/.."
for tool in rt python3; do command -v "$tool" > /dev/null || { echo "missing: $tool"; exit 2; }; done
sh tools/build.sh trial > /dev/null
work=$(mktemp -d)
trap 'rm -rf "$work"' EXIT
seconds() { python3 - "$@" <<'PY'
import subprocess, sys, time
command, source, target, turns = sys.argv[1].split(), sys.argv[2], sys.argv[3], int(sys.argv[4])
best = None
for _ in range(turns):
    with open(source, "rb") as i, open(target, "wb") as o:
        start = time.perf_counter()
        subprocess.run(command, stdin=i, stdout=o, check=True)
        took = time.perf_counter() - start
    best = took if best is None else min(best, took)
print(best)
PY
}
bad=0
printf '%-8s %12s %16s %16s %8s\n' load lines 'proved, lines/s' 'Python, lines/s' ratio
for load in plain flood; do
  python3 bench/trial_lines.py "$load" 200000 > "$work/$load"
  head -n 4000 "$work/$load" > "$work/$load.short"
  a=$(seconds target/bin/trial "$work/$load" "$work/out" 5)
  b=$(seconds "python3 tests/trial.py" "$work/$load.short" "$work/short" 1)
  head -n 4000 "$work/out" | cmp -s - "$work/short" || { echo "the two differ on $load"; exit 1; }
  python3 - "$load" "$a" "$b" <<'PY' || bad=1
import sys
load, a, b = sys.argv[1], 200000 / float(sys.argv[2]), 4000 / float(sys.argv[3])
print("%-8s %12d %16d %16d %8.1f" % (load, 200000, a, b, a / b))
sys.exit(0 if a >= 50000 else 1)
PY
done
[ $bad = 0 ] || echo "below 50,000 lines a second"
exit $bad
