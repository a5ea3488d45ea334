#!/bin/sh
# Holds the log program to meter_log.py on 3,000 drawn logs (or as many as said): tests/log.sh [LOGS] [SEED] [PROGRAM]
# The program is target/bin/log_export where none is said, built first.
set -eu
cd "$(dirname "$0")/.."
command -v python3 > /dev/null || { echo "missing: python3"; exit 2; }
program=${3:-target/bin/log_export}
if [ $# -lt 3 ]; then
    command -v rt > /dev/null || { echo "missing: rt"; exit 2; }
    sh tools/build.sh log_export | tail -n 1
fi
exec python3 tests/log_differential.py "$program" "${1:-3000}" "${2:-1}"
