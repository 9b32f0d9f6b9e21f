#!/usr/bin/env bash
# Runs batches over and over by 1, 2, 3, 4 and 16 workers, and compares every output: bench/stress.sh [RUNS]
#
# The batch in which a train has no identifier left is run RUNS times (1,000 if no number is given) by each number of workers, on a locked book
# (the program's --workers) and in windows of 7 and of 256 messages (its --by-train); the closure of examples/ and a contended batch a tenth as
# often. Says of each whether every output was right, in how many windows it was run, and how many inputs were recomputed in all. By hand, not
# by the gate.
set -euo pipefail
cd "$(dirname "$0")/../crates/rbc_tests"

runs=${1:-1000}
(rt run >/dev/null 2>&1) || true # it builds the program, and runs it where no data is
program=$PWD/out/rbc_tests
folder=$(mktemp -d)
trap 'rm -r "$folder"' EXIT
cp data/* "$folder"
cd "$folder"

stress() { # a case and its track, and how often
    echo "$1" >cases.txt
    "$program" "$2"
}
stress "identifiers identifiers.toml" "$runs"
stress "example-closure main_line.toml" $((runs / 10))
stress "contended-1 contended-1.toml" $((runs / 10))
