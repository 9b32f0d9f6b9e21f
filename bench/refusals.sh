#!/usr/bin/env bash
# Refuses memory to the program and to that of the golden batches, one allocation after another, and threads: bench/refusals.sh [--built]
#
# Each run is refused one allocation more than the last, the Nth alone, until there is no Nth. The program, on messages by `decode` and on each
# batch of examples/ by `run` and `picture`, must end with status 0 and the expected output, or with status 1, a line that tells of lack of
# memory, and no output; `explain`, in words and with --json, likewise, but with whole lines before the fault; `run` by one worker, and by 2, 4 and
# 16 on the book and with --by-train. On three batches of golden/alarms `run --alarms` must end likewise, and `live --alarms` with whole answers before the fault. `encode TEXT` must end as `decode` does, and the filters
# `encode` and `decode` with whole lines before the fault. That of the golden batches, whose workers share a book or do windows of messages, must find
# the output right or end with an error that tells of lack of memory. Then both are run by 2, 4 and 16 workers, in both ways, where the Nth thread
# cannot be started, alone and with all behind it, for each N: the output must be the right one. Whatever else comes is printed, and the script then
# ends with status 1.
#
# It prints one line a program: how many allocations were refused, one a run, and how many of these runs ended with the fault
# for want of memory, with that of the track, which is read first, and with the right answer all the same.
#
# The programs are built first where that is needed; with --built those are taken that were built last. It needs python3 and cc.
set -euo pipefail

here=$(cd "$(dirname "$(readlink -f "$0")")" && pwd)
root=$(dirname "$here")
work=$(mktemp -d)
trap 'rm -r "$work"' EXIT

if [[ ${1-} != --built ]]; then
    "$root/dispatch" --help > /dev/null
    (cd "$root/crates/rbc_tests" && rt run > /dev/null 2>&1) || true # it builds the program, and runs it where no data is
fi
cc -O2 -Wall -Wextra -shared -fPIC -o "$work/refuse.so" "$here/refuse.c"

python3 -B "$here/refusals_count.py" "$root" "$work/refuse.so"
