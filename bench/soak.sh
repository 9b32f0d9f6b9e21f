#!/usr/bin/env bash
# Runs random batches by 1, 2, 4 and 16 workers for some time, and compares their outputs: bench/soak.sh [--built] [SECONDS [SEED [PROCESSES]]]
#
# In each round there is a batch of each profile of bench/soak_batches.py, of 50 to 20,000 lines. The program answers it by one worker, by 2, 4
# and 16 on the book, and by as many with --by-train; the outputs must be equal. Then crates/rbc_tests answers each three times by each number of
# workers, on a book and in windows of 7 and of 256 messages, and one of them over and over for 20 seconds in one process, whose memory must
# stay. PROCESSES runs stand side by side, 2 if left out. Prints what was done, at the end and every five minutes; a run that went wrong is
# printed with its profile, seed and lines, which bench/soak_batches.py makes again, and the script then ends with status 1.
#
# SECONDS is 3600 if left out, and SEED is 1. The programs are proved and built first; with --built those that are there are taken. It needs
# python3 and /proc.
set -euo pipefail

here=$(cd "$(dirname "$(readlink -f "$0")")" && pwd)
root=$(dirname "$here")
if [[ ${1-} == --built ]]; then
    shift
else
    "$root/dispatch" --help > /dev/null
    (cd "$root/crates/rbc_tests" && rt run > /dev/null 2>&1) || true # it builds the program, and runs it where no data is
fi
python3 -B "$here/soak.py" "$root" "${1:-3600}" "${2:-1}" "${3:-2}"
