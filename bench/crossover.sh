#!/usr/bin/env bash
# Times runs with --by-train by 1, 2 and 4 workers in which trains are told of 0 to 255 restrictions: bench/crossover.sh [--runs N] [PROGRAM]
#
# PROGRAM is the one that ./dispatch starts; N is 5 if left out. It needs python3. The batches go to bench/data, which is
# not kept. From the table the pace of the program is read off (PACE of rbc_engine).
set -euo pipefail

runs=5
source "$(dirname "$(readlink -f "$0")")/options.sh" "$@"

python3 -B "$here/crossover.py" "$here/data" "$runs" "$program"
