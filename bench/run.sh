#!/usr/bin/env bash
# Measures the program and prints a table: bench/run.sh [--runs N] [PROGRAM]
#
# PROGRAM is the one that ./dispatch starts; N is 5 if left out. It needs
# python3. The batches go to bench/data, which is not kept, and are the same bytes each time.
set -euo pipefail

runs=5
source "$(dirname "$(readlink -f "$0")")/options.sh" "$@"

python3 -B "$here/loads.py" "$here/data"
python3 -B "$here/measure.py" "$here/data" "$runs" "$program"
