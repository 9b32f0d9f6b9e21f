#!/usr/bin/env bash
# Measures what a report costs as batches, trains, stops and restrictions elsewhere grow: bench/growth.sh [--runs N] [PROGRAM]
#
# PROGRAM is the one that ./dispatch starts; N is 7 if left out. It needs python3. The batches go to
# bench/data, which is not kept.
set -euo pipefail

runs=7
source "$(dirname "$(readlink -f "$0")")/options.sh" "$@"

python3 -B "$here/growth.py" "$here/data" "$runs" "$program"
