#!/usr/bin/env bash
# Measures the reading of a track: bench/track.sh [--runs N] [PROGRAM]
#
# PROGRAM is the one that ./dispatch starts; N is 15 if left out. It needs
# python3. The tracks go to bench/data, which is not kept.
set -euo pipefail

runs=15
source "$(dirname "$(readlink -f "$0")")/options.sh" "$@"

python3 -B "$here/track_measure.py" "$here/data" "$runs" "$program"
