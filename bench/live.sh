#!/usr/bin/env bash
# Measures `live`, and kills it: bench/live.sh [--runs N] [PROGRAM [TRACK BATCH [LINES]]]
#
# PROGRAM is the one that ./dispatch starts. TRACK and BATCH are the 100,000 mixed inputs of bench/loads.py if left out, N is 7 and LINES is 1,000,000.
# Prints how 200 kills ended, the time of 10,000 lone lines and of the whole batch, and the memory after each tenth of LINES. It needs
# python3 and /proc.
set -euo pipefail

runs=7
source "$(dirname "$(readlink -f "$0")")/options.sh" "$@"
if [[ ${1-} == --runs ]]; then
    shift 2
fi

track=${2-$here/data/wide.toml}
batch=${3-$here/data/mixed-100000.batch}
if [[ -z ${2-} ]]; then
    mkdir -p "$here/data"
    python3 -B "$here/loads.py" "$here/data"
fi
python3 -B "$here/live.py" "$program" "$runs" "$track" "$batch" "${4-1000000}"
