#!/usr/bin/env bash
# Sets the program beside another one that takes the same words and gives the same outputs: bench/beside.sh OTHER FOLDER [--runs N] [PROGRAM]
#
# FOLDER has NAME.toml and NAME.batch for each batch. The other program by one worker, and this one by 1, 2 and 4 and by 4 with --by-train, run each
# batch in turn; the outputs must be equal, else the script ends with status 1. PROGRAM is the one that ./dispatch starts; N is 7 if
# left out. It needs python3.
set -euo pipefail

other=$(readlink -f "${1:?the other program}")
folder=$(readlink -f "${2:?a folder with NAME.toml and NAME.batch}")
shift 2
runs=7
source "$(dirname "$(readlink -f "$0")")/options.sh" "$@"

python3 -B "$here/beside.py" "$folder" "$runs" "$other" "$program"
