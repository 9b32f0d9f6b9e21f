#!/usr/bin/env bash
# Kills examples/desk and the program beneath it, 100 times each, while inputs are given: bench/desk.sh [--built] [KILLS]
#
# KILLS is how often each of the two is killed, 100 if left out. What is compared afterwards stands at the head of .ci/desk.py, which ./selftest
# runs with 20. It takes some minutes. The program is proved and built first; with --built the one that is there is taken. It needs python3.
set -euo pipefail

root=$(dirname "$(dirname "$(readlink -f "$0")")")
if [[ ${1-} == --built ]]; then
    shift
else
    "$root/dispatch" --help > /dev/null
fi
exec python3 -B "$root/.ci/desk.py" "$("$root/dispatch" --program)" "${1:-100}"
