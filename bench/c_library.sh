#!/usr/bin/env bash
# Feeds batches to the library for C, line by line, and compares with the program: bench/c_library.sh [--from FOLDER] [CASES]
#
# CASES is a folder with NAME.toml, NAME.batch and NAME.expected, the output text of NAME.batch on the track NAME.toml; without it
# examples/ is taken. For each batch, as bench/c_library.c tells: room for messages is asked for first; the output is the
# expected one. The first three batches are then fed with each allocation refused in turn, and, of CASES, under valgrind, where that
# is there, with room and with refusals. It ends with status 1 at the first difference or finding.
#
# The library is proved and built first, which takes minutes in a fresh clone; with --from the one in that folder is taken. It needs cc.
set -euo pipefail

here=$(cd "$(dirname "$(readlink -f "$0")")" && pwd)
root=$(dirname "$here")
work=$(mktemp -d)
trap 'rm -r "$work"' EXIT

folder=$root/crates/rbc_c/out
if [[ ${1-} == --from ]]; then
    folder=$2
    shift 2
else
    (cd "$root/crates/rbc_c" && rt lib) > "$work/log" 2>&1 || { tail -n 20 "$work/log" >&2; exit 1; }
fi
cases=${1-}
library=("$folder/librbc_c.a" "$root/include/heap.c")
cc -O2 -std=c11 -Wall -Wextra -Werror -I "$root/include" "$here/c_library.c" "${library[@]}" -Wl,--wrap=malloc,--wrap=realloc -o "$work/c_library"
cc -O2 -std=c11 -Wall -Wextra -Werror -I "$root/include" "$root/examples/c/live.c" "${library[@]}" -o "$work/live"

# Prints the track, the batch and the expected output of each case, a line each.
list() {
    local batch name
    if [[ -n $cases ]]; then
        for batch in "$cases"/*.batch; do
            name=${batch%.batch}
            printf '%s %s %s\n' "$name.toml" "$batch" "$name.expected"
        done
    else
        for name in "$root"/examples/*.expected; do
            printf '%s %s %s\n' "$root/examples/main_line.toml" "${name%.expected}.batch" "$name"
        done
    fi
}

# Runs a program on a case, with words behind the track, and compares what it writes.
compare() {
    local track=$1 batch=$2 expected=$3
    shift 3
    "$@" < "$batch" > "$work/output" 2> "$work/errors" || { echo "$batch: $*: status $?" >&2; cat "$work/errors" >&2; exit 1; }
    cmp "$work/output" "$expected" >&2 || { echo "$batch: $*: another output" >&2; exit 1; }
}

count=0
lines=0
refusals=0
while read -r track batch expected; do
    compare "$track" "$batch" "$expected" "$work/c_library" "$track"
    compare "$track" "$batch" "$expected" "$work/live" "$track"
    count=$((count + 1))
    lines=$((lines + $(grep -c '' "$batch" || true)))
    if ((count <= 3)); then
        compare "$track" "$batch" "$expected" "$work/c_library" "$track" refuse
        read -r some _ < "$work/errors"
        refusals=$((refusals + some))
        if [[ -n $cases ]] && command -v valgrind > /dev/null; then
            watched=(valgrind --quiet --error-exitcode=9 --leak-check=full --errors-for-leak-kinds=all)
            compare "$track" "$batch" "$expected" "${watched[@]}" "$work/c_library" "$track"
            compare "$track" "$batch" "$expected" "${watched[@]}" "$work/c_library" "$track" refuse
        fi
    fi
done < <(list)
printf '%s batches of %s lines as expected, fed line by line; %s allocations refused\n' "$count" "$lines" "$refusals"
