#!/usr/bin/env bash
# Decodes random bytes and mutations of good messages, and strings near worked messages, by the codec for C and by a slow decoder of its own:
# bench/decoding.sh [--built] [COUNT [SEED]]
#
# bench/decoding.c tells which strings, and prints how many each answer came for; COUNT is 10,000,000 if left out, and SEED is 1. It ends
# with status 1 at the first difference. The library is proved and built first, which takes minutes in a fresh clone; with --built the one
# that is there is taken. It needs cc.
set -euo pipefail

here=$(cd "$(dirname "$(readlink -f "$0")")" && pwd)
root=$(dirname "$here")
work=$(mktemp -d)
trap 'rm -r "$work"' EXIT

if [[ ${1-} == --built ]]; then
    shift
else
    (cd "$root/crates/ertms_c" && rt lib) > "$work/log" 2>&1 || { tail -n 20 "$work/log" >&2; exit 1; }
fi
cc -O2 -std=c11 -Wall -Wextra -Werror -I "$root/include" "$here/decoding.c" "$root/include/heap.c" "$root/crates/ertms_c/out/libertms_c.a" -o "$work/decoding"
"$work/decoding" "${1:-10000000}" "${2:-1}" "$root/golden/messages/given.tsv"
