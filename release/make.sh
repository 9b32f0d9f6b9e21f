#!/usr/bin/env bash
# Puts what was built here into this folder: release/make.sh
#
# The program and the libraries for C have to be built from the present sources: by the gate, or by `./dispatch --build` and by `rt lib` in
# crates/rbc_c and crates/ertms_c. It writes them with their sums (SHA256SUMS), and of which sources and by which kit they were built (SOURCES),
# and removes the file STALE. The gate compares each byte with what it builds itself (.ci/release). A transcript of a gate over other sources
# (GATE.txt, GATE.log.gz) is removed too: transcript.sh writes a new one once the gate has passed.
set -euo pipefail

root=$(dirname "$(dirname "$(readlink -f "$0")")")
source "$root/release/sources.sh"

cd "$root/release"
mkdir -p c
cp "$root/crates/rbc_dispatch/out/rbc_dispatch" dispatch
cp "$root/crates/rbc_c/out/librbc_c.a" "$root/crates/ertms_c/out/libertms_c.a" "$root"/include/*.[ch] c/
chmod 755 dispatch
{
    printf '%s %s\n' dispatch "$(sum_of_sources rbc_dispatch)" c/librbc_c.a "$(sum_of_sources rbc_c)" c/libertms_c.a "$(sum_of_sources ertms_c)"
    rt version
} > SOURCES
rm -f STALE
sum_files
if [[ -f GATE.txt ]] && ! ./transcript.sh --check; then
    rm -f GATE.txt GATE.log.gz
    sum_files
    echo 'make: the transcript was of other sources, and is removed: run the gate, and then release/transcript.sh'
fi
