#!/usr/bin/env bash
# Tries the faulty variants that the gate leaves out, and says which ones the prover lets through: bench/edits.sh [--anew] [CRATE..]
#
# A variant of crates/NAME/edits/ is an edit of the crate that the prover must refuse, as one of crates/NAME/must-fail/ is; the gate tries
# the latter alone. Without words, all crates that have such a folder are tried. The sources as they stand are copied to a scratch folder with the
# libraries that `rt check` has built of them, and the edits there to must-fail/, in place of those of the gate. Then `rt must-fail` tries them. It
# first proves the libraries below that are not built. It prints each variant that was not refused, or that was refused for a reason that says little
# of a contract, and a line for each crate; the exit status is 0 where all were refused, and 1 where one was not. All of them take hours of one
# processor. What an earlier run on this machine tried of the same files is taken over, but with --anew.
set -euo pipefail

anew=()
if [[ ${1-} == --anew ]]; then
    anew=(--anew)
    shift
fi
here=$(dirname "$(dirname "$(readlink -f "$0")")")
scratch=$(mktemp -d)
trap 'rm -rf "$scratch"' EXIT

(cd "$here" && tar -c --exclude=./.git --exclude=out/incremental .) | tar -x -C "$scratch"
cd "$scratch"
git init -q .
rm -rf crates/*/must-fail
if (($# == 0)); then
    set -- $(cd crates && ls -d */edits | cut -d / -f 1)
fi
for crate in "$@"; do
    mv "crates/$crate/edits" "crates/$crate/must-fail"
done

said=$(rt must-fail "${anew[@]}" "$@" 2>&1) || true
grep '^rt: must-fail ' <<< "$said" | grep -Ev ': refused, as it must be(:|$)' || true
status=0
for crate in "$@"; do
    tried=$(ls "crates/$crate/must-fail" | grep -c '\.edit$')
    refused=$(grep -c "^rt: must-fail $crate/.*: refused, as it must be" <<< "$said" || true)
    printf '%s: %s of %s refused\n' "$crate" "$refused" "$tried"
    ((refused == tried)) || status=1
done
if ((status != 0)); then
    tail -n 3 <<< "$said" >&2
fi
exit "$status"
