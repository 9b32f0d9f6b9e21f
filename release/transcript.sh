#!/usr/bin/env bash
# Puts the transcript of a gate into this folder, or checks the one that is here:
#
#     release/transcript.sh LOG
#     release/transcript.sh --check
#
# LOG is what `.ci/run` printed (`bash .ci/run 2>&1 | tee LOG`) over the present sources, with the present files in this
# folder. Where that run took over the proof of a crate, LOG may have the lines of the run that made it in place of the
# line that says so. LOG becomes GATE.log.gz, and GATE.txt is made from it: what the prover said of each function is left
# out, and the number of functions and the sums of what was proved are added. SHA256SUMS then has the sums of both. A log
# is refused unless it is that of a whole gate that passed, over the present sources: `.ci/release` puts their sum into
# it.
#
# --check makes GATE.txt again from GATE.log.gz, the present sources, SOURCES and SHA256SUMS, and compares. It needs
# neither Rattle's kit nor a build. The exit status is 0 if both are the same.
set -euo pipefail

root=$(dirname "$(dirname "$(readlink -f "$0")")")
source "$root/release/sources.sh"

# The lines of a log, but for what the prover said of a crate. The line that says that a crate is proved has the number
# of its functions.
short_form() {
    awk '
        /^== / {
            crate = substr($0, 4)
            functions = ""
            next
        }
        crate != "" && /^logic=proved / && match($0, / functions=[0-9]+/) {
            functions = substr($0, RSTART + 11, RLENGTH - 11)
        }
        crate != "" && !/^rt: / { next }
        crate != "" && ($0 == "rt: " crate " proved" || $0 == "rt: " crate " are proved") {
            crate = ""
            $0 = $0 ", " functions " functions"
        }
        { sub(/: refused, as it must be: .*/, ": refused, as it must be") }
        { print }
    '
}

# Prints GATE.txt for a log.
transcript_of() {
    local log=$1 proved functions
    read -r proved functions <<< "$(proved_in "$log")"
    printf 'What a gate that passed printed (.ci/run), but for what the prover said of each function: GATE.log.gz has it.\n'
    printf 'What is said of the proof of a crate is from the run that made it, which may be an earlier one.\n\n'
    short_form < "$log"
    printf '\nProved: %s functions in %s of %s crates.\n' "$functions" "$proved" "$(names_of_crates | wc -l)"
    printf 'Kit: %s\n' "$(tail -n 1 "$root/release/SOURCES")"
    printf '\nSHA-256 of the whole log, which is in GATE.log.gz:\n%s\n' "$(sha256sum < "$log" | cut -d ' ' -f 1)"
    printf '\nSHA-256 of the program and the libraries:\n'
    grep -v ' GATE\.' "$root/release/SHA256SUMS"
    printf '\nSHA-256 of what was proved and tried (sums_of_proved in release/sources.sh):\n'
    sums_of_proved
}

stop() {
    printf 'transcript: %s\n' "$*" >&2
    exit 1
}

# Stops unless a log is that of a whole gate that passed, over the present sources.
look_at() {
    local log=$1 name
    [[ -f $log ]] || stop "there is no file $log"
    [[ ! -f $root/release/STALE ]] || stop 'release/STALE says that the release is behind its sources'
    tail -n 1 "$log" | grep -qE '^[0-9]+ passed, 0 failed$' || stop "$log does not end with a gate that passed"
    for name in $(names_of_crates); do
        grep -qE "^rt: $name (proved$|is kept: )" "$log" || stop "$log does not say that $name is proved"
    done
    grep -qE '^release: 3 of 3 files are what was built here, ' "$log" \
        || stop "$log does not say that the release is what was built"
    grep -qxF "$(line_of_proved)" "$log" || stop "$log is of other sources than the present ones"
}

case $#:${1-} in
    1:--check)
        cd "$root/release"
        [[ -f GATE.txt && -f GATE.log.gz ]] || stop 'GATE.txt or GATE.log.gz is not there'
        scratch=$(mktemp -d)
        trap 'rm -r "$scratch"' EXIT
        gzip -dc GATE.log.gz > "$scratch/log"
        transcript_of "$scratch/log" > "$scratch/GATE.txt"
        if ! diff GATE.txt "$scratch/GATE.txt" > "$scratch/differences"; then
            head -n 6 "$scratch/differences" >&2
            stop 'GATE.txt is not that of this log, these sources and this program'
        fi
        echo 'transcript: GATE.txt is that of this log, these sources and this program'
        ;;
    1:[!-]*)
        look_at "$1"
        transcript_of "$1" > "$root/release/GATE.txt"
        gzip -9nc "$1" > "$root/release/GATE.log.gz"
        sum_files
        echo 'transcript: release/GATE.txt and release/GATE.log.gz are written'
        ;;
    *)
        echo 'usage: release/transcript.sh LOG | --check' >&2
        exit 2
        ;;
esac
