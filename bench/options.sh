# Sourced by the scripts beside it, with their words, after they have set `runs`: [--runs N] [PROGRAM]. Sets `here`,
# `root`, `runs`, and `program`, the one that ./dispatch starts where none is given.
here=$(cd "$(dirname "$(readlink -f "${BASH_SOURCE[0]}")")" && pwd)
root=$(dirname "$here")
if [[ ${1-} == --runs ]]; then
    runs=${2:?--runs takes a number}
    shift 2
fi
program=${1-}
if [[ -z $program ]]; then
    program=$("$root/dispatch" --program)
fi
program=$(readlink -f "$program")
