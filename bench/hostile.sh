#!/usr/bin/env bash
# Runs the program at long and broken track files, batches and streams: bench/hostile.sh [--built]
#
# Track files of 100 MB and more: random bytes, letters, notes, brackets ten million deep. Batches as long as they may be: NULs, line feeds,
# one message, one stop of millions of segments. Lines of 100 MB for `encode` and `decode`, in 24 MiB. Standard input and output in pieces of
# one byte; standard output into a file that is full after each number of bytes, or for a log or a picture after each that is a square, and into
# a pipe that its reader closes after ever more bytes. Each run that ends otherwise than it has to is printed; the last line counts those that
# ended right. It takes some minutes, 1 GB on the disk and the memory that the last line tells.
#
# The program is proved and built first; with --built the one that is there is taken. It needs python3.
set -euo pipefail

here=$(cd "$(dirname "$(readlink -f "$0")")" && pwd)
root=$(dirname "$here")
[[ ${1-} == --built ]] || "$root/dispatch" --help > /dev/null
python3 -B "$here/hostile.py" "$root"
