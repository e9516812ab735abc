#!/bin/sh
# sample.sh [check]: writes the sample that the program `sample` replays, or says whether it is the one that is written.
set -eu
cd "$(dirname "$0")"
kept=../../crates/sample/data/sample.bin
if [ "${1:-}" != check ]; then exec ./run.sh sample 1 200 "$kept"; fi
made=$(mktemp)
trap 'rm -f "$made"' EXIT
./run.sh sample 1 200 "$made" >/dev/null
cmp "$made" "$kept" && echo "the sample is the one that the judge makes"
