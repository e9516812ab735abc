#!/bin/sh
# staticlib.sh: makes target/staticlib/libquestions.a, the four C functions of crates/questions_c, where no library is named and it is missing or older than
# a source.
set -eu
cd "$(dirname "$0")/.."
archive=target/staticlib/libquestions.a
if [ -n "${TSCONFIG_QUESTIONS_LIB:-}" ]; then exit 0; fi
if [ -f $archive ] && [ -z "$(find crates crates.txt -name out -prune -o -type f -newer $archive -print | head -n 1)" ]; then exit 0; fi
log=$(mktemp)
trap 'rm -f "$log"' EXIT
begun=$(date +@%s.%N)
(cd crates/questions_c && rt lib) >"$log" 2>&1 || { cat "$log" >&2; exit 1; }
mkdir -p target/staticlib
cp crates/questions_c/out/libquestions_c.a $archive.new
# What is edited while it is built is newer.
touch -d "$begun" $archive.new
mv $archive.new $archive
