#!/bin/sh
# Times the rules of strings, paths and patterns on texts of 512 bytes, and counts their instructions: bench.sh, from anywhere in the repository.
# Their crates have no C functions of their own, so a scratch repository beside a copy of them exports them. Needs rt, rustc and valgrind.
set -eu
here=$(cd "$(dirname "$0")" && pwd)
root=$(cd "$here/../.." && pwd)
work=$(mktemp -d)
trap 'rm -rf "$work"' EXIT
mkdir -p "$work/crates/strings_bench/src"
for crate in text names emit components component_walk ends path strings normal path_rules patterns compare; do
    mkdir "$work/crates/$crate"
    tar -C "$root/crates/$crate" --exclude=./out -c . | tar -C "$work/crates/$crate" -x
done
grep -E '^(text|names|emit|components|component_walk|ends|path|strings|normal|path_rules|patterns|compare):' "$root/crates.txt" > "$work/crates.txt"
echo 'strings_bench staticlib: strings path_rules patterns compare' >> "$work/crates.txt"
for rule in strings::is_string patterns::is_pattern path_rules::is_record_path path_rules::obeys_lead path_rules::is_asked_path; do
    printf '#[unsafe(no_mangle)]\npub extern "C" fn bench_%s(s: &[u8]) -> bool { %s(s) }\n\n' ${rule#*::} $rule
done > "$work/crates/strings_bench/src/lib.rt"
printf '#[unsafe(no_mangle)]\npub extern "C" fn bench_covers(p: &[u8], q: &[u8]) -> bool { compare::covers(p, q) }\n' >> "$work/crates/strings_bench/src/lib.rt"
cd "$work"
(cd crates/strings_bench && rt lib) > log 2>&1 || { tail -20 log; exit 1; }
rustc -O -L crates/strings_bench/out "$here/drive.rs" -o drive
./drive
# what 1,000 calls more cost, with the driver's own instructions taken off
count() { valgrind --tool=callgrind --callgrind-out-file=/dev/null ./drive "$1" "$2" "$3" 2>&1 | awk '/Collected/ { print $4 }'; }
calls() { echo $(( ($(count "$1" "$2" 1100) - $(count "$1" "$2" 100)) / 1000 )); }
own=$(calls none letters)
for pair in 'string letters' 'pattern stars' 'record names' 'lead names' 'asked names' 'covers names'; do
    set -- $pair
    n=$(( $(calls "$1" "$2") - own ))
    echo "$1: $n instructions for 512 bytes, $(awk "BEGIN { printf \"%.2f\", $n / 512 }") a byte"
done
