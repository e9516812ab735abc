#!/bin/sh
# bench.sh [SCRATCH]: the figures of docs/SPEED.md. Not part of the gate. Needs rt, cargo and valgrind.
# The scratch folder is a copy of the crates below the book with a thin C function over the check; it can be kept for the next run.
set -e
here=$(cd "$(dirname "$0")" && pwd)
root=$(cd "$here/../../.." && pwd)
scratch=${1:-$(mktemp -d)}
mkdir -p "$scratch/crates/speed/src"
for crate in text names emit components component_walk ends path join strings normal path_rules patterns compare book meeting faults verdicts usual record_checker checker; do
    mkdir -p "$scratch/crates/$crate"
    find "$scratch/crates/$crate" -mindepth 1 -maxdepth 1 ! -name out -exec rm -r {} +
    tar -C "$root/crates/$crate" --exclude=./out -c . | tar -C "$scratch/crates/$crate" -x
done
cp "$here/wrapper.txt" "$scratch/crates/speed/src/lib.rt"
grep -E '^(text|names|emit|components|component_walk|ends|path|join|strings|normal|path_rules|patterns|compare|book|meeting|faults|verdicts|usual|record_checker|checker):' "$root/crates.txt" >"$scratch/crates.txt"
echo 'speed staticlib: text names emit components component_walk ends path join strings normal path_rules patterns compare book meeting faults verdicts usual record_checker checker' >>"$scratch/crates.txt"
(cd "$scratch/crates/speed" && rt lib >"$scratch/rt.log" 2>&1) || { tail "$scratch/rt.log"; exit 1; }
export PROVED="$scratch/crates/speed/out"
cargo build --release --offline --quiet --manifest-path "$here/Cargo.toml" --target-dir "$scratch/cargo"
bench="$scratch/cargo/release/bench"

# The instructions of one call: NAME proved|plain.
count() {
    valgrind --tool=callgrind --dump-instr=yes --toggle-collect="$2_check" --callgrind-out-file="$scratch/$1-$2.callgrind" "$bench" once "$1" "$2" 2>&1 |
        sed -n 's/.*Collected : //p'
}

"$bench" list
if [ -f "$root/crates/edges/data/books.bin" ]; then "$bench" agree "$root/crates/edges/data/books.bin"; fi

echo "instructions of a call: proved, plain"
for name in typical limits strings patterns stars records-1 records-2 records-4 records-8 records-16 records-32 records-64; do
    echo "$name $(count $name proved) $(count $name plain)"
done

echo "instructions of a command more, by command and length of its string: proved, plain"
for kind in 18-0 3-0 3-4 3-8 3-15 3-16 3-24 3-31 3-32 3-64 3-512 5-8 5-24 5-512 8-8 8-24 15-8; do
    case $kind in 3-* | 5-*) times=64 ;; *) times=8 ;; esac
    line=$kind
    for which in proved plain; do
        line="$line $((($(count cost-$kind-$times $which) - $(count cost-$kind-0 $which)) / times))"
    done
    echo "$line"
done

echo "instructions of a pair of paths: proved, plain"
for kind in same varied; do
    line=$kind
    for which in proved plain; do
        line="$line $((($(count paths-$kind-64 $which) - 2 * $(count paths-$kind-32 $which)) / 1024))"
    done
    echo "$line"
done

"$bench" time
