#!/bin/sh
# Makes crates/edges/data/books.bin and crates/edges/stdout again. Needs python3 and cargo (no crates, no network).
# With --check they are made beside and compared with those that stand there.
set -e
here=$(cd "$(dirname "$0")" && pwd)
crate=$(cd "$here/../../crates/edges" && pwd)
scratch=$(mktemp -d)
trap 'rm -rf "$scratch"' EXIT
cargo build --release --offline --quiet --manifest-path "$here/Cargo.toml" --target-dir "$scratch/target"
PYTHONDONTWRITEBYTECODE=1 python3 "$here/books.py" "$scratch/list.bin" 200 edges
"$scratch/target/release/verdicts" "$scratch/list.bin" "$scratch/books.bin" "$scratch/stdout"
if [ "$1" = --check ]; then
    cmp "$scratch/books.bin" "$crate/data/books.bin"
    cmp "$scratch/stdout" "$crate/stdout"
    echo same
else
    mkdir -p "$crate/data"
    cp "$scratch/books.bin" "$crate/data/books.bin"
    cp "$scratch/stdout" "$crate/stdout"
fi
