#!/bin/sh
# bench.sh [ROUNDS [ALLOCATOR]]: the crate and the library on the same books, as tables. ALLOCATOR is a shared library whose malloc takes the place of glibc's. Needs valgrind and python3.
set -e
allocator=${2:+$(realpath -m "$2")}
if [ -n "$allocator" ] && [ ! -f "$allocator" ]; then
    echo "$allocator is no file." >&2
    exit 1
fi
cd "$(dirname "$0")"
../staticlib.sh
books=$(mktemp -d)
trap 'rm -rf "$books"' EXIT
python3 ../questions_bench/books.py "$books" >"$books/sizes"
cargo build --release --offline --quiet
LD_PRELOAD=$allocator "${CARGO_TARGET_DIR:-target}/release/bench" "$books" "${1:-30}"
