#!/bin/sh
# Makes the lists one.txt, two.txt and glob.txt again.
#
#   host/lists/make.sh           writes the lists into crates/replay/data
#   host/lists/make.sh check     makes them elsewhere and compares them with those there
#
# OXC_SRC is the folder of the crate's sources; only its path.rs is used, unchanged.
# By default it is shared/docs/src beside the repository.
# RUSTC and PYTHON name the compiler and the interpreter, by default rustc and python3.
set -eu

PATH_RS_SHA256=30a97ea026deab29691fa7c4686cd4b4f946169f2d43e45c3ec7b04c5c7962c8

here=$(cd "$(dirname "$0")" && pwd)
root=$(cd "$here/../.." && pwd)
lists=$root/crates/replay/data
src=${OXC_SRC:-$root/../shared/docs/src}
what=${1:-write}

case $what in
write | check) ;;
*)
    echo "make.sh: unknown word '$what'; give nothing or 'check'" >&2
    exit 2
    ;;
esac
if [ ! -f "$src/path.rs" ]; then
    echo "make.sh: no path.rs in $src; set OXC_SRC to the folder of the crate's sources" >&2
    exit 2
fi

build=$(mktemp -d)
trap 'rm -rf "$build"' EXIT
trap 'exit 1' HUP INT TERM
mkdir "$build/out"

# The copy is what is checked and what is compiled.
cp "$here/src/main.rs" "$build/main.rs"
cp "$src/path.rs" "$build/path.rs"
sum=$(sha256sum "$build/path.rs" | cut -d ' ' -f 1)
if [ "$sum" != "$PATH_RS_SHA256" ]; then
    echo "make.sh: $src/path.rs is not the file these lists are made from" >&2
    echo "  wanted $PATH_RS_SHA256" >&2
    echo "  found  $sum" >&2
    exit 2
fi

"${RUSTC:-rustc}" --edition 2024 -O -D warnings -o "$build/lists" "$build/main.rs"
"$build/lists" "$build/out"
"${PYTHON:-python3}" "$here/make_glob.py" "$build/out/glob.txt"

if [ "$what" = check ]; then
    for list in one.txt two.txt glob.txt; do
        cmp "$build/out/$list" "$lists/$list"
    done
    echo "the lists are as they stand"
else
    for list in one.txt two.txt glob.txt; do
        cat "$build/out/$list" > "$lists/$list"
    done
    (cd "$lists" && sha256sum one.txt two.txt glob.txt)
fi
