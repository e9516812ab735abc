#!/bin/sh
# run.sh SEED CASES [--first NUMBER] [--only LETTERS] [--wrong NAME]: builds the runner and holds the library against the judge.
set -e
cd "$(dirname "$0")"
../staticlib.sh
cargo build --release --offline --quiet
exec "${CARGO_TARGET_DIR:-target}/release/differential" "$@"
