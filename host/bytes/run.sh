#!/bin/sh
# run.sh SEED ROUNDS: lends bytes that nobody intended to the C functions.
set -e
cd "$(dirname "$0")"
../staticlib.sh
cargo build --release --offline --quiet
exec $UNDER "${CARGO_TARGET_DIR:-target}/release/bytes" "$@"
