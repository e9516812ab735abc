#!/bin/sh
# check.sh: builds the library over the proved functions and runs all its tests: the Rust tests and examples, the documentation's examples, the
# header and the example in C. Needs rt, cargo and cc, and no network.
set -eu
cd "$(dirname "$0")"
../staticlib.sh

RUSTFLAGS=${RUSTFLAGS:--D warnings}
RUSTDOCFLAGS=${RUSTDOCFLAGS:--D warnings}
export RUSTFLAGS RUSTDOCFLAGS
if cargo fmt --version > /dev/null 2>&1; then cargo fmt --check; fi
if cargo clippy --version > /dev/null 2>&1; then cargo clippy --offline --quiet --all-targets; fi
cargo test --offline --quiet
cargo doc --offline --quiet --no-deps
cargo run --offline --quiet --example stations | diff examples/stations.expected -
echo "the Rust example answers as expected"
./check_c.sh
