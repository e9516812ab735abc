#!/bin/sh
# Installs the Debian packages that the judge is built with. Run once, as root.
set -e
apt-get update
apt-get install -y --no-install-recommends \
    librust-serde-dev librust-serde-derive-dev librust-serde-json-dev librust-indexmap-dev \
    librust-rustc-hash-dev librust-once-cell-dev librust-thiserror-dev librust-memchr-dev
