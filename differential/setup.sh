#!/bin/sh
# Installs the Debian packages with the crates that the published files use, and builds. Needs cargo 1.91 or later, and PLIRON.
set -eu
cd "$(dirname "$0")"
if [ ! -d /usr/share/cargo/registry/slotmap-1.0.6 ]; then
    apt-get update
    apt-get install -y --no-install-recommends librust-slotmap-dev librust-indexmap-dev librust-smallvec-dev librust-thiserror-dev librust-log-dev
fi
: "${PLIRON:?PLIRON names the folder of the published files, the one that has src/value.rs}"
cargo build --release --offline -j1 ${RECIPE_LIB:+--features store --target-dir target/store}
