#!/bin/sh
# Builds the store's library and the contestants, tests that they agree, measures, and writes docs/PERFORMANCE.md and docs/performance.svg.
# PLIRON names the folder of the published Rust (differential/README.md). Needs rt, cargo, python3 and the Debian packages of differential/setup.sh.
set -eu
cd "$(dirname "$0")"
./test.sh
export RECIPE_LIB="$PWD/../crates/ffi/out/libffi.a" PRIMITIVES_LIB="$PWD/target/libprimitives.a"
cargo build --release --offline --quiet
taskset -c "${CORE:-1}" target/release/bench report PERFORMANCE.in.md ../docs
