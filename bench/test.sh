#!/bin/sh
# Builds the libraries and runs the tests of the plain program.
set -eu
cd "$(dirname "$0")"
: "${PLIRON:?PLIRON names the folder of the published files, the one that has src/value.rs}"
./libraries.sh
export PLIRON RECIPE_LIB="$PWD/../crates/ffi/out/libffi.a" PRIMITIVES_LIB="$PWD/target/libprimitives.a"
cargo test --release --offline --quiet --lib
