#!/bin/sh
# record.sh [FILE]: writes the recorded answers (recorded.bin, and its copy that the gate gives to crates/replay), all of them given by the Rust and by the
# second reading alike.
set -eu
cd "$(dirname "$0")"
cargo run -q --release --offline -j1 -- record "${1:-recorded.bin}"
[ $# -gt 0 ] || cp recorded.bin ../crates/replay/stdin
