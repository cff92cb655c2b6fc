#!/bin/sh
# pairs.sh [N]: all pairs of records with fields below N (3) after each of six beginnings.
set -eu
cd "$(dirname "$0")"
cargo run -q --release --offline -j1 ${RECIPE_LIB:+--features store --target-dir target/store} -- pairs "${1:-3}"
