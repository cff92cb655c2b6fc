#!/bin/sh
# mutate.sh [N [SEED]]: plants each fault of FAULTS.tsv in a copy of the second reading and looks for the first of N scripts that shows it; ends with 1 if one is missed.
set -eu
cd "$(dirname "$0")"
cargo run -q --release --offline -j1 --features faults --target-dir target/faults -- faults "${1:-20000}" "${2:-1}"
