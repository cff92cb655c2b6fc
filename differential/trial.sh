#!/bin/sh
# trial.sh: tries the comparison of the store on a stand-in library: no difference as it is, and one for each fault planted in it.
set -eu
cd "$(dirname "$0")"
(cd trial && cargo build -q --release --offline -j1 --target-dir ../target/trial)
RECIPE_LIB=$PWD/target/trial/release/libtrial.a
export RECIPE_LIB
cargo build -q --release --offline -j1 --features store --target-dir target/store
tool=target/store/release/differential
TRIAL_FAULT=0 $tool run 120 1 >/dev/null && TRIAL_FAULT=0 $tool damage 120 1 >/dev/null || { echo "differs without a fault"; exit 1; }
for k in 1 2 3 4 5 6 7 8 9 10 11 12 13 14 15 16 17 18 19 20 21; do
    if TRIAL_FAULT=$k $tool run 24 1 >/dev/null && TRIAL_FAULT=$k $tool damage 60 1 >/dev/null; then
        echo "fault $k of the stand-in is not found"
        exit 1
    fi
done
echo "no difference without a fault; 21 faults found"
