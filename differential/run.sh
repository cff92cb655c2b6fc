#!/bin/sh
# run.sh N SEED [LONGEST]: N random scripts of at most LONGEST records (200) from the seed on; prints coverage, counts and seeds, and ends with 1 if a script differs or a kind gets a reply that it cannot get.
# With RECIPE_LIB also the proved store, and after the scripts N / 10 starts, damaged stores and scattered stores.
set -eu
cd "$(dirname "$0")"
n=${1:-1000}
seed=${2:-1}
tool="cargo run -q --release --offline -j1 ${RECIPE_LIB:+--features store --target-dir target/store} --"
$tool run "$n" "$seed" "${3:-200}"
if [ -n "${RECIPE_LIB:-}" ]; then
    $tool damage $((n / 10 + 1)) "$seed"
fi
