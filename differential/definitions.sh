#!/bin/sh
# definitions.sh [N [SEED [LONGEST]]]: the recorded scripts of up to LONGEST bytes and N random short ones from SEED on, with what the Rust gives for each,
# as statements over crates/rules/specs that `rt check` decides by computing. They stand in a temporary folder with copies of the crates edit and rules.
# Then one digit of one expected listing is changed, and that row alone must be refused. Ends with 1 if the definitions give anything else than the Rust.
set -eu
cd "$(dirname "$0")"
n=${1:-400} seed=${2:-1} longest=${3:-16385}
work=$(mktemp -d)
trap 'rm -rf "$work"' EXIT
# without what rt keeps in each crate's out/: it finds by itself what was proved of the same text here
tar -C .. -cf - --exclude='crates/*/out' crates/edit crates/rules | tar -C "$work" -xf -
printf 'edit:\nrules: edit\ndefinitions: rules edit\n' >"$work/crates.txt"
cargo run -q --release --offline -j1 -- definitions "$work/crates/definitions" "$n" "$seed" "$longest"
rows=$(cat "$work"/crates/definitions/specs/Rows*.antt | grep -c '^pub row_')

# Checks the statements: prints the rows that are refused, each on a line; nothing where all are proved.
refused() {
    if (cd "$work/crates/definitions" && rt check --jobs 1) >"$work/log" 2>&1; then
        return
    fi
    grep -o 'error: `row_[0-9]*`' "$work/log" | grep -o 'row_[0-9]*' || { cat "$work/log" >&2; exit 2; }
}

(cd "$work/crates/rules" && rt lib --jobs 1) >"$work/log" 2>&1 || { cat "$work/log" >&2; exit 2; }
began=$(date +%s)
differ=$(refused)
took=$(($(date +%s) - began))
for row in $differ; do
    grep -h "^pub $row :" "$work"/crates/definitions/specs/Rows*.antt
done
count=$(echo $differ | wc -w)
echo "$rows scripts computed by the definitions: $((rows - count)) as the Rust, $count differ, $took s"
[ "$count" -eq 0 ] || exit 1

# one file is enough here
printf 'pub mod Over\npub mod Rows0\n' >"$work/crates/definitions/specs/Lib.antt"
find "$work/crates/definitions/specs" -name 'Rows*.antt' ! -name Rows0.antt -exec rm {} +
file=$work/crates/definitions/specs/Rows0.antt
row=$(grep -o '^pub row_[0-9]*.*"edit 0 ok 0 0"' "$file" | head -n 1 | grep -o 'row_[0-9]*')
sed -i "/^pub $row :/s/\"edit 0 ok 0 0\"/\"edit 0 ok 0 1\"/" "$file"
[ "$(refused)" = "$row" ] || { echo "a wrong digit in the listing of $row is not refused"; exit 1; }
echo "a wrong digit in the listing of $row is refused"
