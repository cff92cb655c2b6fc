#!/bin/sh
# Writes ../crates/ffi/out/libffi.a, the store, and target/libprimitives.a, look-ups and primitives of crate `context` under C names; the latter is proved and
# built by rt in a temporary copy of the crates (primitives.py). Nothing is done if no crate has changed since.
set -eu
cd "$(dirname "$0")"
store=../crates/ffi/out/libffi.a
primitives=target/libprimitives.a
is_new() { [ -f "$1" ] && [ -z "$(find ../crates ../crates.txt primitives.py -name out -prune -o -newer "$1" -type f -print | head -n 1)" ]; }

if ! is_new "$store"; then
    (cd ../crates/ffi && rt lib) > /dev/null
fi
if ! is_new "$primitives"; then
    copy=$(mktemp -d)
    trap 'rm -rf "$copy"' EXIT
    mkdir -p target
    # Without what rt keeps in each crate's out/: it finds by itself what was proved of the same text here.
    tar -C .. -cf - --exclude='crates/*/out' crates crates.txt | tar -C "$copy" -xf -
    python3 primitives.py .. "$copy"
    (cd "$copy/crates/primitives" && rt lib) > "$copy/log" 2>&1 || { tail -n 40 "$copy/log"; exit 1; }
    cp "$copy/crates/primitives/out/libprimitives.a" "$primitives"
fi
