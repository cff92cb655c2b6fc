#!/usr/bin/env bash
# Builds the static library, the Rust crate, the command-line tool and the C examples, runs all their tests and compares what they print.
#   ./embed.sh              needs the Rattle kit (rt) and Debian's cargo, rustc, gcc, libc6-dev and python3; says what is missing
#   ./embed.sh --install    installs those Debian packages first where they are missing (as root)
#   RECIPE_LIB=/path/libffi.a ./embed.sh    takes a library that was built before, and then needs no kit
# The last line is `embedding: all passed`, or the script ends with 1.
set -euo pipefail
cd "$(dirname "$0")"
trap '[ $? = 0 ] || echo "embedding: failed" >&2' EXIT

packages() {
    command -v cargo > /dev/null || echo cargo
    command -v rustc > /dev/null || echo rustc
    command -v cc > /dev/null || echo gcc
    [ -e /usr/include/stdio.h ] || echo libc6-dev
    command -v python3 > /dev/null || echo python3
}

missing=$(packages | tr '\n' ' ')
if [ -n "$missing" ] && [ "${1-}" = --install ]; then
    apt-get update
    # shellcheck disable=SC2086
    apt-get install -y --no-install-recommends $missing
elif [ -n "$missing" ]; then
    echo "missing Debian packages: $missing(./embed.sh --install installs them)" >&2
    exit 1
fi

if [ -z "${RECIPE_LIB-}" ]; then
    command -v rt > /dev/null || { echo "missing: the Rattle kit (rt), or RECIPE_LIB" >&2; exit 1; }
    echo "== static library (proves what is not proved yet: some minutes the first time)"
    log=$(mktemp)
    (cd crates/ffi && rt lib) > "$log" 2>&1 || { tail -n 20 "$log" >&2; rm -f "$log"; exit 1; }
    rm -f "$log"
    RECIPE_LIB=$PWD/crates/ffi/out/libffi.a
fi
export RECIPE_LIB

echo "== declarations"
tests/signatures.py
cmp differential/recorded.bin crates/replay/stdin
# What docs/EMBEDDING.md says of the library: it gives eight names, has no variables of its own and wants nothing but memmove and memset.
[ "$(nm -g --defined-only "$RECIPE_LIB" | grep -c ' T recipe_')" = 8 ]
[ "$(nm -g --defined-only "$RECIPE_LIB" | grep -c ' [A-Z] ')" = 8 ]
[ "$(nm -u "$RECIPE_LIB" | awk '$1 == "U" { print $2 }' | sort | tr '\n' ' ')" = 'memmove memset ' ]
[ -z "$(nm "$RECIPE_LIB" | awk '$2 ~ /^[bBdDcC]$/')" ]

echo "== Rust crate"
(cd rust && cargo test --quiet --offline --locked --jobs 2)

echo "== command-line tool"
(cd cli && cargo build --quiet --release --offline --locked --jobs 2 && cargo test --quiet --offline --locked --jobs 2)
cli/target/release/recipe run examples/first.txt | diff - cli/tests/expected/first.listing

echo "== C examples"
mkdir -p target/embed
for program in first any_contents; do
    cc -std=c99 -pedantic -Wall -Wextra -Werror -I include "examples/c/$program.c" "$RECIPE_LIB" -o "target/embed/$program"
done
target/embed/first examples/first.bin | diff - examples/c/first.stdout
target/embed/any_contents | diff - examples/c/any_contents.stdout
echo "both print what is stored"

echo "== the boundary of the compiled library"
cc -std=c99 -pedantic -Wall -Wextra -Werror -I include tests/guarded.c "$RECIPE_LIB" -o target/embed/guarded
target/embed/guarded differential/recorded.bin
cc -std=c99 -pedantic -Wall -Wextra -Werror -I include tests/deepest_nest.c "$RECIPE_LIB" -lpthread -o target/embed/deepest_nest
target/embed/deepest_nest
echo "embedding: all passed"
