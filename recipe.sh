#!/usr/bin/env bash
# Runs a script of edits over an empty store and prints the answers and the listing.
#   ./recipe.sh FILE        FILE holds edit records (docs/FORMAT.md), or text lines if its name ends in .txt (needs python3)
set -eu
here=$(cd "$(dirname "$0")" && pwd)
file=$(realpath "$1")
cd "$here"
program=crates/recipe/out/recipe
kept=$(mktemp)
trap 'rm -f "$kept"' EXIT
if [ ! -x "$program" ]; then
    echo "proving and building the program: some minutes the first time" >&2
    # `rt run` also runs it, here on no input.
    (cd crates/recipe && rt run) < /dev/null > "$kept" 2>&1 || { tail -n 20 "$kept" >&2; exit 1; }
fi
case "$file" in
*.txt)
    # Assembled whole first: a line that is no edit ends the run here, and nothing is printed.
    tools/script assemble < "$file" > "$kept"
    "$program" < "$kept"
    ;;
*) "$program" < "$file" ;;
esac
