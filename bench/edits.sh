#!/bin/sh
# Tries the must-fail edits of bench/edits: those of crates whose proofs are long. The gate tries the edits under crates/ alone, since each
# crate that has some is proved once more for them. Here they are put into a copy of the last commit, and `rt must-fail` tries them there.
# Usage: bench/edits.sh [crate ..]; it says of each edit whether the prover refused it, and ends with 1 where one was not.
set -eu
top=$(cd "$(dirname "$0")/.." && pwd)
copy=$(mktemp -d)
trap 'rm -rf "$copy"' EXIT INT TERM
git -C "$top" archive HEAD | tar -x -C "$copy"
rm -rf "$copy"/crates/*/must-fail
if [ $# = 0 ]; then
    set -- $(ls "$top/bench/edits")
fi
for crate; do
    cp -r "$top/bench/edits/$crate" "$copy/crates/$crate/must-fail"
done
cd "$copy"
rt must-fail "$@"
