#!/bin/sh
# scripts/try-wrong-bodies.sh [CRATE..]: tries the wrong bodies of scripts/wrong-bodies/, which the gate doesn't try, of the
# crates named or of all. Each CRATE's edits are put into its must-fail/ in a clone beside, and `rt ci` says of each whether
# the prover refused it, and in which function. What passed on the machine is kept: so run the gate first.
set -e
top=$(cd "$(dirname "$0")/.." && pwd)
room=$(mktemp -d)
trap 'rm -rf "$room"' EXIT
git clone -q "$top" "$room/tree"
cd "$room/tree"
if [ $# = 0 ]; then
    set -- $(ls scripts/wrong-bodies)
fi
for crate in "$@"; do
    mkdir -p "crates/$crate/must-fail"
    cp "scripts/wrong-bodies/$crate/"*.edit "crates/$crate/must-fail/"
done
rt ci "$@"
