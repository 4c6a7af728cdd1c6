#!/usr/bin/env bash
# What an Executed and a Broken Trade of an order cost behind 100, 20,000 and 80,000 trades of it, at the order core:
# instructions, counted by callgrind as the difference of two runs, and nanoseconds, the mean of a hundred calls each.
#
#     bench/trades.sh [BEHIND..]
#
# trades.rt.in is no crate of the repository: it's made in a folder of its own, over a copy of the crates, and built by
# build-unproved.sh, with its checks. It takes three minutes to build; valgrind takes a minute.
set -euo pipefail

here=$(cd "$(dirname "${BASH_SOURCE[0]}")" && pwd)
repository=$(dirname "$here")
needs=(order_core session_writing fix_types fix_fields tokens wire_law)

work=$(mktemp -d "${TMPDIR:-/tmp}/fevzurk-trades.XXXXXX")
trap 'rm -rf "$work"' EXIT
trap 'exit 130' INT TERM

mkdir -p "$work/crates/trades/src" "$work/bench"
cp "$here/trades.rt.in" "$work/crates/trades/src/main.rt"
cp "$here/build-unproved.sh" "$work/bench/"
cp "$repository/crates.txt" "$work/"
echo "trades: ${needs[*]}" >> "$work/crates.txt"
tar cf - -C "$repository" --exclude=out crates | tar xf - -C "$work"
if [ -f "$repository/HANDLES" ]; then
    cp "$repository/HANDLES" "$work/"
fi
"$work/bench/build-unproved.sh" trades "$work/program"

# The instructions of a run with these words.
counted() {
    valgrind --tool=callgrind --callgrind-out-file=/dev/null "$work/program" "$@" 2>&1 >/dev/null |
        sed -n 's/.*Collected : \([0-9]*\).*/\1/p'
}

for behind in "${@:-100 20000 80000}"; do
    for trades in $behind; do
        "$work/program" "$trades" 100 100
        none=$(counted "$trades" 0 0)
        executed=$(counted "$trades" 100 0)
        broken=$(counted "$trades" 0 100)
        echo "  instructions: executed $(((executed - none) / 100)), broken $(((broken - none) / 100))"
    done
done
