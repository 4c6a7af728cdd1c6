#!/usr/bin/env bash
# What an order costs as a day grows: `bench/growth.sh OPEN CLOSED` makes a day at the order core on which so many orders
# close and so many stay open, and prints what a hundred more of each call take, in nanoseconds each.
#
# growth.rt.in is no crate of the repository: it's made in a folder of its own, over a copy of the crates that it stands
# on, and run by `rt try`, unproved and with all its checks. So its times tell only how they compare with one another;
# and a day has to end within the two minutes that `rt try` gives it.
set -euo pipefail

here=$(cd "$(dirname "${BASH_SOURCE[0]}")" && pwd)
repository=$(dirname "$here")
needs=(order_core session_writing fix_types fix_fields tokens wire_law)

work=$(mktemp -d "${TMPDIR:-/tmp}/fevzurk-growth.XXXXXX")
trap 'rm -rf "$work"' EXIT
trap 'exit 130' INT TERM

mkdir -p "$work/crates/growth/src"
cp "$here/growth.rt.in" "$work/crates/growth/src/main.rt"
cp "$repository/crates.txt" "$work/"
echo "growth: ${needs[*]}" >> "$work/crates.txt"
tar cf - -C "$repository" --exclude=out crates | tar xf - -C "$work"
if [ -f "$repository/HANDLES" ]; then
    cp "$repository/HANDLES" "$work/"
fi
cd "$work/crates/growth"
rt try -- "${1:-10}" "${2:-0}" 100
