#!/usr/bin/env bash
# What the audit of a day costs: `bench/audit.sh [ORDERS..]` makes days of so many orders and audits each, and prints the
# time of the audit and, by valgrind's massif, how many bytes of memory an order it had at most beside the day's pages.
#
# audit.rt.in is no crate of the repository: it's made in a folder of its own, over a copy of the crates, and built
# unproved, without checks. `WORK=FOLDER` keeps the program there, for further runs.
set -euo pipefail

here=$(cd "$(dirname "${BASH_SOURCE[0]}")" && pwd)
repository=$(dirname "$here")
needs=(gate_audit gate_journal script_steps script_lines wire_bytes)

work=${WORK:-$(mktemp -d "${TMPDIR:-/tmp}/fevzurk-audit.XXXXXX")}
[ -n "${WORK:-}" ] || trap 'rm -rf "$work"' EXIT
trap 'exit 130' INT TERM

if [ ! -x "$work/audit" ]; then
    mkdir -p "$work/crates" "$work/bench"
    tar cf - -C "$repository" --exclude=out crates | tar xf - -C "$work"
    mkdir -p "$work/crates/audit_day/src"
    cp "$here/audit.rt.in" "$work/crates/audit_day/src/main.rt"
    cp "$repository/crates.txt" "$work/"
    echo "audit_day: ${needs[*]}" >> "$work/crates.txt"
    cp "$here/build-unproved.sh" "$here/near_proved.py" "$work/bench/"
    WITHOUT_CHECKS=1 "$work/bench/build-unproved.sh" audit_day "$work/audit"
fi

for orders in "${@:-20000}"; do
    "$work/audit" <<<"$orders"
    valgrind -q --tool=massif --max-snapshots=1000 --massif-out-file="$work/massif" "$work/audit" <<<"$orders" > "$work/said"
    python3 - "$work/massif" "$orders" <<'PYTHON'
import sys

heap = []
for snapshot in open(sys.argv[1]).read().split("#-----------\nsnapshot=")[1:]:
    values = dict(line.split("=", 1) for line in snapshot.split("\n") if line.startswith("mem_heap"))
    heap.append(int(values["mem_heap_B"]) + int(values["mem_heap_extra_B"]))
# the day is made where the most is given back: the core that made it, until more is taken again. The last is when all
# is let go.
drops = [before - after for before, after in zip(heap, heap[1:-1])]
made = drops.index(max(drops)) + 1
while heap[made + 1] < heap[made]:
    made += 1
print("%d bytes an order" % ((max(heap[made:]) - heap[made]) / int(sys.argv[2])))
PYTHON
done
