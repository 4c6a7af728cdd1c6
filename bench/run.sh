#!/usr/bin/env bash
# Measures the hot calls that README.md lists, and prints the figures with the machine.
#
# The static library of the measured calls is no crate of the repository: it's made in a folder of its own, over a copy
# of the crates that it stands on, and removed again. Their out/ folders are copied too, so that what is proved there
# isn't proved again; in a clean clone there are none, and they are proved first.
set -euo pipefail

here=$(cd "$(dirname "${BASH_SOURCE[0]}")" && pwd)
repository=$(dirname "$here")
measured=(gate_settings fix_fields fix_framing fix_session fix_stamp fix_types fixed_point gate_core order_core ouch_codec
    session_writing soup_packets to_market tokens wire_law)
seconds_to_build=1500
seconds_to_run=120

work=$(mktemp -d "${TMPDIR:-/tmp}/fevzurk-bench.XXXXXX")
trap 'rm -rf "$work"' EXIT
trap 'exit 130' INT TERM

mkdir -p "$work/crates/bench_exports/src"
cp "$here/exports.rt.in" "$work/crates/bench_exports/src/lib.rt"
cp "$here/day.rt.in" "$work/crates/bench_exports/src/day.rt"
cp "$here/gateway.rt.in" "$work/crates/bench_exports/src/gateway.rt"
if [ -f "$repository/HANDLES" ]; then
    cp "$repository/HANDLES" "$work/"
fi
# The measured crates, and the repository's own that they stand on.
crates=("${measured[@]}")
for ((i = 0; i < ${#crates[@]}; i++)); do
    crate=${crates[i]}
    if ! line=$(grep -E "^$crate *:" "$repository/crates.txt"); then
        echo "crates.txt has no line for $crate" >&2
        exit 2
    fi
    echo "$line" >> "$work/crates.txt"
    cp -a "$repository/crates/$crate" "$work/crates/"
    for needed in ${line#*:}; do
        if [ -d "$repository/crates/$needed" ] && [[ " ${crates[*]} " != *" $needed "* ]]; then
            crates+=("$needed")
        fi
    done
done
echo "bench_exports staticlib: ${measured[*]}" >> "$work/crates.txt"

kit=$(dirname "$(dirname "$(readlink -f "$(command -v rt)")")")
started=$SECONDS
if ! (cd "$work/crates/bench_exports" && timeout "$seconds_to_build" rt lib --jobs 1) > "$work/build.log" 2>&1; then
    tail -n 30 "$work/build.log" >&2
    echo "the static library wasn't built" >&2
    exit 1
fi
echo "proved and built in $((SECONDS - started)) s"
"${CC:-cc}" -O2 -Wall -Wextra -o "$work/harness" "$here/harness.c" \
    "$work/crates/bench_exports/out/libbench_exports.a" "$kit/c/liblibc_c.a"
timeout "$seconds_to_run" "$work/harness"
echo "$(nproc) processors, $(sed -n 's/^model name[^:]*: //p' /proc/cpuinfo | head -n 1), $(rt version)"
