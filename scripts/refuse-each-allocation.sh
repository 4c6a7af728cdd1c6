#!/usr/bin/env bash
# Refuses each request for memory of a crate's tests in turn, and says what the tests made of it.
#
#     scripts/refuse-each-allocation.sh CRATE [TEST_FILTER]
#
# Run N refuses the Nth request of each test, counted in the test's own process, and no other. A test may then
#
#   pass with other words than without a refusal    it met the refusal, and accepts the report: "reported"
#   fail by an error that says memory ran out       it met the refusal, and is written for the right answer alone: "reported"
#   pass with the same words                        it did without that memory, or had no Nth request: "the same"
#   fail by an error that says "nothing was refused"    its last request was refused, the one that marks the end
#   do anything else                                a crash, no end, or another answer: "wrong"
#
# A test tells exactly how many requests it makes where it asks for memory once more at its end, and returns an error
# with the words "nothing was refused" if that is refused. For a test that doesn't, the loop ends after QUIET runs in a
# row with the same words, so a test that passes either way should print which way it went.
#
# The tests run on a copy of the sources, so that an edit meanwhile mixes nothing. Nothing is proved.
#
# From the environment: AT_MOST (the last N, 1000), QUIET (5), SIDE_BY_SIDE (runs at once, 1), SECONDS_EACH (60).
# Exit status: 0 all tests kept their answer at each refusal, 1 one went wrong, 2 nothing was judged,
# 3 the end was not found, or no refusal showed in a test that TEST_FILTER chose.
set -euo pipefail

if [ $# -lt 1 ] || [ $# -gt 2 ]; then
    echo "usage: $0 CRATE [TEST_FILTER]" >&2
    exit 2
fi
crate=$1
filter=${2-}
at_most=${AT_MOST:-1000}
quiet=${QUIET:-5}
side_by_side=${SIDE_BY_SIDE:-1}
seconds_each=${SECONDS_EACH:-60}
memory_words='AllocError|AllocFailed|NoMemory|OutOfMemory|[Oo]ut of memory|memory allocation failed|[Mm]emory ran out|[Nn]o memory'
end_words='nothing was refused'

repository=$(dirname "$(cd "$(dirname "${BASH_SOURCE[0]}")" && pwd)")
if [ ! -d "$repository/crates/$crate/src" ]; then
    echo "there is no crate $crate" >&2
    exit 2
fi

work=$(mktemp -d "${TMPDIR:-/tmp}/refuse-each-allocation.XXXXXX")
trap 'rm -rf "$work"' EXIT
trap 'exit 130' INT TERM

if [ -f "$repository/HANDLES" ]; then
    cp "$repository/HANDLES" "$work/"
fi
while read -r line; do
    name=${line%%[ :]*}
    if [ -d "$repository/crates/$name/src" ]; then
        echo "$line" >> "$work/crates.txt"
    fi
done < <(grep '^[a-z]' "$repository/crates.txt")
(cd "$repository" && tar -cf - --exclude='crates/*/out' crates) | tar -xf - -C "$work"
if ! grep -q "^$crate[ :]" "$work/crates.txt"; then
    echo "crates.txt has no line for $crate" >&2
    exit 2
fi

# run N: the tests with the Nth request refused, into the file N; 0 refuses none.
run() {
    local flags=(--test --seconds "$seconds_each")
    if [ "$1" -gt 0 ]; then
        flags+=(--fail-alloc "$1")
    fi
    if [ -n "$filter" ]; then
        flags+=(-- "$filter")
    fi
    (cd "$work/crates/$crate" && rt try "${flags[@]}") > "$work/$1" 2> "$work/$1.log" || true
}

# Of a run's file: the tests' names · one test's verdict, ok or FAILED · one test's words.
names() { sed -n 's/^test \([^ ]*\) \.\.\. .*/\1/p' "$work/$1"; }
verdict() { awk -v name="$2" '$1 == "test" && $2 == name && $3 == "..." { print $4; exit }' "$work/$1"; }
words() {
    awk -v name="$2" '
        $1 == "test" && $3 == "..." && /^test / { inside = ($2 == name); next }
        /^test result:/ { inside = 0 }
        inside { print }' "$work/$1"
}

# outcome N NAME: the same, reported, end or wrong.
outcome() {
    local said
    said=$(words "$1" "$2")
    if [ "$(verdict "$1" "$2")" = ok ]; then
        if [ "$said" = "$(words 0 "$2")" ]; then
            echo same
        else
            echo reported
        fi
    elif ! grep -q 'the test failed: its result gives status' <<< "$said"; then
        echo wrong
    elif grep -Eq "^ *error: .*($end_words)" <<< "$said"; then
        echo end
    elif grep -Eq "^ *error: .*($memory_words)" <<< "$said"; then
        echo reported
    else
        echo wrong
    fi
}

stop_unless_judged() {
    if ! grep -q '^test result:' "$work/$1"; then
        cat "$work/$1" "$work/$1.log" >&2
        echo "the tests didn't run" >&2
        exit 2
    fi
}

run 0
stop_unless_judged 0
mapfile -t tests < <(names 0)
if [ ${#tests[@]} -eq 0 ]; then
    echo "no test is chosen" >&2
    exit 2
fi
for test in "${tests[@]}"; do
    if [ "$(verdict 0 "$test")" != ok ]; then
        cat "$work/0" >&2
        echo "$test fails where nothing is refused" >&2
        exit 2
    fi
done

declare -A going reported same wrong last_shown
for test in "${tests[@]}"; do
    going[$test]=1
    reported[$test]=0
    same[$test]=0
    wrong[$test]=0
    last_shown[$test]=0
done
status=0
set_status() {
    if [ "$status" -ne 1 ]; then
        status=$1
    fi
}

judge() {
    local n=$1 test
    for test in "${tests[@]}"; do
        if [ -z "${going[$test]-}" ]; then
            continue
        fi
        case $(outcome "$n" "$test") in
        same)
            same[$test]=$((same[$test] + 1))
            if [ $((n - last_shown[$test])) -ge "$quiet" ] && ! tells_its_end "$test"; then
                unset "going[$test]"
                if [ "${last_shown[$test]}" -gt 0 ]; then
                    echo "$test: no refusal shows past request ${last_shown[$test]}: ${reported[$test]} reported, $((same[$test] - quiet)) with the same answer, ${wrong[$test]} wrong"
                else
                    echo "$test: no refusal shows: it takes no memory, or says nothing of it"
                    if [ -n "$filter" ]; then
                        set_status 3
                    fi
                fi
            fi
            ;;
        reported)
            reported[$test]=$((reported[$test] + 1))
            last_shown[$test]=$n
            ;;
        end)
            unset "going[$test]"
            echo "$test: $((n - 1)) requests, each refused once: ${reported[$test]} reported, ${same[$test]} with the same answer, ${wrong[$test]} wrong"
            ;;
        wrong)
            last_shown[$test]=$n
            wrong[$test]=$((wrong[$test] + 1))
            status=1
            echo "$test: WRONG at request $n:"
            words "$n" "$test" | awk 'NR <= 20'
            ;;
        esac
    done
}

# The functions of the crate in whose bodies an extended expression matches.
functions_with() {
    find "$work/crates/$crate/src" -name '*.rt' -exec cat {} + | awk -v wanted="$1" '
        /^ *(pub )?fn / { name = $0; sub(/^ *(pub )?fn /, "", name); sub(/[^A-Za-z0-9_].*/, "", name); next }
        /^}/ { name = "" }
        name != "" && $0 ~ wanted { print name }' | sort -u
}

# Whether a test marks its end, by itself or in a function that it calls.
tells_its_end() { grep -qx "${1##*::}" <<< "$marked"; }

marked=$(functions_with "$end_words")
if [ -n "$marked" ]; then
    marked=$(functions_with "$end_words|($(paste -sd '|' <<< "$marked"))[(]")
fi

n=0
while [ ${#going[@]} -gt 0 ] && [ "$n" -lt "$at_most" ]; do
    batch=()
    while [ ${#batch[@]} -lt "$side_by_side" ] && [ "$n" -lt "$at_most" ]; do
        n=$((n + 1))
        batch+=("$n")
        run "$n" &
    done
    wait
    for each in "${batch[@]}"; do
        stop_unless_judged "$each"
        judge "$each"
        rm -f "$work/$each" "$work/$each.log"
    done
done
for test in "${!going[@]}"; do
    echo "$test: no end by request $at_most"
    set_status 3
done
exit "$status"
