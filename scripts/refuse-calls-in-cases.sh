#!/usr/bin/env bash
# Refuses each request for memory, or each read and write, of a built program in turn, and says what became of its run.
#
#     scripts/refuse-calls-in-cases.sh [PROGRAM [INPUT]]
#
# PROGRAM is sessions, which is meant where none is named and is wire_cases with its section of sessions, wire_cases, link_cases, gate_script, gate_cases,
# which undoes each step of the script INPUT and makes it again, ring, which is gate_cases that fills a client's ring, or gateway, which audits the script INPUT.
# From the environment KIND says which calls: with `memory`, which is meant where none is said, run N of the program refuses its Nth malloc or realloc, and no
# other; with `io` its Nth read or write fails; with `short` its Nth read or write of several bytes moves one of them. sessions makes a session's
# call again where it answers that memory is wanting, gate_cases a step of the whole core, ring a turn of the desk and its end. So a run may
#
#   end as without a refusal        what was wanting was asked again, or wasn't needed: "the same"; with `short` each run has to
#   end with status 1 and words     memory was wanting, or a read or write failed: "reported". What it printed has no case that is wrong, and of
#                                   gate_script and gateway is the beginning of what it prints otherwise, and in whole lines where memory was
#                                   wanting. A read that fails may be that of the script itself: status 2 and the script's name
#   do anything else                "wrong"
#
# INPUT is the program's input, the crate's stdin (of gateway data/day.script, of gate_cases the script of the last case) where none is named. `rt run` in
# the crate's folder has to have built the program. It needs a C compiler, and a program that is linked with the C library as a shared one.
# From the environment too: AT_MOST (the last N, 100000). Exit status: 0 nothing was wrong, 1 something was, 2 nothing was judged.
set -euo pipefail

repository=$(dirname "$(cd "$(dirname "${BASH_SOURCE[0]}")" && pwd)")
name=${1:-sessions}
crate=$name
case $name in
    sessions) crate=wire_cases ;;
    ring) crate=gate_cases ;;
esac
program=$repository/crates/$crate/out/$crate
words=()
cases=${2:-$repository/crates/$crate/stdin}
if [ "$name" = gateway ]; then
    cases=${2:-$repository/crates/gateway/data/day.script}
    words=(audit --script "$cases")
fi
case_script() {
    awk '/^(case|==) /{ is_meant = /^case the script for refused requests for memory: / } is_meant && !/^(case|--|->)/' "$repository/crates/gate_cases/stdin"
}
at_most=${AT_MOST:-100000}
kind=${KIND:-memory}
if [ ! -x "$program" ]; then
    echo "build the program first: rt run in crates/$crate" >&2
    exit 2
fi

work=$(mktemp -d "${TMPDIR:-/tmp}/refuse-calls-in-cases.XXXXXX")
trap 'rm -rf "$work"' EXIT
trap 'exit 130' INT TERM

if [ "$name" = ring ] && [ -z "${2:-}" ]; then
    cases=$work/ring
    sed -n '/^== desk$/,/^end$/p' "$repository/crates/gate_cases/stdin" > "$cases"
fi
if [ "$name" = sessions ] && [ -z "${2:-}" ]; then
    cases=$work/sessions
    sed -n '/^== sessions$/,/^== ports$/p' "$repository/crates/wire_cases/stdin" > "$cases"
fi
if [ "$name" = gate_cases ]; then
    words=(again)
    if [ -z "${2:-}" ]; then
        cases=$work/script
        case_script > "$cases"
    fi
fi

cat > "$work/refuse.c" <<'C'
#define _GNU_SOURCE
#include <dlfcn.h>
#include <errno.h>
#include <stddef.h>
#include <stdlib.h>
#include <string.h>
#include <sys/syscall.h>
#include <unistd.h>

// Refuses the REFUSED-th call of this KIND, and says so on file descriptor 9.
static int is_refused(const char *kind) {
    static long left = -1;
    static const char *refused_kind;
    if (left < 0) {
        const char *text = getenv("REFUSED");
        refused_kind = getenv("KIND");
        left = text == NULL || refused_kind == NULL ? 0 : atol(text);
    }
    if (left > 0 && strcmp(kind, refused_kind) == 0 && --left == 0) {
        return syscall(SYS_write, 9, "refused\n", 8) == 8;
    }
    return 0;
}

void *malloc(size_t size) {
    static void *(*next)(size_t);
    if (next == NULL) {
        next = (void *(*)(size_t))dlsym(RTLD_NEXT, "malloc");
    }
    return is_refused("memory") ? NULL : next(size);
}

void *realloc(void *pointer, size_t size) {
    static void *(*next)(void *, size_t);
    if (next == NULL) {
        next = (void *(*)(void *, size_t))dlsym(RTLD_NEXT, "realloc");
    }
    return is_refused("memory") ? NULL : next(pointer, size);
}

// What is left of so many bytes, or -1 where the call fails.
static long allowed(size_t size) {
    if (is_refused("io")) {
        errno = EIO;
        return -1;
    }
    return size > 1 && is_refused("short") ? 1 : (long)size;
}

ssize_t read(int file, void *bytes, size_t size) {
    long count = allowed(size);
    return count < 0 ? -1 : syscall(SYS_read, file, bytes, count);
}

ssize_t write(int file, const void *bytes, size_t size) {
    long count = allowed(size);
    return count < 0 ? -1 : syscall(SYS_write, file, bytes, count);
}
C
"${CC:-cc}" -O2 -shared -fPIC -o "$work/refuse.so" "$work/refuse.c" -ldl

# Whether what was shown is a beginning of what is wanted.
is_beginning() {
    head -c "$(stat -c %s "$work/shown")" "$work/wanted" | cmp -s - "$work/shown"
}

# Whether it ended as it may: the want of memory was told, and whole lines were shown; or the failed call was told, unless that was the failed call.
is_reported() {
    case $kind in
        memory)
            [ "$status" -eq 1 ] && [ -s "$work/words" ] && ! grep -q WRONG "$work/shown" || return 1
            [[ "$name" = gate* ]] || return 0
            is_beginning && [[ "$(cat "$work/words")" = "out of memory"* ]] && [ -z "$(tail -c 1 "$work/shown")" ]
            return
            ;;
        io)
            is_beginning || return 1
            # what failed was to tell why it ended
            if [ "$status" -eq "$ends" ] && [ "$ends" -ne 0 ] && cmp -s "$work/shown" "$work/wanted" && [[ "$words_wanted" = "$(cat "$work/words")"* ]]; then
                return 0
            fi
            case $status:$(cat "$work/words") in
                "1:read or write failed" | "1:Error: Os "* | "2:gateway: cannot read $cases" | 1: | 2:) return 0 ;;
            esac
            return 1
            ;;
    esac
    return 1
}

ends=0
"$program" "${words[@]}" < "$cases" > "$work/wanted" 2> "$work/words" || ends=$?
words_wanted=$(cat "$work/words")
same=0
reported=0
wrong=0
for ((n = 1; n <= at_most; n++)); do
    status=0
    KIND=$kind REFUSED=$n LD_PRELOAD=$work/refuse.so "$program" "${words[@]}" < "$cases" > "$work/shown" 2> "$work/words" 9> "$work/mark" || status=$?
    if [ ! -s "$work/mark" ]; then
        break
    fi
    if [ "$status" -eq "$ends" ] && cmp -s "$work/shown" "$work/wanted" && [ "$(cat "$work/words")" = "$words_wanted" ]; then
        same=$((same + 1))
    elif is_reported; then
        reported=$((reported + 1))
    else
        wrong=$((wrong + 1))
        echo "call $n: status $status: $(head -c 200 "$work/words")"
        diff "$work/wanted" "$work/shown" | head -n 5 || true
    fi
done
if [ -s "$work/mark" ]; then
    echo "no end by call $at_most"
fi
echo "$kind: $((n - 1)) calls, each refused once: $same the same, $reported reported, $wrong wrong"
if [ "$wrong" -gt 0 ]; then
    exit 1
fi
