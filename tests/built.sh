#!/usr/bin/env bash
# Sees to what the tests, ./merge and the timings run: crates/NAME/out/NAME of the programs that are named (of all seven where none is), and the static
# library crates/narguvesh_c/out/libnarguvesh_c.a under the name narguvesh_c. `rt ci` leaves the programs there; what is not there or is older than a
# source is proved and made.
set -u
cd "$(dirname "$0")/.." || exit 1
[ $# -gt 0 ] || set -- narguvesh batch texts sheets manifests events trials narguvesh_c
log=$(mktemp) || exit 1
trap 'rm -f "$log"' EXIT

# The file is there, and none of its sources is newer.
fresh() { # FILE
    [ -f "$1" ] && [ -z "$(find crates.txt crates -type f -not -path '*/must-fail/*' -not -path '*/out/*' -newer "$1" -print -quit)" ]
}

for name in "$@"; do
    made=crates/$name/out/$name
    [ "$name" != narguvesh_c ] || made=crates/$name/out/lib$name.a
    fresh "$made" && continue
    rm -f "$made"
    # (rt runs a program that it made; how that run ends is not looked at here)
    if [ "$name" = narguvesh_c ]; then (cd "crates/$name" && rt lib); else (cd "crates/$name" && rt run); fi </dev/null >"$log" 2>&1
    if [ ! -f "$made" ]; then
        tail -20 "$log"
        echo "$made is not made"
        exit 1
    fi
    touch "$made"
done
