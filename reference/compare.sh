#!/usr/bin/env bash
# Compares a program with the Rust: compare.sh PROGRAM SEEDS COUNT
#   PROGRAM  a command that reads a call list and writes its answers
#   SEEDS    a number, for the seeds 1 to it, or FIRST-LAST
#   COUNT    calls a list; there is one list for each seed and profile
# Stops at the first difference, says where, and keeps that list and both answers in target/compare.
set -euo pipefail
if [ $# -ne 3 ]; then
    sed -n '2,6s/^# //p' "$0" >&2
    exit 2
fi
program=$1 first=1 last=$2 count=$3
if [[ $last == *-* ]]; then
    first=${last%-*} last=${last#*-}
fi
here=$(cd "$(dirname "$0")" && pwd)
programs=$here/target/release
kept=$here/target/compare
mkdir -p "$kept"
# A loop over the names of no profile would compare nothing and end well.
profiles=$("$programs/generate")

compare() { # SEED PROFILE
    local list=$kept/$2-$1.calls
    "$programs/generate" "$1" "$count" "$2" >"$list"
    "$programs/reference" <"$list" >"$list.reference"
    if ! sh -c "$program" <"$list" >"$list.program" || ! cmp -s "$list.reference" "$list.program"; then
        echo "$program differs from the Rust on $list" >&2
        diff "$list.reference" "$list.program" | head -n 5 >&2 || true
        exit 1
    fi
    calls=$((calls + $(grep -c -v -e '^#' -e '^$' "$list")))
    rm "$list" "$list.reference" "$list.program"
}

calls=0
for ((seed = first; seed <= last; seed++)); do
    for profile in $profiles; do
        compare "$seed" "$profile"
    done
done
echo "$calls calls without a difference"
