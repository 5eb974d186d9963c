#!/usr/bin/env bash
# Builds the program `replay` and shows a call list with its answers: run.sh [LIST]
# The list is a year's edits of a small register where none is given. docs/CALLS.md has the format of a list.
set -euo pipefail
here=$(cd "$(dirname "$0")" && pwd)
list=$(realpath "${1:-$here/reference/lists/year.calls}")
cd "$here"
if [ ! -x target/bin/replay ]; then
    (cd crates/replay && rt run </dev/null)
    mkdir -p target/bin
    cp crates/replay/out/replay target/bin/replay
fi
# Each call stands before its answer; a dump has several lines, the last of them `end`.
target/bin/replay <"$list" | awk -v list="$list" '
    BEGIN {
        while ((getline call < list) > 0) {
            if (call == "" || call ~ /^#/) { print call; continue }
            if ((getline answer) <= 0) exit 1
            print call "  ->  " answer
            if (call == "dump") while (answer != "end" && (getline answer) > 0) print answer
        }
    }'
