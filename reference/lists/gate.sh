#!/usr/bin/env bash
# Writes what the gate runs `replay` on, and what it must answer: every list here, one behind the other, each on a fresh document.
# A list's answers are the Rust's; those of a list in own/, whose calls the Rust answers otherwise, stand behind the calls as "#= ..".
# Only the numbers of the lines that are no calls grow by the lines before the list.
set -euo pipefail
cd "$(dirname "$0")"
to=../../crates/replay
: >"$to/stdin"
: >"$to/stdout"

answers() { # LIST
    case $1 in
        own/*) sed -n 's/^#= //p' "$1" ;;
        *) cat "${1%.calls}.answers" ;;
    esac
}

for list in *.calls own/*.calls; do
    echo fresh >>"$to/stdin"
    echo ok >>"$to/stdout"
    before=$(wc -l <"$to/stdin")
    cat "$list" >>"$to/stdin"
    answers "$list" | awk -v before="$before" '/^\? [0-9]+$/ { print "? " $2 + before; next } { print }' >>"$to/stdout"
done
