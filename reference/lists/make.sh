#!/usr/bin/env bash
# Makes the generated lists and the answers of all lists here anew. examples, refusals, limits, either-order and year are written by hand,
# and so are those of own/ with their answers.
set -euo pipefail
cd "$(dirname "$0")"
programs=../target/release
for profile in $("$programs/generate"); do
    "$programs/generate" 7 260 "$profile" >"$profile.calls"
done
for list in *.calls; do
    "$programs/reference" --check <"$list" >"${list%.calls}.answers"
done
