#!/usr/bin/env bash
# Proves and builds the static library target/staticlib/libexports.a, whose calls oxml.h declares.
set -euo pipefail
cd "$(dirname "$0")/.."
(cd crates/exports_c && rt lib)
mkdir -p target/staticlib
cp crates/exports_c/out/libexports_c.a target/staticlib/libexports.a
