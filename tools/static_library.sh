#!/usr/bin/env bash
# Proves the exports, with all below them, and leaves the archive for C callers under its name: target/staticlib/libsort_placement.a.
set -eu
cd "$(dirname "$0")/../crates/sort_placement_c"
rt lib
mkdir -p ../../target/staticlib
cp out/libsort_placement_c.a ../../target/staticlib/libsort_placement.a
