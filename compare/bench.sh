#!/bin/sh
# Measures the project beside the Rust, its static library too where that links,
# and writes docs/PERFORMANCE.md and docs/performance.svg from what it measured.
set -eu
cd "$(dirname "$0")"
./build.sh
sides=ours
[ "$(uname -m)" != x86_64 ] || sides="library $sides"
target/release/bench $sides > bench.txt
target/release/bench "${sides%% *}" seeded 1 3000 > seeded.txt
./performance.py bench.txt seeded.txt ../docs
