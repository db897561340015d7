#!/bin/sh
# Strips the project's own source of its contracts and builds everything with
# it; on x86-64 with the static library too, which needs Rattle's toolchain.
# Needs what README.md's "Set up" names.
set -eu
cd "$(dirname "$0")"
./strip.py ours.rs names reader writer
features=diff/ours
if [ "$(uname -m)" = x86_64 ]; then
    (cd ../crates/typical && rt lib)
    LIBRARY_A=$(cd .. && pwd)/crates/typical/out/libtypical.a
    export LIBRARY_A
    features=$features,diff/library
fi
OURS_RS=$PWD/ours.rs cargo build --release --features "$features"
