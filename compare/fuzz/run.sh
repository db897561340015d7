#!/bin/sh
# Builds the comparison for libFuzzer and runs it:
#
#     fuzz/run.sh SECONDS [OPTION..]
#
# Starts from seeds.bin, works in fuzz/corpus, and puts an input that shows a
# difference into fuzz/found. Needs clang's runtime (Debian: libclang-rt-14-dev),
# TYPICAL_SRC, and OURS_RS with the stripped source (../ours.rs without); see ../README.md. `pack`
# as the one argument makes the corpus as small as it goes without losing
# coverage and keeps that as seeds.bin.
set -eu
cd "$(dirname "$0")"
: "${OURS_RS:=$(cd .. && pwd)/ours.rs}"
export OURS_RS

runtime=$(find /usr/lib/llvm-*/lib/clang -name "libclang_rt.fuzzer-$(uname -m).a" | sort -V | tail -n 1)
[ -n "$runtime" ] || { echo "run.sh: no libFuzzer; install libclang-rt-14-dev" >&2; exit 1; }
target=$(rustc -vV | sed -n 's/^host: //p')

RUSTFLAGS="-C passes=sancov-module -C llvm-args=-sanitizer-coverage-level=4 \
 -C llvm-args=-sanitizer-coverage-inline-8bit-counters -C llvm-args=-sanitizer-coverage-pc-table \
 -C llvm-args=-sanitizer-coverage-trace-compares" FUZZER_RUNTIME=$runtime \
    cargo build --release --target "$target"
program=target/$target/release/fuzz

mkdir -p corpus found
if [ "$1" = pack ]; then
    rm -rf smaller && mkdir smaller
    "$program" -merge=1 -max_len=1024 smaller corpus
    ./seeds.py pack smaller
    rm -rf smaller
    exit
fi
./seeds.py unpack corpus
seconds=$1
shift
exec "$program" -max_total_time="$seconds" -max_len=1024 -timeout=20 -artifact_prefix=found/ "$@" corpus
