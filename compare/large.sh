#!/bin/sh
# The large comparison: the kept lists, names, all short lists, the special
# tables, and then so many random tables in one run; on x86-64 the last three
# through the static library too:
#
#     ./large.sh [CASES [SEED]]       4,000,000 and 1 without: some 5,300,000 tables, with the damaged schemas
#
# THREADS sets the number of threads. Fails at the first part with a difference.
set -eu
cd "$(dirname "$0")"
./build.sh
diff=target/release/diff
sides=ours
[ "$(uname -m)" != x86_64 ] || sides="$sides library"
"$diff" ours lists ..
"$diff" ours names "${2:-1}" 200000
for side in $sides; do
    "$diff" "$side" special
    "$diff" "$side" short
    "$diff" "$side" seeded "${2:-1}" "${1:-4000000}"
done
