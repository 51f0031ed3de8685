#!/usr/bin/env bash
# Ten million pairs of alloc and get over a store in pages: pairs a second, the best of five runs.
# The program is built first by `rt run` in crates/workbench.
set -u
cd "$(dirname "$0")/../crates/workbench" || exit 2
pairs=${1:-10000000}
[ -x out/workbench ] || { echo "build it first: rt run in crates/workbench" >&2; exit 2; }
best=0
for _ in 1 2 3 4 5; do
  micros=$(./out/workbench region_store "$pairs" | sed -n 's/.*, \([0-9]*\) us$/\1/p')
  if [ -n "$micros" ] && { [ "$best" = 0 ] || [ "$micros" -lt "$best" ]; }; then best=$micros; fi
done
[ "$best" != 0 ] || { echo "no run told its time" >&2; exit 1; }
echo "region_store: $pairs pairs in $best us, $((pairs * 1000000 / best)) pairs a second"
