#!/usr/bin/env bash
# Small requests one behind the other through a connection in memory: requests a second, and the times of 1/4, 1/2 and 1 MiB
# of them where each read gives one byte. Each figure is the best of five runs.
# The program is built first by `rt run` in crates/workbench.
set -u
cd "$(dirname "$0")/../crates/workbench" || exit 2
requests=${1:-500000}
[ -x out/workbench ] || { echo "build it first: rt run in crates/workbench" >&2; exit 2; }

# The microseconds of the best of five runs of a load with a count.
best_of() {
  local best=0 micros
  for _ in 1 2 3 4 5; do
    micros=$(./out/workbench "$1" "$2" | sed -n 's/.*, \([0-9]*\) us$/\1/p')
    if [ -n "$micros" ] && { [ "$best" = 0 ] || [ "$micros" -lt "$best" ]; }; then best=$micros; fi
  done
  [ "$best" != 0 ] || { echo "no run told its time" >&2; exit 1; }
  echo "$best"
}

micros=$(best_of serving "$requests") || exit 1
echo "serving: $requests requests in $micros us, $((requests * 1000000 / micros)) requests a second"
for kib in 256 512 1024; do
  micros=$(best_of serving_bytes $((kib * 32))) || exit 1
  echo "serving_bytes: $kib KiB byte by byte in $micros us, $((micros * 1000 / kib / 1024)) ns a byte"
done
