#!/usr/bin/env bash
# Rows of a cache: nanoseconds an insert, a lookup of a `WhileUsed` row and an insert that pushes one row out, at 1,000 and
# 100,000 rows, the best of five runs. The program is built first by `rt run` in crates/workbench.
# Exits with 1 where a lookup or an insert that pushes nothing out takes 5 us or more.
set -u
cd "$(dirname "$0")/../crates/workbench" || exit 2
[ -x out/workbench ] || { echo "build it first: rt run in crates/workbench" >&2; exit 2; }
missed=0
for rows in 1000 100000; do
  put=0 look=0 push=0
  for _ in 1 2 3 4 5; do
    read -r a b c < <(./out/workbench cache_rows "$rows" | sed -n 's/.* put in \([0-9]*\) us.* found in \([0-9]*\) us.* more in \([0-9]*\) us$/\1 \2 \3/p')
    [ -n "${c:-}" ] || { echo "no run told its time" >&2; exit 1; }
    if [ "$put" = 0 ] || [ "$a" -lt "$put" ]; then put=$a; fi
    if [ "$look" = 0 ] || [ "$b" -lt "$look" ]; then look=$b; fi
    if [ "$push" = 0 ] || [ "$c" -lt "$push" ]; then push=$c; fi
  done
  put=$((put * 1000 / rows)) look=$((look * 1000 / rows)) push=$((push * 1000 / 1000))
  echo "cache_rows: $rows rows, $put ns an insert, $look ns a lookup, $push ns an insert that pushes a row out"
  if [ "$put" -ge 5000 ] || [ "$look" -ge 5000 ]; then missed=1; fi
done
exit $missed
