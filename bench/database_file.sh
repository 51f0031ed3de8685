#!/usr/bin/env bash
# Reads a database file that the keeper over SQLite wrote, by the sqlite3 shell, and compares its tables and rows with what
# was put in. The file is the one that the tests of crates/smlserver leave; they are run here without their proofs.
# Without sqlite3, or without rt, nothing is compared.
set -u
for tool in sqlite3 rt; do
  command -v "$tool" >/dev/null || { echo "database_file: skipped, $tool is not on PATH"; exit 0; }
done
folder=$(mktemp -d) || exit 2
trap 'rm -r "$folder"' EXIT
cd "$(dirname "$0")/../crates/smlserver" || exit 2
TMPDIR=$folder rt try --test >"$folder/log" 2>&1 || { tail -n 5 "$folder/log" >&2; exit 1; }

file=$folder/smlserver_test_book/guests.db
read_file() { sqlite3 "$file" "$1"; }
# a capital stands behind ^ as its small letter, and % before a name that SQLite keeps for itself
expected=$(cat <<'END'
%sqlite_schema
^b^o^o^k
^book
^order
book
table
ok
|"; drop table book
10|1
B|1
O'Hara|hi there
b|
b|2
k|v
END
)
found=$(
  read_file "select name from sqlite_schema where type = 'table' order by name"
  read_file "pragma integrity_check"
  read_file 'select k, v from book order by k'
  read_file 'select k, v from "^book" order by k'
  read_file 'select k, v from "%sqlite_schema"'
)
if [ "$found" != "$expected" ]; then
  diff <(echo "$expected") <(echo "$found")
  echo "database_file: sqlite3 reads something else" >&2
  exit 1
fi
echo "database_file: sqlite3 reads the tables and rows that were put in"
