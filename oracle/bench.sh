#!/bin/bash
# The engine beside core.rs with its real map: times, and where valgrind is at hand instructions for a record.
# bench.sh [RUNS]; docs/BENCHMARKS.md says what the lines mean.
# bench.sh costs [RUNS] measures docs/costs.tsv anew and draws it, in some two minutes.
cd "$(dirname "$0")" || exit 1
cargo build --release --offline -j1 --features hashmap --target-dir target/hashmap || exit 1
oracle=target/hashmap/release/oracle
if [ "${1-}" = costs ]; then
  measured=$(mktemp) && trap 'rm -f "$measured"' EXIT
  $oracle bench costs "${2:-400}" > "$measured" && cat "$measured" > ../docs/costs.tsv && ../tools/costs.py
  exit
fi
$oracle bench "${1:-200}" || exit 1
command -v valgrind > /dev/null || exit 0

echo "instructions a record:"
for work in small middle large short body-10 body-100 body-1000; do
  line="  $work:"
  for side in engine-fresh engine-zeroed engine-records core-copy form-copy core form; do
    case $work-$side in body-*-core | body-*-form) continue ;; esac
    out=$(valgrind --tool=callgrind --callgrind-out-file=/dev/null --toggle-collect='oracle_timed*' \
      $oracle bench once $work $side 2 2>&1) || exit 1
    records=$(awk '/ records$/ { print $1 }' <<< "$out")
    line="$line $side $(awk -v n="$records" '/Collected/ { printf "%d", $4 / (2 * n) }' <<< "$out")"
  done
  echo "$line"
done

# four calls a row, without its records and with them, on each of two states: the differences, shared among the records
dumps=$(mktemp -d) && trap 'rm -rf "$dumps"' EXIT
rows=$(valgrind --tool=callgrind --callgrind-out-file="$dumps/call" --toggle-collect=oracle_timed_more \
  --dump-after=oracle_timed_more $oracle bench marks 2> /dev/null) || exit 1
echo "instructions by mark, on both states, and the difference:"
call=0
while IFS=$'\t' read -r records name; do
  counts=$(for i in 1 2 3 4; do sed -n 's/^totals: //p' "$dumps/call.$((call + i))"; done)
  awk -v n="$records" -v name="$name" '{ c[NR] = $1 }
    END { a = (c[2] - c[1]) / n; b = (c[4] - c[3]) / n; printf "  %-20s%8d%8d%+8d\n", name, a, b, b - a }' <<< "$counts"
  call=$((call + 4))
done <<< "$rows"
