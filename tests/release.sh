#!/bin/bash
# Releases from a seed (`oracle release`): a job of functions that are well, and one function with each fault that an answer or a code of SV names. What release.sh and
# joblog tell of them is what was made. joinlog is the proved one (tools/build.sh). Its last line is 'N passed, M failed'; it exits non-zero where M is not 0.
cd "$(dirname "$0")/.." || exit 1
passed=0 failed=0 well=60
tmp=$(mktemp -d) && trap 'rm -rf "$tmp"' EXIT
oracle=oracle/target/release/oracle joblog=rust/joblog/target/release/joblog

verdict() { # NAME CMD..
  local name=$1
  shift
  if "$@" > "$tmp/out" 2>&1; then
    passed=$((passed + 1)) && echo "ok      $name"
  else
    failed=$((failed + 1)) && echo "FAILED  $name" && head -n 20 "$tmp/out"
  fi
}

build() {
  cargo build --release --offline -j2 --manifest-path rust/joblog/Cargo.toml && cargo build --release --offline -j2 --manifest-path oracle/Cargo.toml
}

made() { # SEED: jobs in $tmp/SEED/jobs, what is at fault in $tmp/SEED/told
  mkdir "$tmp/$1" && $oracle release "$1" $well "$tmp/$1/jobs" > "$tmp/$1/told"
}

ends_with() { # STATUS CMD..
  local wanted=$1 got
  shift
  "$@" && got=0 || got=$?
  [ "$got" -eq "$wanted" ] || { echo "status $got, not $wanted" && return 1; }
}

# What the report tells is what `oracle release` told that it made, `NAME RECORD ANSWER [CODE ..]`, and so are its sums
told() { # SEED
  python3 - "$tmp/$1" $well << 'END'
import json, sys
at, well = sys.argv[1], int(sys.argv[2])
lines = [json.loads(line) for line in open(at + '/report.json')]
found = {}
for f in lines:
    if f['kind'] == 'failure':
        found.setdefault((f['job'], f['record'], f['number']), []).extend([f['code']] * (f['code'] != 0))
text = sorted(' '.join(map(str, key + tuple(codes))) for key, codes in found.items())
made = sorted(open(at + '/told').read().split('\n')[:-1])
print('\n'.join(sorted(set(text) ^ set(made))))
sums = tuple(lines[-1][k] for k in ('kind', 'verdict', 'status', 'ok', 'failed', 'not_known'))
print(sums, sums == ('release', 'failed', 1, well, len(made), 0))
sys.exit(text != made or sums != ('release', 'failed', 1, well, len(made), 0))
END
}

as_made() { ends_with 1 $joblog report --json "$tmp/$1/report.json" "$tmp/$1/jobs" "$tmp/$1/logs" && told "$1"; } # SEED

without_faults() { # SEED: with the faulty functions gone, publish
  cut -d' ' -f 1 "$tmp/$1/told" | while read -r name; do rm "$tmp/$1/jobs/$name" "$tmp/$1/logs/$name.log"; done
  ends_with 0 $joblog report "$tmp/$1/jobs" "$tmp/$1/logs"
}

every_number() { # SEED: each answer but 0 and 15, each code of SV, and XP's
  local n
  for n in 1 2 3 4 5 6 7 8 9 10 11 12 13 14 16 17 18; do grep -q "^[^ ]* [0-9]* $n\$" "$tmp/$1/told" || { echo "none of $n" && return 1; }; done
  for n in 1 2 3 4 5; do grep -q "^[^ ]* [0-9]* 0.* $n\( \|\$\)" "$tmp/$1/told" || { echo "none of code $n" && return 1; }; done
}

program=$(bash tools/build.sh joinlog) || { echo "0 passed, 1 failed"; exit 1; }
verdict "builds" build
for seed in 1 2 3; do
  verdict "seed $seed: made" made $seed
  verdict "seed $seed: every answer and code" every_number $seed
  verdict "seed $seed: run" $joblog run --program "$program" "$tmp/$seed/jobs" "$tmp/$seed/logs"
  verdict "seed $seed: each fault is told, and no other" as_made $seed
done
verdict "release.sh says no" ends_with 1 ./release.sh "$tmp/1/jobs" "$tmp/by"
verdict "one seed, one release" bash -c "$oracle release 1 $well $tmp/again > $tmp/told && diff -r $tmp/again $tmp/1/jobs && diff $tmp/told $tmp/1/told"
verdict "another seed, another" bash -c "! diff -r $tmp/2/jobs $tmp/1/jobs"
verdict "a folder that is there is left alone" ends_with 2 $oracle release 1 1 "$tmp/1/jobs"
verdict "without the faulty functions it may be published" without_faults 1
echo "$passed passed, $failed failed"
[ "$failed" -eq 0 ]
