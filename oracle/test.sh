#!/bin/bash
# The Rust side: upstream unchanged, both builds, the tests under both maps, the stored lists made again. Where rt or
# PONGIWARU_LIB, an archive, is at hand: the engine beside core.rs, damaged records and states, traps.
# `test.sh --quick`: upstream, the build, and 2,000 jobs beside core.rs, alone.
# Its last line is 'N passed, M failed'; it exits non-zero where M is not 0.
cd "$(dirname "$0")" || exit 1
passed=0 failed=0
tmp=$(mktemp -d) && trap 'rm -rf "$tmp"' EXIT

step() { # NAME CMD..
  local name=$1
  shift
  if "$@" > "$tmp/out" 2>&1; then
    passed=$((passed + 1)) && echo "ok      $name"
  else
    failed=$((failed + 1)) && echo "FAILED  $name" && tail -n 40 "$tmp/out"
  fi
}

tests() { # NAME ARGS..: each test counts
  local name=$1
  shift
  cargo test --release --offline -j1 "$@" > "$tmp/out" 2>&1 || tail -n 60 "$tmp/out"
  local p f
  p=$(grep -c '^test .* \.\.\. ok$' "$tmp/out") f=$(grep -c '^test .* \.\.\. FAILED$' "$tmp/out")
  [ $((p + f)) -gt 0 ] || f=1
  passed=$((passed + p)) failed=$((failed + f))
  echo "$p of $((p + f))  $name"
}

made_again() { # the replay list and what is made from it are what is stored
  ./replay.sh > "$tmp/list" && cmp replay.list "$tmp/list" && python3 ../tools/jobs.py antt --check
}

edges_again() { # the edges' jobs and what they print are what is stored
  cargo build --release --offline -j1 --manifest-path ../rust/joblog/Cargo.toml && python3 ../tools/edges.py --check
}

altered() { # a changed answer is seen
  sed '0,/^7 0 /s//7 1 /' replay.list > "$tmp/altered" && ! cmp -s replay.list "$tmp/altered" || return 1
  ! target/release/oracle check "$tmp/altered"
}

archive() { # the engine's functions, proved, in ../crates/exports/out
  if [ -n "$PONGIWARU_LIB" ]; then [ -f "$PONGIWARU_LIB" ]; else bash ../tools/build.sh exports; fi
}

found() { # WHAT [PROFILE]: an answer of the engine's side, altered, is found and the job made small
  target/release/oracle compare 1 500 --alter="$1" ${2:+--profile="$2"} > "$tmp/found"
  [ $? -eq 1 ] && grep -q '^DISAGREEMENT' "$tmp/found"
}

beside() { step "2,000 jobs beside core.rs" target/release/oracle compare 1 2000; }

with_engine() {
  beside
  for what in number payload binding mark constraint reading count told spelled missing code pair kept link left moved unmarked copied line slow spoken unwritten behind fifth; do step "altered: $what" found $what; done
  step "the slow engine" target/release/oracle twice 1 500
  step "pairs" target/release/oracle many
  step "2,000 jobs with pairs" target/release/oracle compare 1 2000 --profile=pairs
  step "clearings" target/release/oracle keep 1 2000
  step "2,000 jobs with clearings" target/release/oracle compare 1 2000 --profile=kept
  step "spellings" target/release/oracle spelled 1 300
  step "altered: need" found need numbers
  step "2,000 jobs with literals" target/release/oracle compare 1 2000 --profile=numbers
  step "damaged needs" target/release/oracle damage needs 1 3
  step "needs anywhere" target/release/oracle damage literals 1 100
  step "damaged records" target/release/oracle damage records 1 50
  step "damaged states" target/release/oracle damage states 1 2
  step "damaged at several places" target/release/oracle damage wild 1 100
  step "traps" target/release/oracle traps
}

if [ -n "$PONGIWARU_LIB" ] || { command -v rt && grep -q '^exports ' ../crates.txt; } > /dev/null; then
  engine=yes && step "the engine's archive" archive
else
  engine=no && echo "without the engine: neither rt nor PONGIWARU_LIB"
fi
step "upstream unchanged" sh -c 'cd upstream && sha256sum -c ../upstream.sha256'
step "build, ordered map" cargo build --release --offline -j1
if [ "${1-}" = --quick ]; then
  beside
  echo "$passed passed, $failed failed"
  [ "$failed" -eq 0 ]
  exit
fi
step "build, real map" cargo build --release --offline -j1 --features hashmap --target-dir target/hashmap
tests "tests, ordered map"
tests "tests, real map" --features hashmap --target-dir target/hashmap
step "replay list made again" made_again
step "edges made again" edges_again
step "an altered answer is found" altered
[ $engine = no ] || with_engine
echo "$passed passed, $failed failed"
[ "$failed" -eq 0 ]
