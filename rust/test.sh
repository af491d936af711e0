#!/bin/bash
# The Rust crates: layout, clippy, tests. pongiwaru's over the proved engine (tools/build.sh), or the archive that PONGIWARU_LIB names.
# Its last line is 'N passed, M failed'; it exits non-zero where M is not 0.
cd "$(dirname "$0")" || exit 1
passed=0 failed=0
tmp=$(mktemp -d) && trap 'rm -rf "$tmp"' EXIT

step() { # NAME CMD..
  local name=$1
  shift
  if "$@" > "$tmp/out" 2>&1; then
    passed=$((passed + 1)) && echo "ok      $name"
  else
    failed=$((failed + 1)) && echo "FAILED  $name" && tail -n 40 "$tmp/out"
  fi
}

tests() { # CRATE: each test counts
  cargo test --release --offline -j2 --manifest-path "$1/Cargo.toml" > "$tmp/out" 2>&1 || tail -n 60 "$tmp/out"
  local p f
  p=$(grep -c '^test .* \.\.\. ok$' "$tmp/out") f=$(grep -c '^test .* \.\.\. FAILED$' "$tmp/out")
  [ $((p + f)) -gt 0 ] || f=1
  passed=$((passed + p)) failed=$((failed + f))
  echo "$p of $((p + f))  $1's tests"
}

without_archive() { # a sentence, and nothing built
  ! PONGIWARU_LIB=$tmp/none cargo build --offline --manifest-path pongiwaru/Cargo.toml --target-dir "$tmp/target" > "$tmp/said" 2>&1 &&
    grep -q 'no archive at .*tools/build.sh exports' "$tmp/said"
}

beside() { # EXPRESSION WORDS CARGO..: over a pongiwaru.h that sed changes so, cargo fails and says these words
  local expression=$1 words=$2
  shift 2
  mkdir -p "$tmp/crates/exports" "$tmp/crates/joinlog" "$tmp/rust" && tar -c --exclude=target joblog pongiwaru | tar -x -C "$tmp/rust"
  cp ../crates/joinlog/std* "$tmp/crates/joinlog"
  sed "$expression" ../crates/exports/pongiwaru.h > "$tmp/crates/exports/pongiwaru.h"
  ! cmp -s ../crates/exports/pongiwaru.h "$tmp/crates/exports/pongiwaru.h" || return 1
  ! cargo "$@" --offline --manifest-path "$tmp/rust/pongiwaru/Cargo.toml" > "$tmp/said" 2>&1 && grep -q "$words" "$tmp/said"
}

# The report's page, drawn by a browser, its filter at work: a function fails, one is well. SHOT names a file for the picture.
page() {
  local dir=$tmp/page job shot=${SHOT-$tmp/page.png} browser=("$1" --headless --no-sandbox --disable-gpu --user-data-dir="$tmp/browser")
  mkdir -p "$dir/jobs" "$dir/logs" && job=joblog/target/release/joblog && cargo build -q --release --offline --manifest-path joblog/Cargo.toml || return 1
  echo 'JN vector<u8@1>@2, vector<bool@3>@4' | $job asm > "$dir/jobs/bad" && echo '0 2 0301000000000203030000000006' > "$dir/logs/bad.log"
  echo 'JN u8@1, u8@2' | $job asm > "$dir/jobs/well" && echo '0 0 03020000000002' > "$dir/logs/well.log"
  $job report --html "$dir/page.html" "$dir/jobs" "$dir/logs"
  [ $? -eq 1 ] || return 1
  timeout 60 "${browser[@]}" --screenshot="$shot" --window-size=1200,900 "file://$dir/page.html" && [ "$(wc -c < "$shot")" -gt 10000 ] || return 1
  shown '' '2 of 2' && shown '#mark=JN' '1 of 2' && shown '#text=nowhere' '0 of 2' && shown '#verdict=ok' '1 of 2'
}
shown() { # with this behind the page's address, so many functions
  timeout 60 "${browser[@]}" --dump-dom "file://$dir/page.html$1" 2> /dev/null | grep -q ">$2 functions shown<"
}

if [ -z "${PONGIWARU_LIB-}" ]; then
  PONGIWARU_LIB=$(bash ../tools/build.sh exports) || { echo "0 passed, 1 failed"; exit 1; }
fi
export PONGIWARU_LIB
for crate in joblog pongiwaru; do
  step "$crate: layout" cargo fmt --check --manifest-path $crate/Cargo.toml
  step "$crate: clippy" cargo clippy -q --release --offline --all-targets --manifest-path $crate/Cargo.toml -- -D warnings
  tests $crate
done
if browser=$(command -v chromium || command -v chromium-browser || command -v google-chrome); then
  step "joblog report's page in a browser" page "$browser"
else
  echo "SKIPPED joblog report's page in a browser: no chromium on the PATH"
fi
step "pongiwaru without its archive" without_archive
step "pongiwaru beside another header" beside 's/uint32_t \*length/uint64_t *length/' 'mismatched types' build
step "pongiwaru over an archive of another layout" beside 's/\(LAYOUT\) 1$/\1 2/' 'version and layout of the archive' run --example worked
echo "$passed passed, $failed failed"
[ "$failed" -eq 0 ]
