#!/bin/bash
# The static library called from C, as C99 and C17 without extensions, and from Rust; pongiwaru.h read as C++; example.c by its compile line. `test.sh ARCHIVE` tests
# that archive; without one the proved one is built (tools/build.sh). Its last line is 'N passed, M failed'; it exits non-zero where M is not 0.
cd "$(dirname "$0")/../../.." || exit 1
tmp=$(mktemp -d) && trap 'rm -rf "$tmp"' EXIT
lib=${1:-$(bash tools/build.sh exports)}
if [ ! -f "$lib" ]; then
  echo "FAILED  no archive"
  echo "0 passed, 1 failed"
  exit 1
fi

passed=0 failed=0
one() { # NAME CMD..
  local name=$1
  shift
  if "$@"; then passed=$((passed + 1)) && echo "ok      $name"; else failed=$((failed + 1)) && echo "FAILED  $name"; fi
}
from_c() { # STANDARD
  : > "$tmp/out"
  cc -std="$1" -pedantic-errors -O2 -Wall -Wextra -Werror crates/exports/host/host.c "$lib" -o "$tmp/c" && "$tmp/c" > "$tmp/out"
  if [[ $(tail -n 1 "$tmp/out") =~ ^([0-9]+)\ passed,\ ([0-9]+)\ failed$ ]]; then
    passed=$((passed + BASH_REMATCH[1])) failed=$((failed + BASH_REMATCH[2]))
  else
    failed=$((failed + 1)) && echo "FAILED  no last line"
  fi
  sed "s/^/$1: /" "$tmp/out"
}
as_cpp() { echo '#include "crates/exports/pongiwaru.h"' | c++ -x c++ -std=c++11 -pedantic-errors -Wall -Wextra -Werror -fsyntax-only -I . -; }
example() { # by the first compile line that it names, on the worked job
  local line
  line=$(sed -n 's/^ \*     \(cc .*\) && .*/\1/p' crates/exports/example.c | head -n 1)
  mkdir -p "$tmp/exports/out" && cp crates/exports/{pongiwaru.h,example.c} "$tmp/exports" && cp "$lib" "$tmp/exports/out/libexports.a" &&
    (cd "$tmp/exports" && sh -c "$line -pedantic-errors -Wall -Wextra -Werror") && runs 0 '^$' crates/joinlog/stdin && cmp "$tmp/log" crates/joinlog/stdout
}
runs() { # STATUS ERR JOB: the example's exit status, and a pattern that its standard error has
  local got
  "$tmp/exports/example" < "$3" > "$tmp/log" 2> "$tmp/err"
  got=$?
  [ $got -eq "$1" ] && { [ -s "$tmp/err" ] || echo; } | cat - "$tmp/err" | grep -Eq "$2"
}
no_success() { # a failed SV, a failed pair and a 5 are told, and the exit status has them
  printf 'BC\1\0\0\0\0\2\0\0\0SVSV' > "$tmp/failed" && runs 1 '^record 1: failed constraints, in 10 bytes$' "$tmp/failed" &&
    [ "$(wc -l < "$tmp/err")" -eq 1 ] && [ "$(tail -n 1 "$tmp/log")" = '2 0' ] || return 1
  printf 'MJ\1\0\3\1\0\0\0\0\2\3\2\0\0\0\0\6' > "$tmp/failed" && runs 1 '^record 0: failed pairs, in 17 bytes$' "$tmp/failed" || return 1
  printf 'SVXX' > "$tmp/failed" && runs 1 '^record 1: answer 5$' "$tmp/failed" && runs 2 'cannot be read' .
}
other_archive() { # beside a header of another version or layout nothing is run
  local change
  for change in 's/\(VERSION\) \([0-9]*\)$/\1 1\2/' 's/\(LAYOUT\) \([0-9]*\)$/\1 1\2/'; do
    sed "$change" crates/exports/pongiwaru.h > "$tmp/exports/pongiwaru.h" && ! cmp -s crates/exports/pongiwaru.h "$tmp/exports/pongiwaru.h" &&
      (cd "$tmp/exports" && cc -I. example.c out/libexports.a -o example) && runs 2 'not the one of this header' crates/joinlog/stdin && [ ! -s "$tmp/log" ] || return 1
  done
}
from_outside() { # what the archive wants of its host: copying and filling, and nothing else
  [ "$(nm -u "$lib" | sed -n 's/^ *U //p' | sort -u | tr '\n' ' ')" = 'memcpy memset ' ]
}
from_rust() {
  PONGIWARU_LIB=$(readlink -f "$lib") cargo run -q --release --offline --manifest-path rust/pongiwaru/Cargo.toml --example worked > "$tmp/log" &&
    cmp "$tmp/log" crates/joinlog/stdout
}

from_c c99
from_c c17
one "the names that the archive wants" from_outside
one "the example in C" example
one "the example: what is no success" no_success
one "the example: over another archive" other_archive
if command -v c++ > /dev/null; then one "the header as C++" as_cpp; fi
if command -v cargo > /dev/null; then one "from Rust" from_rust; else echo "no cargo: the call from Rust is left out"; fi
echo "$passed passed, $failed failed"
[ "$failed" -eq 0 ]
