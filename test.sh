#!/bin/bash
# All tests; `./test.sh -h` says how. Each part's last line is 'N passed, M failed', and so is the last line here, for all of them; it exits non-zero where M is not 0.
cd "$(dirname "$0")" || exit 1
passed=0 failed=0

usage() {
  cat << 'WORDS'
./test.sh            everything: the documents, the gate (.ci/run: proofs, must-fail edits, programs), and over what it
                     proved the scripts, joinlog where reads and writes fail, wrong programs that its runs find, releases
                     from a seed, the Rust crates, the exports called from C and Rust, core.rs's side
./test.sh --quick    nothing is proved: over what a gate has proved here, the documents, the scripts, joinlog where reads
                     and writes fail, releases from a seed, the Rust crates, the exports called from C and Rust, and 2,000
                     jobs beside core.rs; under 3 minutes
./test.sh -h         this

The last line is 'N passed, M failed'. Exit status: 0 none failed; 1 some failed, or with --quick nothing is proved here;
2 bad usage
WORDS
}

last_line() { # shows standard input as it comes, on standard error, and prints its last line
  local line last=''
  while IFS= read -r line || [ -n "$line" ]; do
    printf '%s\n' "$line" >&2
    last=$line
  done
  printf '%s\n' "$last"
}

counted() { # LAST-LINE: one that is none counts as one failure
  if [[ $1 =~ ^([0-9]+)\ passed,\ ([0-9]+)\ failed$ ]]; then
    passed=$((passed + BASH_REMATCH[1])) failed=$((failed + BASH_REMATCH[2]))
  else
    failed=$((failed + 1))
  fi
}

part() { # NAME CMD..
  local name=$1 last start=$SECONDS
  shift
  echo "== $name"
  last=$("$@" 2>&1 | last_line)
  counted "$last"
  echo "   $name: $((SECONDS - start)) s"
}

# Parts side by side, told one after the other. Each is a process group of its own, so that all of it ends with this run.
names=() groups=() outs=''
begin() { # NAME CMD..
  [ -n "$outs" ] || outs=$(mktemp -d) || exit 1
  local out=$outs/${#names[@]} start=$SECONDS
  names+=("$1")
  shift
  set -m
  { "$@" > "$out" 2>&1; echo "$((SECONDS - start))" > "$out.seconds"; } < /dev/null &
  groups+=($!)
  set +m
}

told() {
  local i
  for i in "${!names[@]}"; do
    wait "${groups[i]}"
    echo "== ${names[i]}"
    cat "$outs/$i"
    counted "$(tail -n 1 "$outs/$i")"
    echo "   ${names[i]}: $(cat "$outs/$i.seconds") s, beside the others"
  done
}

stop() {
  local g
  for g in "${groups[@]}"; do kill -- "-$g" 2> /dev/null; done
}
trap 'stop; exit 130' INT
trap 'stop; exit 143' TERM
trap '[ -z "$outs" ] || rm -rf "$outs"' EXIT

proved() { # the archive and the program that a gate left here, no older than the crates
  PONGIWARU_LIB=$(bash tools/build.sh --there exports) && bash tools/build.sh --there joinlog > /dev/null && export PONGIWARU_LIB && return
  echo "./test.sh --quick tests what a gate has proved, and nothing is proved here: run .ci/run first, or ./test.sh"
  echo "0 passed, 1 failed"
  exit 1
}

over_proved() { # part|begin [--quick]
  $1 "the scripts" bash tests/scripts.sh
  $1 "joinlog" bash tests/joinlog.sh ${2-}
  $1 "the Rust crates" bash rust/test.sh
  $1 "core.rs's side" bash oracle/test.sh ${2-}
  $1 "releases from a seed" bash tests/release.sh
  $1 "the exports" bash crates/exports/host/test.sh ${PONGIWARU_LIB:+"$PONGIWARU_LIB"}
}

main() {
  [ $# -le 1 ] || { usage >&2 && exit 2; }
  case ${1-} in
    -h | --help) usage && exit 0 ;;
    --quick)
      proved
      part "the documents" bash tests/docs.sh
      echo "== the other parts, side by side"
      over_proved begin --quick
      told
      ;;
    '')
      part "the documents" bash tests/docs.sh
      part "the gate" bash .ci/run
      over_proved part
      ;;
    *) echo "test.sh: no flag $1" >&2 && usage >&2 && exit 2 ;;
  esac
  echo "$passed passed, $failed failed"
  [ "$failed" -eq 0 ]
}

main "$@"
exit
