#!/bin/bash
# joinlog over a stream of records; `./joinlog.sh -h` says how.
set -u
root=$(cd "$(dirname "$0")" && pwd)

usage() {
  cat << 'END'
./joinlog.sh [--quick] [FILE]      the log of FILE, a stream of records, or of standard input
./joinlog.sh [--quick] --example   the log of the bundled job, the worked example of docs/RECORDS.md
./joinlog.sh --build               only build joinlog, and print where it is

Without FILE, a terminal as standard input is taken for --example.
What is not built yet is proved and built first, which takes minutes and needs rt, the Rattle kit's command.
  --quick         no proof and no program: rt tries the sources on the job, in half a minute, for a log of at most 1 MiB
  --program PATH  run this joinlog, and build none
  -h, --help      this

Exit status: 0  all records read
             1  input or output failed
             2  bad usage, or joinlog cannot be built
             3  the job ended with an answer 5, 6 or 18: the rest of the stream is not read
             130, 143  stopped by SIGINT or SIGTERM, and with it all that it had started
END
}

die() { # STATUS MESSAGE
  echo "joinlog.sh: $2" >&2
  exit "$1"
}

tmp='' child='' copier=''
folder() { # one for temporary files, made where it is first needed
  [ -n "$tmp" ] || tmp=$(mktemp -d) || die 1 "no folder for temporary files"
}
clean() { [ -z "$tmp" ] || rm -rf "$tmp"; }
trap clean EXIT

# What runs long runs in the background, in a group of processes of its own, so that a signal reaches this script at once and ends the whole group.
start() { # CMD.., its standard streams as they are told; its number is $child
  set -m
  "$@" &
  child=$!
  set +m
}
stop() { # STATUS
  trap '' HUP INT TERM
  [ -z "$child" ] || kill -TERM -- "-$child" 2> /dev/null
  [ -z "$copier" ] || kill -TERM "$copier" 2> /dev/null
  { wait; } 2> /dev/null
  exit "$1"
}
trap 'stop 129' HUP
trap 'stop 130' INT
trap 'stop 143' TERM

build_proved() {
  folder
  start bash "$root/tools/build.sh" joinlog < /dev/null > "$tmp/built"
  wait "$child" || die 2 "joinlog cannot be built"
  child='' program=$(cat "$tmp/built")
}

# Under --quick rt tries the sources in the program's place, without proofs. Where that ends well, rt's own words are left out.
try_unproved() { cd "$root/crates/joinlog" && rt try --steps 1 --seconds 600; }
own_words='^(interpreter|checked): |^run='

need_rt() {
  echo "joinlog.sh: unproved run" >&2
  command -v rt > /dev/null || die 2 "rt is not on the PATH. rt is the command of the Rattle kit, the language's prover and compiler; README.md says more"
  program=try_unproved
}

# The answers that end a job, by the log's last line.
why_ended() { # LINE
  case $1 in
    *' 5') echo "record ${1% *} is answered with 5, malformed" ;;
    *' 6') echo "record ${1% *} is answered with 6, unknown name" ;;
    *' 18') echo "record ${1% *} is answered with 18, doubled reference" ;;
  esac
}

# Runs the program on standard input; it has no exit status of its own, so the log's last line and what it says on standard error decide.
run() {
  local ran copied why
  folder
  mkfifo "$tmp/log" "$tmp/copy"
  { exec 3<&0; } 2> /dev/null || die 1 "standard input cannot be read"
  tail -n 1 < "$tmp/copy" > "$tmp/last" &
  tee "$tmp/copy" < "$tmp/log" &
  copier=$!
  start "$program" <&3 > "$tmp/log" 2> "$tmp/said"
  { wait "$child"; } 2> /dev/null # or bash tells which signal stopped it
  ran=$?
  wait "$copier"
  copied=$?
  wait
  child='' copier=''
  if [ "$program" = try_unproved ] && [ "$ran" -eq 0 ]; then sed -i -E "/$own_words/d" "$tmp/said"; fi
  # where nobody reads the log any more, tee is stopped by a signal, and what joinlog says of that is left out
  [ "$copied" -gt 128 ] || cat "$tmp/said" >&2
  if [ "$copied" -ne 0 ] || [ -s "$tmp/said" ]; then exit 1; fi
  [ "$ran" -eq 0 ] || die 1 "joinlog was stopped (status $ran)"
  why=$(why_ended "$(cat "$tmp/last")")
  [ -z "$why" ] || die 3 "$why, which ends the job: the rest of the stream is not read"
  exit 0
}

build=build_proved program='' file='' example=no only_build=no
while [ $# -gt 0 ]; do
  case $1 in
    -h | --help) usage && exit 0 ;;
    --quick) build=need_rt ;;
    --example) example=yes ;;
    --build) only_build=yes ;;
    --program)
      [ $# -gt 1 ] && [ -x "$2" ] && [ ! -d "$2" ] || die 2 "--program wants a program"
      program=$2
      shift
      ;;
    -*) die 2 "no flag $1; -h lists them" ;;
    '') die 2 "a file's name is wanted, not an empty word" ;;
    *)
      [ -z "$file" ] || die 2 "one file at a time; -h says how"
      file=$1
      ;;
  esac
  shift
done

if [ -n "$program" ]; then
  [ "$build" = build_proved ] && [ "$only_build" = no ] || die 2 "--program goes with neither --quick nor --build"
  build=:
fi
if [ "$only_build" = yes ]; then
  [ -z "$file" ] && [ "$example" = no ] || die 2 "--build runs nothing"
  [ "$build" != need_rt ] || die 2 "--quick builds nothing"
  $build
  echo "$program"
  exit 0
fi
[ -z "$file" ] || [ "$example" = no ] || die 2 "either a file or --example"
if [ "$example" = yes ] || { [ -z "$file" ] && [ -t 0 ]; }; then file=$root/crates/joinlog/stdin; fi
if [ -n "$file" ]; then
  [ -e "$file" ] || die 1 "$file: no such file"
  [ ! -d "$file" ] || die 1 "$file: a directory"
  [ -r "$file" ] || die 1 "$file: cannot be read"
fi
$build
[ -z "$file" ] || exec < "$file"
run
