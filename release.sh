#!/bin/bash
# joinlog over every job of a folder, and what the logs say; `./release.sh -h` says how.
set -u
root=$(cd "$(dirname "$0")" && pwd)

usage() {
  cat << 'END'
./release.sh [--quick] [--verify] [-j N] JOBS LOGS

Runs joinlog over every file below the folder JOBS, links followed, N at once (as many as there are cores), and writes the
log of JOBS/NAME to LOGS/NAME.log. `joblog report` ends it: what is wrong in which job, a line of sums, the exit status.
LOGS/manifest.jsonl has a line for each log: the sums of job, log and program, and whether the program was proved. A run that
was stopped goes on by these lines and by nothing else: a job is run again unless its line has today's sums.

  --quick      without proofs, each job in half a minute (./joinlog.sh -h); the next run without --quick runs all again
  --verify     every job is run again and its log compared with the one that is there, which stays
  --left       only the names of the jobs that would be run
  -h, --help   this

Exit status: 0 publish: every job has its log, and nothing in it is wrong
             1 do not: something in some log is wrong
             2 not known: bad usage, a job without its log, a log that is not as it must be
             130, 143 stopped by SIGINT or SIGTERM, and with it all that it had started

Over several machines, where GNU parallel is installed and all see the same folders, this built repository among them; the
last line runs what is missing, and reports:
  ./release.sh --left /JOBS /LOGS > LEFT
  parallel -S HOST1,HOST2 /REPOSITORY/release.sh --one /JOBS /LOGS ./{} < LEFT >> /LOGS/manifest.jsonl
  ./release.sh /JOBS /LOGS
END
}

die() {
  echo "release.sh: $1" >&2
  exit 2
}

tmp='' child=''
trap '[ -z "$tmp" ] || rm -rf "$tmp"' EXIT

# What runs long runs in the background, so that a signal is handed on at once; what is run ends all that it has started.
attend() { # CMD..: its status
  "$@" &
  child=$!
  wait "$child"
  local status=$?
  child=''
  return "$status"
}
stop() { # STATUS
  trap '' HUP INT TERM
  [ -z "$child" ] || kill -TERM "$child" 2> /dev/null
  wait
  echo "release.sh: stopped" >&2
  exit "$1"
}
trap 'stop 129' HUP
trap 'stop 130' INT
trap 'stop 143' TERM

# joblog, built where it is missing or older than its sources.
build_joblog() {
  joblog=$root/rust/joblog/target/release/joblog
  if [ -x "$joblog" ] && [ -z "$(find "$root"/rust/joblog/{src,Cargo.toml} -newer "$joblog" -print -quit)" ]; then return; fi
  command -v cargo > /dev/null || die "joblog is not built, and cargo is not on the PATH; README.md says what is needed"
  attend cargo build -q --release --offline --manifest-path "$root/rust/joblog/Cargo.toml" --target-dir "$root/rust/joblog/target" >&2 ||
    die "joblog cannot be built"
  touch "$joblog" # where cargo found that nothing had changed
}

# The proved program, and how joblog is told of it.
proved() {
  attend "$root/joinlog.sh" --build > "$tmp/program" || exit 2
  program=$(cat "$tmp/program")
  run_by=(--program "$program") report_by=(--program "$program")
}

# rt in its place. A sum over all that rt tries stands for the program's, so that an engine that changed is run again.
unproved() {
  command -v rt > /dev/null || die "rt is not on the PATH; ./joinlog.sh -h says more"
  echo "release.sh: unproved run" >&2
  printf '#!/bin/bash\nexec %q --quick\n' "$root/joinlog.sh" > "$tmp/unproved" && chmod +x "$tmp/unproved" || die "no program can be made"
  sum=$(cd "$root" && { rt version && find crates.txt crates/*/src -type f -print0 | LC_ALL=C sort -z | xargs -0 sha256sum; } | sha256sum)
  run_by=(--program "$tmp/unproved" --unproved "${sum%% *}") report_by=(--quick)
}

# The one place that decides.
report() { "$joblog" report "${report_by[@]}" "${folders[@]}"; }

build=proved task=() at_once=() folders=()
while [ $# -gt 0 ]; do
  case $1 in
    -h | --help) usage && exit 0 ;;
    --quick) build=unproved ;;
    --verify | --left) task+=("$1") ;;
    --one) task+=(--one '') ;;
    -j)
      [[ ${2-} =~ ^[1-9][0-9]*$ ]] || die "-j wants a number"
      at_once=(-j "$2")
      shift
      ;;
    -*) die "no flag $1; -h lists them" ;;
    '') die "a folder's name is wanted, not an empty word" ;;
    *) folders+=("$1") ;;
  esac
  shift
done
if [ "${task[0]-}" = --one ]; then
  [ ${#folders[@]} -eq 3 ] || die "--one wants JOBS, LOGS and a job's name"
  task[1]=${folders[2]}
  unset 'folders[2]'
fi
[ ${#folders[@]} -eq 2 ] || die "two folders are wanted, JOBS and LOGS; -h says how"
[ -d "${folders[0]}" ] || die "${folders[0]}: no such folder"
for i in 0 1; do case ${folders[i]} in /*) ;; *) folders[i]=./${folders[i]} ;; esac; done

tmp=$(mktemp -d) || die "no folder for temporary files"
build_joblog
$build
attend "$joblog" run "${run_by[@]}" "${task[@]}" "${at_once[@]}" "${folders[@]}"
ran=$?
if [ "${task[0]-}" = --left ] || [ "${task[0]-}" = --one ]; then exit $ran; fi
[ "$ran" -le 1 ] || exit "$ran"
attend report
reported=$?
[ "$ran" -eq 0 ] || exit 2
exit "$reported"
