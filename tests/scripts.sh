#!/bin/bash
# joinlog.sh, release.sh, and the gate where cargo is missing: what they say and their exit status. joinlog is the proved one (tools/build.sh).
# Its last line is 'N passed, M failed'; it exits non-zero where M is not 0.
cd "$(dirname "$0")/.." || exit 1
root=$PWD
. tests/gives.sh

program=$(bash tools/build.sh joinlog) || { echo "0 passed, 1 failed"; exit 1; }
run="./joinlog.sh --program $program"

# ---- joinlog.sh: words, and what is refused at once

gives "help" 0 'Exit status' '' ./joinlog.sh -h
gives "help, in full" 0 'Exit status' '' ./joinlog.sh --help
gives "unknown flag" 2 '' 'no flag --fast' ./joinlog.sh --fast
gives "two files" 2 '' 'one file at a time' ./joinlog.sh a b
gives "missing file" 1 '' '/no/such: no such file' ./joinlog.sh /no/such
gives "directory" 1 '' 'crates: a directory' ./joinlog.sh crates
gives "file and example" 2 '' 'either a file or --example' ./joinlog.sh --example crates.txt
gives "no program" 2 '' 'wants a program' ./joinlog.sh --program /no/such
gives "an empty word is no file" 2 '' 'not an empty word' ./joinlog.sh ''

# ---- joinlog.sh: runs

cp crates/joinlog/stdin "$tmp/good"
printf 'SVXXSV' > "$tmp/malformed"
printf 'UF\6\0\0\0\0\0\0SV' > "$tmp/unknown"
printf 'SVUF\1\0\0\0\0\0\1SV' > "$tmp/doubled"
printf 'SVSV' > "$tmp/two"
gives "example" 0 '^2 0 03030000000002$' '' $run --example
gives "file" 0 '^2 0 03030000000002$' '' $run "$tmp/good"
in=$tmp/two gives "standard input, a file" 0 '^1 0$' '' $run
gives "standard input, a pipe" 0 '^1 0$' '' bash -c "printf SVSV | $run"
gives "standard input, nothing: no bundled job" 0 '' '' $run
gives "terminal: the bundled job" 0 '2 0 03030000000002' '' \
  python3 -c 'import pty, sys; sys.exit(pty.spawn(sys.argv[1:]) >> 8)' $run
gives "5 ends a job" 3 '^1 5$' 'record 1 is answered with 5, malformed, which ends the job' $run "$tmp/malformed"
gives "6 ends a job" 3 '^0 6$' 'record 0 is answered with 6, unknown name' $run "$tmp/unknown"
gives "18 ends a job" 3 '^1 18$' 'record 1 is answered with 18, doubled reference' $run "$tmp/doubled"
in=. gives "input fails" 1 '' 'standard input cannot be read' $run
gives "no standard input" 1 '' 'standard input cannot be read' bash -c "$run <&-"
gives "output fails" 1 '' 'No space left' bash -c "$run $tmp/good > /dev/full"
yes SV | head -n 20000 | tr -d '\n' > "$tmp/long"
gives "the log is read no further" 1 '^0 0$' '' bash -c "set -o pipefail; $run $tmp/long | head -n 1"
cat > "$tmp/killed" << 'END'
#!/bin/sh
echo '0 0' && kill -9 $$
END
chmod +x "$tmp/killed"
gives "stopped from outside" 1 '^0 0$' 'joinlog was stopped' ./joinlog.sh --program "$tmp/killed" --example

# A stand-in that never ends by itself: its one line, and a child whose name is too long for a process that is dead and not yet fetched.
ln -s "$(command -v sleep)" "$tmp/sleeps-for-the-tests-of-$$"
cat > "$tmp/endless" << END
#!/bin/sh
echo '0 0' && touch $tmp/begun && $tmp/sleeps-for-the-tests-of-$$ 100
END
chmod +x "$tmp/endless"

nothing_runs() { # within a second, no child of a stand-in is left
  local _
  for _ in 1 2 3 4 5 6 7 8 9 10; do
    pgrep -f "sleeps-for-the-tests-of-$$" > /dev/null || return 0
    sleep 0.1
  done
  return 1
}

stopped_by() { # NAME SIGNAL STATUS CMD..: the signal reaches CMD alone, once the stand-in has begun
  local name=$1 signal=$2 status=$3 got good=no
  shift 3
  rm -f "$tmp/begun"
  python3 - "$tmp/begun" "$signal" "$@" > "$tmp/out" 2> "$tmp/err" << 'END'
import os, signal, subprocess, sys, time
begun, name, *words = sys.argv[1:]
signal.signal(signal.SIGINT, signal.default_int_handler)
child = subprocess.Popen(words, stdin=subprocess.DEVNULL)
for _ in range(100):
    if os.path.exists(begun):
        break
    time.sleep(0.1)
time.sleep(0.2)
child.send_signal(getattr(signal, 'SIG' + name))
sys.exit(child.wait(20) % 256)
END
  got=$?
  if [ -e "$tmp/begun" ] && [ "$got" -eq "$status" ] && nothing_runs; then good=yes; fi
  verdict "$name" $good
  if [ $good = no ]; then echo "status $got" && head -n 5 "$tmp/out" "$tmp/err"; fi
}

stopped_by "SIGTERM stops joinlog too" TERM 143 ./joinlog.sh --program "$tmp/endless" --example
stopped_by "SIGINT stops joinlog too" INT 130 ./joinlog.sh --program "$tmp/endless" --example

# ---- joinlog.sh: builds, in a folder where nothing is built

fresh() { # a folder with the sources and nothing built
  rm -rf "$tmp/fresh" && mkdir "$tmp/fresh"
  tar -c --exclude=out --exclude=target crates crates.txt joinlog.sh release.sh tools rust | tar -x -C "$tmp/fresh"
}

fresh
cp test.sh "$tmp/fresh"
gives "test.sh: help" 0 '--quick' '' ./test.sh -h
gives "test.sh: no such flag" 2 '' 'no flag --fast' ./test.sh --fast
gives "test.sh --quick: nothing is proved" 1 'nothing is proved here' 'no proved one is here' "$tmp/fresh/test.sh" --quick
gives "unproved run" 0 '^2 0 03030000000002$' 'unproved run' "$tmp/fresh/joinlog.sh" --quick --example
verdict "unproved run: none of rt's own words" "$(grep -qE '^run=|^checked:|^interpreter:' "$tmp/err" || echo yes)"
gives "unproved run, 5 ends a job" 3 '^1 5$' 'answered with 5' "$tmp/fresh/joinlog.sh" --quick "$tmp/malformed"
gives "unproved run builds nothing" 2 '' '--quick builds nothing' "$tmp/fresh/joinlog.sh" --quick --build
mkdir "$tmp/bin"
for t in bash sh dirname find cat chmod mkdir tee grep sed touch mktemp mkfifo tail rm sleep; do ln -s "$(command -v $t)" "$tmp/bin"; done
gives "no rt" 2 '' 'rt is the command of the Rattle kit' env PATH="$tmp/bin" "$tmp/fresh/joinlog.sh" --example
gives "no rt, quick" 2 '' 'rt is the command of the Rattle kit' env PATH="$tmp/bin" "$tmp/fresh/joinlog.sh" --quick --example
cat > "$tmp/bin/rt" << END
#!/bin/sh
echo 'fn names::has_drop: proved'
echo 'rt: chose --jobs 2 for names'
[ ! -e $tmp/refuse ] || { echo 'fn joinlog::run: not proved'; exit 1; }
mkdir -p out && cat $program > out/joinlog && chmod +x out/joinlog
END
chmod +x "$tmp/bin/rt"
touch "$tmp/refuse"
gives "not proved" 2 '' 'joinlog is not proved; target/joinlog-build.txt' env PATH="$tmp/bin" "$tmp/fresh/joinlog.sh" --example
rm "$tmp/refuse"
gives "proved: an estimate first" 0 '^2 0 ' 'proved first: from nothing' env PATH="$tmp/bin" "$tmp/fresh/joinlog.sh" --example
verdict "a line for each crate" "$(grep -q '^rt: .* for names (1 of [0-9]*)$' "$tmp/err" && ! grep -q has_drop "$tmp/err" && echo yes)"
verdict "the talk in a file" "$(grep -q has_drop "$tmp/fresh/target/joinlog-build.txt" && echo yes)"
gives "proved already: no word" 0 '^2 0 ' '' env PATH="$tmp/bin" "$tmp/fresh/joinlog.sh" --example
gives "proved already, only built" 0 'crates/joinlog/out/joinlog$' '' env PATH="$tmp/bin" "$tmp/fresh/joinlog.sh" --build
rm "$tmp/bin/rt"
gives "proved already: rt is not needed" 0 '^2 0 ' '' env PATH="$tmp/bin" "$tmp/fresh/joinlog.sh" --example

# A prover that never ends is stopped with what waits for it.
rm "$tmp/fresh/crates/joinlog/out/joinlog"
printf '#!/bin/sh\ntouch %q && %q 100\n' "$tmp/begun" "$tmp/sleeps-for-the-tests-of-$$" > "$tmp/bin/rt" && chmod +x "$tmp/bin/rt"
stopped_by "SIGTERM stops the prover too" TERM 143 env PATH="$tmp/bin:$PATH" "$tmp/fresh/joinlog.sh" --build
stopped_by "SIGINT stops the prover too" INT 130 env PATH="$tmp/bin:$PATH" "$tmp/fresh/joinlog.sh" --example
stopped_by "SIGTERM stops an unproved run too" TERM 143 env PATH="$tmp/bin:$PATH" "$tmp/fresh/joinlog.sh" --quick --example
rm "$tmp/bin/rt"

# ---- the gate without cargo

gives "gate: no cargo" 1 'no cargo, so no comparison' '' env PATH="$tmp/bin" bash oracle/gate.sh
gives "gate: told to leave it out" 0 'told to leave out' '' env PATH="$tmp/bin" WITHOUT_CORE_RS=yes bash oracle/gate.sh

# ---- release.sh: words

gives "release: help" 0 'Exit status' '' ./release.sh -h
gives "release: unknown flag" 2 '' 'no flag --slow' ./release.sh --slow a b
gives "release: one folder" 2 '' 'two folders are wanted' ./release.sh crates
gives "release: an empty word is no folder" 2 '' 'not an empty word' ./release.sh crates ''
gives "release: no folder" 2 '' '/no/such: no such folder' ./release.sh /no/such "$tmp/logs"
mkdir -p "$tmp/jobs/one more"
gives "release: no jobs" 2 '' 'no jobs' ./release.sh "$tmp/jobs" "$tmp/logs"
gives "release: logs among the jobs" 2 '' 'one of JOBS and LOGS is in the other' ./release.sh "$tmp/jobs" "$tmp/jobs/logs"
verdict "release: .. nothing is made there" "$([ ! -e "$tmp/jobs/logs" ] && echo yes)"
gives "release: jobs among the logs" 2 '' 'one of JOBS and LOGS is in the other' ./release.sh "$tmp/jobs" "$tmp"

# ---- release.sh: runs, and goes on by the manifest

jobs=$tmp/jobs logs=$tmp/logs joblog=rust/joblog/target/release/joblog
for i in 1 2 3 4 5 6 7 8; do cp "$tmp/good" "$jobs/job $i"; done
cp "$tmp/two" "$jobs/one more/last"
there() { grep -q "^joblog: $1 jobs have their log already$" "$tmp/err" && echo yes; } # by the last run
last_line() { grep -F "\"job\":\"$2\"" "$1/manifest.jsonl" | tail -n 1; }

gives "release: all answers 0" 0 . '^9 of 9 jobs, ' ./release.sh "$jobs" "$logs"
verdict "release: a log" "$(cmp -s "$logs/job 3.log" crates/joinlog/stdout && [ -f "$logs/one more/last.log" ] && echo yes)"
gives "release: on a terminal, a line that changes" 0 'K9 of 9 jobs, [0-9]+ a second.$' '' \
  python3 -c 'import pty, sys; sys.exit(pty.spawn(sys.argv[1:]) >> 8)' ./release.sh "$jobs" "$tmp/shown"
verdict "release: nothing half there" "$([ -z "$(find "$logs" -name '*.part')" ] && echo yes)"
verdict "release: a line for each log" "$([ "$(wc -l < "$logs/manifest.jsonl")" -eq 9 ] && echo yes)"
sums=$(sha256sum < "$jobs/job 3")
verdict "release: the job's sum, what was read of it, proved" "$(last_line "$logs" 'job 3' | grep -q "\"${sums%% *}\".*\"records\":3,\"read\":31,\"bytes\":31,\"proved\":true" && echo yes)"
touch -d 1990-01-01 "$logs"/*.log && touch -d 2031-01-01 "$jobs"/job*
gives "release: dates decide nothing" 0 . '^joblog: 9 jobs have their log already$' ./release.sh "$jobs" "$logs"
verdict "release: what is there is not made again" "$([ "$(date -r "$logs/job 3.log" +%Y)" = 1990 ] && echo yes)"
cp "$tmp/malformed" "$jobs/bad" && cp "$tmp/unknown" "$jobs/worse" && cp "$tmp/doubled" "$jobs/worst"
gives "release: some answers are not" 1 'bad' '^12 of 12 jobs, ' ./release.sh -j 1 "$jobs" "$logs"
verdict "release: the others are not run again" "$(there 9)"
verdict "release: what was read of a job that ended" "$(last_line "$logs" bad | grep -q '"records":2,"read":2,"bytes":6,' && echo yes)"
rm "$jobs/bad" "$jobs/worse" "$jobs/worst"
gives "release: jobs that are gone" 0 . 'whose job is gone, not summed up: 3 \(bad.log, worse.log, worst.log\)' ./release.sh "$jobs" "$logs"
rm "$logs"/{bad,worse,worst}.log

damaged() { # NAME CMD..: after CMD the report does not know, and the next run makes the log anew
  local name=$1
  shift
  "$@"
  gives "release: $name: not known" 2 'job 3' '' "$joblog" report --program "$program" "$jobs" "$logs"
  gives "release: $name: run again" 0 . '^joblog: run again, logs missing, or not as their line has them: 1 ' ./release.sh "$jobs" "$logs"
  verdict "release: $name: its log is whole" "$(cmp -s "$logs/job 3.log" crates/joinlog/stdout && there 8)"
}
log="$logs/job 3.log"
damaged "an emptied log" truncate -s 0 "$log"
damaged "a log that is cut" truncate -s 19 "$log"
damaged "garbage" sh -c 'echo 0 0 GARBAGE > "$1"' - "$log"
damaged "another job's log" cp "$logs/one more/last.log" "$log"
damaged "a missing log" rm "$log"
cp "$tmp/two" "$jobs/job 3"
gives "release: a job that changed is run again" 0 . 'logs of a job that has changed since: 1 \(job 3\)' ./release.sh "$jobs" "$logs"
verdict "release: .. and no other" "$(there 8)"
cp "$tmp/good" "$jobs/job 3"
sed -i '/"job 5"/d' "$logs/manifest.jsonl"
./release.sh "$jobs" "$logs" > "$tmp/out" 2> "$tmp/err"
verdict "release: a log without its line is run again" "$(grep -q 'by no run that the manifest knows: 1 (job 5)' "$tmp/err" && there 7)"
truncate -s -30 "$logs/manifest.jsonl"
gives "release: a line that is cut counts for nothing" 0 . '^joblog: run again, .*: 1 ' ./release.sh "$jobs" "$logs"
verdict "release: .. then all is there" "$(./release.sh "$jobs" "$logs" > "$tmp/out" 2> "$tmp/err" && there 9)"
rm "$logs/manifest.jsonl"
gives "release: no manifest, all run again" 0 . 'by no run that the manifest knows: 9 ' ./release.sh "$jobs" "$logs"

# An engine that was built anew, of another sum.
engine=$tmp/fresh/crates/joinlog/out/joinlog
printf '#!/bin/sh\nexec %q\n' "$program" > "$engine" && chmod +x "$engine"
(cd "$tmp/fresh/rust/joblog" && mkdir -p target/release && cp "$root/$joblog" target/release && touch target/release/joblog)
gives "release: another engine, all run again" 0 . 'by another program than today.s: 9 ' "$tmp/fresh/release.sh" "$jobs" "$logs"
gives "release: logs by another engine: not known" 2 '9 logs were made by another program' '' "$joblog" report --program "$program" "$jobs" "$logs"
gives "release: and again" 0 . 'by another program than today.s: 9 ' ./release.sh "$jobs" "$logs"

# ---- release.sh: links

ln -s "$tmp/malformed" "$jobs/linked" && mkdir "$tmp/elsewhere" && cp "$tmp/two" "$tmp/elsewhere/job" && ln -s "$tmp/elsewhere" "$jobs/folder"
gives "release: what links lead to is run" 1 'linked' '^11 of 11 jobs, ' ./release.sh "$jobs" "$logs"
verdict "release: .. in a linked folder too" "$([ -s "$logs/folder/job.log" ] && echo yes)"
rm "$jobs/linked" "$jobs/folder" && rm -r "$logs/linked.log" "$logs/folder"
ln -s /no/such "$jobs/dangling"
gives "release: a link that leads nowhere is named" 2 '' 'jobs/dangling: ' ./release.sh "$jobs" "$logs"
rm "$jobs/dangling" && ln -s .. "$jobs/one more/circle"
gives "release: a link in a circle is named" 2 '' 'jobs/one more/circle: ' ./release.sh "$jobs" "$logs"
rm "$jobs/one more/circle" && mkfifo "$jobs/pipe"
gives "release: a pipe is named" 2 '' 'jobs/pipe: ' timeout 20 ./release.sh "$jobs" "$logs"
rm "$jobs/pipe" && touch "$jobs/"$'\xff'
gives "release: a name that is no UTF-8 is named" 2 '' 'xFF.*UTF-8' ./release.sh "$jobs" "$logs"
rm "$jobs/"$'\xff' && touch "$jobs/"$'line\nbreak'
gives "release: a name with a line break is named" 2 '' 'line.nbreak.*without a line break' ./release.sh "$jobs" "$logs"
rm "$jobs/"$'line\nbreak' && touch "$jobs/empty"
gives "release: an empty job has an empty log" 0 . '^10 of 10 jobs, ' ./release.sh "$jobs" "$logs"
verdict "release: .. and its line" "$([ -e "$logs/empty.log" ] && last_line "$logs" empty | grep -q '"records":0,"read":0,"bytes":0,' && echo yes)"
rm "$jobs/empty" "$logs/empty.log"

# ---- release.sh: without proofs, then with

mkdir "$tmp/few" && cp "$tmp/good" "$tmp/few/job"
gives "release: without proofs" 0 . 'unproved run' ./release.sh --quick "$tmp/few" "$tmp/some"
verdict "release: .. the manifest says so" "$(last_line "$tmp/some" job | grep -q '"proved":false' && echo yes)"
gives "release: .. the report does not take it for proved" 2 'job' '' "$joblog" report --program "$program" "$tmp/few" "$tmp/some"
gives "release: .. goes on" 0 . '^joblog: 1 jobs have their log already$' ./release.sh --quick "$tmp/few" "$tmp/some"
gives "release: .. the proved run takes none of it" 0 . 'by another program than today.s: 1 ' ./release.sh "$tmp/few" "$tmp/some"
verdict "release: .. proved then" "$(last_line "$tmp/some" job | grep -q '"proved":true' && echo yes)"
gives "release: .. and none is left" 0 '' '' ./release.sh --left "$tmp/few" "$tmp/some"

# ---- release.sh: verified

gives "release: run again and compared" 0 . 'run again, 9 logs, all as they are there' ./release.sh --verify "$jobs" "$logs"
was=$(sha256sum < "$log")
sed -i 's/^2 0 .*/2 0 03030000000003/' "$log" && now=$(sha256sum < "$log") && sed -i "s/${was%% *}/${now%% *}/" "$logs/manifest.jsonl"
gives "release: a log that the engine does not give is named" 2 . '^joblog: job 3: the log is not what this run gives, from line 3 on' ./release.sh --verify "$jobs" "$logs"
verdict "release: .. and left as it is" "$(grep -q 03030000000003 "$log" && echo yes)"
rm "$log"
gives "release: a log that is missing is named" 2 . '^joblog: job 3: no log to compare' ./release.sh --verify "$jobs" "$logs"
verdict "release: .. and not made" "$([ ! -e "$log" ] && echo yes)"
rm -rf "$logs"
gives "release: no logs to compare" 2 '' 'logs: no such folder' ./release.sh --verify "$jobs" "$logs"
verdict "release: .. and no folder made" "$([ ! -e "$logs" ] && echo yes)"

# ---- release.sh: two at once, and stopped

cp "$tmp/endless" "$engine" && rm -f "$tmp/begun"
"$tmp/fresh/release.sh" -j 2 "$jobs" "$logs" > "$tmp/first" 2>&1 &
first=$!
for _ in $(seq 100); do [ -e "$tmp/begun" ] || sleep 0.1; done
gives "release: two runs into one folder" 2 '' 'another run is at work there' ./release.sh "$jobs" "$logs"
kill $first
wait $first
verdict "release: SIGTERM ends it" "$([ $? -eq 143 ] && grep -q '^release.sh: stopped$' "$tmp/first" && nothing_runs && echo yes)"
stopped_by "release: SIGTERM stops all that it had started" TERM 143 "$tmp/fresh/release.sh" -j 3 "$jobs" "$logs"
stopped_by "release: SIGINT does too" INT 130 "$tmp/fresh/release.sh" -j 3 "$jobs" "$logs"
stopped_by "joblog run: SIGKILL does too" KILL 247 "$joblog" run --program "$tmp/endless" "$jobs" "$logs"

# Stopped while its fourth job runs, then gone on with.
cat > "$engine" << END
#!/bin/sh
echo >> $tmp/count
[ "\$(wc -l < $tmp/count)" -ne 4 ] || { touch $tmp/begun && $tmp/sleeps-for-the-tests-of-$$ 100; }
sleep 0.6
exec $program
END
stopped_by "release: stopped at its fourth job" TERM 143 "$tmp/fresh/release.sh" -j 1 "$jobs" "$logs"
made=$(find "$logs" -name '*.log' | wc -l)
verdict "release: stopped, whole logs and their lines" "$([ "$made" -gt 0 ] && [ "$(wc -l < "$logs/manifest.jsonl")" -eq "$made" ] && echo yes)"
gives "release: goes on" 0 . '^9 of 9 jobs, ' "$tmp/fresh/release.sh" "$jobs" "$logs"
verdict "release: .. where it stopped" "$(there "$made" > /dev/null && [ -z "$(find "$logs" -name '*.part')" ] && echo yes)"

# ---- release.sh: over several machines

machines() { # CMD..: CMD for each job that is left
  rm -rf "$logs"
  ./release.sh --left "$jobs" "$logs" > "$tmp/left" && "$@" < "$tmp/left" >> "$logs/manifest.jsonl"
}
machines xargs -d '\n' -P 3 -I{} ./release.sh --one "$jobs" "$logs" ./{}
gives "release: by jobs alone, as over several machines" 0 . '^joblog: 9 jobs have their log already$' ./release.sh "$jobs" "$logs"
if command -v parallel > /dev/null; then
  machines parallel -S : "$root/release.sh" --one "$jobs" "$logs" ./{}
  gives "release: by GNU parallel" 0 . '^joblog: 9 jobs have their log already$' ./release.sh "$jobs" "$logs"
else
  echo "skipped release: by GNU parallel, which is not installed"
fi
gives "release: one job wants its name" 2 '' 'wants JOBS, LOGS and a job' ./release.sh --one "$jobs" "$logs"
gives "release: one job that is none" 2 '' 'jobs/none: ' ./release.sh --one "$jobs" "$logs" none

rm -rf "$logs/one more" && touch "$logs/one more"
gives "release: a log that cannot be written" 2 . '^joblog: one more/last: no log: ' ./release.sh "$jobs" "$logs"

# ---- tools/dist.sh: a release, unpacked in a folder with nothing else in it, and neither rt nor cargo nor this repository named

gate_log() { # a gate's lines for each crate, with a last line
  sed -n 's/^\([a-z0-9_]*\)\( staticlib\)\{0,1\}:.*/rt: \1 proved/p' crates.txt
  echo "$1"
}
gate_log '3 passed, 0 failed' > "$tmp/gate.log"
gives "dist: help" 0 'Exits with' '' tools/dist.sh
gives "dist: no such log" 2 '' 'no such file' tools/dist.sh /no/such
gate_log '3 passed, 1 failed' > "$tmp/other.log"
gives "dist: a gate that failed" 1 '' 'no log of a gate that passed' tools/dist.sh "$tmp/other.log" "$tmp/dist"
grep -v '^rt: cursor ' "$tmp/gate.log" > "$tmp/other.log"
gives "dist: a crate that was not proved" 1 '' 'cursor is not proved' tools/dist.sh "$tmp/other.log" "$tmp/dist"
cp "$tmp/gate.log" "$tmp/other.log" && touch -d 2001-01-01 "$tmp/other.log"
gives "dist: a log of other sources" 1 '' 'not of these sources' tools/dist.sh "$tmp/other.log" "$tmp/dist"
verdict "dist: then nothing is packed" "$([ ! -e "$tmp/dist" ] && echo yes)"
gives "dist: one tarball" 0 '^/.*/dist/pongiwaru-[0-9]+-[a-z0-9_]+-linux\.tar\.gz$' '' tools/dist.sh "$tmp/gate.log" "$tmp/dist"
verdict "dist: and nothing else" "$([ "$(ls "$tmp/dist")" = "$(basename "$(cat "$tmp/out")")" ] && echo yes)"
gives "dist: again" 0 'gz$' '' tools/dist.sh "$tmp/gate.log" "$tmp/dist2"
verdict "dist: the same bytes" "$(cmp -s "$tmp"/dist/*.tar.gz "$tmp"/dist2/*.tar.gz && echo yes)"

alone() { (cd "$tmp"/alone/pongiwaru-* && env -i PATH=/usr/bin:/bin "$@"); }
mkdir "$tmp/alone" && tar -xzf "$tmp"/dist/*.tar.gz -C "$tmp/alone"
gives "dist: the sums" 0 '^lib/libpongiwaru.a: OK$' '' alone sha256sum -c SHA256SUMS
verdict "dist: a sum for every file" "$([ "$(grep -c ': OK$' "$tmp/out")" -eq "$(($(find "$tmp/alone" -type f | wc -l) - 1))" ] && echo yes)"
verdict "dist: names no folder of this machine" "$(grep -rqF "$root" "$tmp/alone" || echo yes)"
compile=$(sed -n 's/^ \*     \(cc .*\) && .*/\1/p' crates/exports/example.c | tail -n 1)
gives "dist: the example compiled" 0 '' '' alone sh -c "$compile"
gives "dist: the example run" 0 '^2 0 03030000000002$' '' alone sh -c './example < share/worked.job'
gives "dist: a failed SV is no success" 1 '^1 0 02' 'failed constraints' alone sh -c "printf 'BC\\1\\0\\0\\0\\0\\2\\0\\0\\0SV' | ./example"
if command -v pkg-config > /dev/null; then
  # shellcheck disable=SC2016
  gives "dist: by pkg-config" 0 '^2 0 ' '' alone sh -c \
    'export PKG_CONFIG_PATH=$PWD/lib/pkgconfig && cd / && cc "$OLDPWD/share/example.c" $(pkg-config --cflags --libs pongiwaru) -o "$OLDPWD/example2" && "$OLDPWD/example2" < "$OLDPWD/share/worked.job"'
else
  echo "no pkg-config: pongiwaru.pc is not tried"
fi
gives "dist: joinlog" 0 '^2 0 03030000000002$' '' alone sh -c 'bin/joinlog < share/worked.job'
gives "dist: joblog" 0 'no error$' '' alone bin/joblog show share/worked.job share/worked.log
alone sh -c 'mkdir jobs && cp share/worked.job jobs'
gives "dist: a folder of jobs" 0 '' '1 of 1 job' alone bin/joblog run --program bin/joinlog jobs logs
gives "dist: publish" 0 'publish$' '' alone bin/joblog report jobs logs
alone rm logs/worked.job.log
gives "dist: not known" 2 'worked.job' '' alone bin/joblog report jobs logs
alone sh -c "printf 'BC\\1\\0\\0\\0\\0\\2\\0\\0\\0SV' > jobs/failed"
gives "dist: a job more" 0 '' '2 of 2 jobs' alone bin/joblog run --program bin/joinlog jobs logs
gives "dist: do not publish" 1 'DO NOT PUBLISH$' '' alone bin/joblog report jobs logs

echo "$passed passed, $failed failed"
[ "$failed" -eq 0 ]
