#!/bin/bash
# joinlog, the proved program (tools/build.sh), on its three standard streams: each kept apart, and a read or a write that fails. Then wrong programs, made of a copy
# of the sources with one change each and run without proofs: the gate's run, crates/joinlog/stdin to stdout, tells each of them from joinlog.
# `--quick`: without the wrong programs. Its last line is 'N passed, M failed'; it exits non-zero where M is not 0.
cd "$(dirname "$0")/.." || exit 1
. tests/gives.sh

program=$(bash tools/build.sh joinlog) || { echo "0 passed, 1 failed"; exit 1; }
unread='joinlog: standard input cannot be read' unwritten='joinlog: the log cannot be written'

# Runs CMD with $in as standard input: its status, the file that standard output must be, and the one line that standard error must be, or '' for none.
writes() { # NAME STATUS LOG SAID CMD..
  local name=$1 status=$2 log=$3 said=$4 got good=yes
  shift 4
  timeout 60 "$@" < "$in" > "$tmp/out" 2> "$tmp/err"
  got=$?
  [ "$got" -eq "$status" ] && cmp -s "$log" "$tmp/out" && printf '%s' "${said:+$said$'\n'}" | cmp -s - "$tmp/err" || good=no
  verdict "$name" $good
  if [ $good = no ]; then echo "status $got" && head -n 5 "$tmp/out" "$tmp/err"; fi
}

of_SV() { yes SV | head -n "$1" | tr -d '\n'; } # so many records SV; each is answered with 0 and nothing
log_of_SV() { seq 0 $(($1 - 1)) | sed 's/$/ 0/'; }

# ---- a read that fails

# A connection brings FILE, all of which is read, and is then reset; CMD has it as standard input.
cat > "$tmp/reset.py" << 'END'
import array, fcntl, socket, struct, subprocess, sys, termios, time
file, *words = sys.argv[1:]
with socket.create_server(('127.0.0.1', 0)) as server:
    sender = socket.create_connection(server.getsockname())
    given, _ = server.accept()
child = subprocess.Popen(words, stdin=given)
sender.sendall(open(file, 'rb').read())

def count(it, what):
    n = array.array('i', [0])
    fcntl.ioctl(it, what, n)
    return n[0]

while count(sender, termios.TIOCOUTQ) or count(given, termios.FIONREAD):
    time.sleep(0.01)
time.sleep(0.2)
sender.setsockopt(socket.SOL_SOCKET, socket.SO_LINGER, struct.pack('ii', 1, 0))
sender.close()
sys.exit(child.wait(30))
END

# Each ends with a part of a record, which would be answered with 5 at a stream's end. Of 6,001 bytes 953 records have 4,096 bytes at hand.
{ of_SV 2 && printf U; } > "$tmp/two_and_a_part"
{ of_SV 3000 && printf U; } > "$tmp/many_and_a_part"
log_of_SV 953 > "$tmp/log_of_953"
in=crates/joinlog/stdin writes "the worked job" 0 crates/joinlog/stdout '' "$program"
in=/dev/null writes "no bytes" 0 /dev/null '' "$program"
in=. writes "a folder" 0 /dev/null "$unread" "$program"
in=/dev/null writes "no standard input" 0 /dev/null "$unread" bash -c "exec $program <&-"
in=/dev/null writes "a connection reset after two records" 0 /dev/null "$unread" python3 "$tmp/reset.py" "$tmp/two_and_a_part" "$program"
in=/dev/null writes "a connection reset after 3,000 records" 0 "$tmp/log_of_953" "$unread" python3 "$tmp/reset.py" "$tmp/many_and_a_part" "$program"
in=/dev/null writes "a connection reset, joinlog.sh" 1 "$tmp/log_of_953" "$unread" \
  python3 "$tmp/reset.py" "$tmp/many_and_a_part" ./joinlog.sh --program "$program"

# ---- a write that fails

# CMD's standard output is read up to its first line, and closed.
cat > "$tmp/first_line.py" << 'END'
import subprocess, sys
child = subprocess.Popen(sys.argv[1:], stdout=subprocess.PIPE)
sys.stdout.buffer.write(child.stdout.readline())
child.stdout.close()
sys.exit(child.wait(30))
END

of_SV 200000 > "$tmp/long"
log_of_SV 1 > "$tmp/log_of_1"
in=crates/joinlog/stdin writes "a full disk" 0 /dev/null "$unwritten" bash -c "exec $program > /dev/full"
in=crates/joinlog/stdin writes "no standard output" 0 /dev/null "$unwritten" bash -c "exec $program >&-"
in=$tmp/long writes "a reader that stops" 0 "$tmp/log_of_1" "$unwritten" python3 "$tmp/first_line.py" "$program"

# ---- wrong programs

copy() { # the sources as they are
  rm -rf "$tmp/copy" && mkdir "$tmp/copy"
  tar -c --exclude=out crates crates.txt | tar -x -C "$tmp/copy"
}

change() { # NAME FILE OLD NEW: NEW for OLD, which the copy's FILE has once; where it has not, NAME has failed
  python3 - "$tmp/copy/crates/$2" "$3" "$4" << 'END' || { verdict "$1" no && return 1; }
import sys
file, old, new = sys.argv[1:]
text = open(file).read()
assert text.count(old) == 1, (file, old)
open(file, 'w').write(text.replace(old, new))
END
}

# The copy's program without proofs, on crates/joinlog/stdin: whether its standard output is the file LOG.
tried() { # NAME same|another LOG
  local got='no run'
  (cd "$tmp/copy/crates/joinlog" && rt try --steps 1 --seconds 600) < crates/joinlog/stdin > "$tmp/out" 2> "$tmp/err"
  if grep -q '^run=ended status=0 ' "$tmp/err"; then
    if cmp -s "$3" "$tmp/out"; then got=same; else got=another; fi
  fi
  if [ "$got" = "$2" ]; then verdict "$1" yes; else verdict "$1" no && echo "$got" && tail -n 5 "$tmp/err"; fi
}

wrong() { # NAME FILE OLD NEW
  copy && change "found: $1" "$2" "$3" "$4" && tried "found: $1" another crates/joinlog/stdout
}

wrong_programs() {
  local main=joinlog/src/main.rt turns=turns/src/lib.rt
  copy
  tried "without proofs, the worked job" same crates/joinlog/stdout
  wrong "fd 2 for 1" $main '&mut rt.stdout()' '&mut rt.stderr()'
  wrong "written twice" $turns 'let done = output.write_all(text);' 'let _ = output.write_all(text); let done = output.write_all(text);'
  wrong "last byte not written" $turns 'output.write_all(text)' 'output.write_all(&text[..text.len().saturating_sub(1)])'
  wrong "a read said to have failed" $turns 'let got = read_behind(input, buf, left);' 'let got: io::Result<usize> = Err(io::Error::from(io::ErrorKind::Other));'
  wrong "a write said to have failed" $turns 'let done = output.write_all(text);' 'let done: io::Result<()> = Err(io::Error::from(io::ErrorKind::Other));'
  wrong "nothing read" $turns 'input.read(&mut buf[have..])' 'input.read(&mut buf[have..have])'
  wrong "a message on standard output" $main 'let stage = write_log(' 'let _ = rt.stdout().write_all(b"joinlog\n"); let stage = write_log('
  wrong "fn main() {}" $main 'fn main(rt: HostRuntime) {' 'fn main() {} fn as_it_was(rt: &HostRuntime) {'
  # what is said where a read fails: each does in this copy
  copy
  change "without proofs, a read that fails" $turns 'input.read(&mut buf[have..])' 'Err(io::Error::from(io::ErrorKind::Other))' &&
    tried "without proofs, a read that fails" same /dev/null
  change "found: fd 1 for 2" $main 'rt.stderr()' 'rt.stdout()' && tried "found: fd 1 for 2" another /dev/null
}

[ "${1-}" = --quick ] || wrong_programs
echo "$passed passed, $failed failed"
[ "$failed" -eq 0 ]
