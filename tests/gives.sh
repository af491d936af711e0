# What tests of commands share, read in at the top of the repository: the counts, a folder for temporary files, and a command's status and words beside those wanted.
passed=0 failed=0
tmp=$(mktemp -d) && trap 'rm -rf "$tmp"' EXIT

verdict() { # NAME YES-OR-NO
  if [ "$2" = yes ]; then
    passed=$((passed + 1)) && echo "ok      $1"
  else
    failed=$((failed + 1)) && echo "FAILED  $1"
  fi
}

# Runs CMD with the file $in, or nothing, as standard input; its status, and patterns that its standard output and standard error must have ('' for an empty one).
gives() { # NAME STATUS OUT ERR CMD..
  local name=$1 status=$2 out=$3 err=$4 got good=yes
  shift 4
  "$@" < "${in:-/dev/null}" > "$tmp/out" 2> "$tmp/err"
  got=$?
  [ "$got" -eq "$status" ] || good=no
  has "$tmp/out" "$out" && has "$tmp/err" "$err" || good=no
  verdict "$name" $good
  if [ $good = no ]; then echo "status $got" && head -n 5 "$tmp/out" "$tmp/err"; fi
}

has() { # FILE PATTERN
  if [ -z "$2" ]; then [ ! -s "$1" ]; else grep -Eq -- "$2" "$1"; fi
}
