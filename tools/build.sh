#!/bin/bash
# tools/build.sh [--there] joinlog|exports: the program or the static library, proved with all crates that it stands on, and built; its path is printed.
# --there: nothing is proved or built; 1 where it is not there, or older than the crates.
# What is there already and no older than the crates is taken as it is, without rt. What the prover says goes to target/NAME-build.txt, its progress to standard error.
# Exits with 1 where it is not proved, with 2 where rt is missing.
set -u
root=$(cd "$(dirname "$0")/.." && pwd)
there=no
if [ "${1-}" = --there ]; then there=yes && shift; fi
name=${1-}
case $name in
  joinlog) made=$root/crates/joinlog/out/joinlog words=run ;;
  exports) made=$root/crates/exports/out/libexports.a words=lib ;;
  *) echo "tools/build.sh: joinlog or exports is wanted" >&2 && exit 2 ;;
esac

current() { # it is there, and no file that it is made of is newer
  [ -f "$made" ] && [ -z "$(find "$root"/crates.txt "$root"/crates/*/{src,specs,proofs} -newer "$made" -print -quit 2> /dev/null)" ]
}

# Right after rt ci (AFTER_RT_CI=yes, as .ci/run says) its proved libraries stand in out/rlib, without the stamps that rt lib goes by: the archive is built over them,
# and only exports is checked again. Elsewhere this fails, and rt lib proves what has changed.
over_rt_ci() {
  local kit below=() crate
  [ "$name" = exports ] && [ "${AFTER_RT_CI-}" = yes ] || return 1
  kit=$(dirname "$(dirname "$(readlink -f "$(command -v rt)")")")
  for crate in $(sed -n 's/^\([a-z0-9_]*\):.*/\1/p' "$root/crates.txt"); do
    [ -d "$root/crates/$crate/out/rlib/$crate.rlib" ] || continue
    [ ! -e "$root/crates/$crate/out/rlib/stamp" ] || return 1
    below+=(-L "dependency=$root/crates/$crate/out/rlib")
  done
  for crate in $(sed -n 's/^exports staticlib://p' "$root/crates.txt"); do
    below+=(--extern "$crate=$root/crates/$crate/out/rlib/$crate.rlib")
  done
  "$kit/bin/rattle" build --crate-name exports src/lib.rt --crate-type staticlib --extern "std=$kit/rlibs/std.rlib" -L "dependency=$kit/rlibs" \
    "${below[@]}" --antt-project "$kit/rattle/logic/antt-project.json" \
    --logic-built "$kit/logic_built" --jobs 2 --toolchain "$kit/toolchain" --backend llvm -o "$made"
}

below() { # the crate and those that it stands on; each stands only on those above it in crates.txt
  local lines i needed=" $name "
  mapfile -t lines < "$root/crates.txt"
  for ((i = ${#lines[@]} - 1; i >= 0; i--)); do
    [[ ${lines[i]} =~ ^([a-z0-9_]+)(\ staticlib)?:(.*)$ ]] && [[ $needed == *" ${BASH_REMATCH[1]} "* ]] || continue
    echo "${BASH_REMATCH[1]}"
    needed+="${BASH_REMATCH[3]} "
  done
}

progress() { # CRATE..: of what rt says its own lines, and behind the first one of each crate how many it has come to
  local line crates=" $* " k=0
  while IFS= read -r line; do
    [[ $line == 'rt: '* && $line != 'rt: running'* ]] || continue
    if [[ $line =~ ^rt:\ (chose\ --jobs\ [0-9]+\ for\ )?([a-z0-9_]+)(:|\ is\ kept|$) && $crates == *" ${BASH_REMATCH[2]} "* ]]; then
      crates=${crates/" ${BASH_REMATCH[2]} "/ } k=$((k + 1)) line+=" ($k of $#)"
    fi
    echo "$line" >&2
  done
}

prove() { # rt run also runs the program, on no input
  cd "$root/crates/$name" || return 1
  # shellcheck disable=SC2046
  { over_rt_ci || rt $words; } < /dev/null 2>&1 | tee "$root/$talk" | progress $(below)
  return "${PIPESTATUS[0]}"
}

if ! current; then
  if [ $there = yes ]; then
    echo "$name: no proved one is here, or a file of the crates is newer than it" >&2
    exit 1
  fi
  if ! command -v rt > /dev/null; then
    echo "$name is not built, and rt is not on the PATH. rt is the command of the Rattle kit, the language's prover and compiler; README.md says more" >&2
    exit 2
  fi
  talk=target/$name-build.txt
  mkdir -p "$root/target"
  # shellcheck disable=SC2046
  set -- $(below)
  echo "$name and the $(($# - 1)) crates that it stands on are proved first: from nothing that takes minutes (CONTRIBUTING.md, 'What it costs')" >&2
  if ! prove; then
    echo "$name is not proved; $talk has what the prover says" >&2
    exit 1
  fi
  touch "$made" # where rt found that nothing had changed
fi
echo "$made"
