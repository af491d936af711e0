#!/bin/bash
# tools/dist.sh LOG [FOLDER]: what a reader or a caller needs, and no prover: archive, header, .pc, joinlog, joblog, the check's log and SHA256SUMS, in
# FOLDER/pongiwaru-VERSION-MACHINE.tar.gz (target/dist); its path is printed. The same files give the same bytes.
# LOG is what the gate printed here, over these sources: `.ci/run | tee target/gate.log`. It is packed too, and nothing is packed without it; nothing is proved.
# Exits with 1 where LOG is none of a gate that passed over these sources, with 2 on bad usage and where something is not there or cannot be written.
set -u
root=$(cd "$(dirname "$0")/.." && pwd)

die() { # STATUS MESSAGE
  echo "tools/dist.sh: $2" >&2
  exit "$1"
}

below() { # NAMES..: these crates and all that they stand on, by crates.txt
  awk -F: -v wanted="$*" '
    /^#/ { next }
    { split($1, head, " "); on[head[1]] = $2 }
    END {
      n = split(wanted, todo, " ")
      for (i = 1; i <= n; i++) {
        if (!(todo[i] in on) || seen[todo[i]]++) continue
        print todo[i]
        m = split(on[todo[i]], more, " ")
        for (k = 1; k <= m; k++) todo[++n] = more[k]
      }
    }' "$root/crates.txt"
}

checked() { # LOG: the gate passed, each crate that is packed was proved in it or kept as proved, and no source is newer
  local name newer
  [[ $(tail -n 1 "$1") =~ ^[1-9][0-9]*\ passed,\ 0\ failed$ ]] || die 1 "$1: no log of a gate that passed: its last line is not 'N passed, 0 failed'"
  for name in $(below exports joinlog); do
    grep -Eq "^rt: $name (proved|is kept: an earlier run on this machine proved the same files over the same libraries)$" "$1" || die 1 "$1: $name is not proved in it"
  done
  newer=$(find "$root"/crates.txt "$root"/crates/*/{src,specs,proofs} -type f -newer "$1" -print -quit 2> /dev/null)
  [ -z "$newer" ] || die 1 "$1: older than ${newer#"$root"/}, so it is not of these sources"
}

number() { sed -n "s/^#define PONGIWARU_$1 \([0-9]*\)$/\1/p" "$root/crates/exports/pongiwaru.h"; }

put() { # MODE FILE PLACE: a file under its place in the release
  install -D -m "$1" "$2" "$made/$3" || die 2 "$made/$3: cannot be written"
}

pack_files() { # LOG
  put 755 "$joinlog" bin/joinlog
  put 755 "$root/rust/joblog/target/release/joblog" bin/joblog
  put 644 "$archive" lib/libpongiwaru.a
  put 644 <(sed "s/@VERSION@/$version/" "$root/tools/dist/pongiwaru.pc") lib/pkgconfig/pongiwaru.pc
  put 644 "$root/crates/exports/pongiwaru.h" include/pongiwaru.h
  put 644 "$root/crates/exports/example.c" share/example.c
  put 644 "$root/crates/joinlog/stdin" share/worked.job
  put 644 "$root/crates/joinlog/stdout" share/worked.log
  put 644 "$root/docs/RECORDS.md" RECORDS.md
  put 644 "$root/tools/dist/README" README
  put 644 "$root/LICENSE" LICENSE
  put 644 "$root/NOTICE" NOTICE
  put 644 "$1" check.log
  (cd "$made" && find . -type f ! -name SHA256SUMS | sed 's,^\./,,' | LC_ALL=C sort | xargs sha256sum > SHA256SUMS) || die 2 "no sums"
}

case ${1--h} in -h | --help) sed -n '2,5s/^# //p' "$0" && exit 0 ;; -*) die 2 "no flag $1; -h says how" ;; esac
[ $# -le 2 ] || die 2 "a log and a folder are wanted; -h says how"
[ -f "$1" ] || die 2 "$1: no such file; -h says how"
checked "$1"
archive=$(bash "$root/tools/build.sh" --there exports) && joinlog=$(bash "$root/tools/build.sh" --there joinlog) || die 2 "run the gate here first"
cargo build -q --release --offline --manifest-path "$root/rust/joblog/Cargo.toml" || die 2 "joblog cannot be built"
version=$(number VERSION) name=pongiwaru-$(number VERSION)-$(uname -m)-linux out=${2-$root/target/dist}
made=$out/$name
mkdir -p "$out" && rm -rf "$made" || die 2 "$out: cannot be written"
pack_files "$1"
tar -C "$out" --sort=name --mtime=@0 --owner=0 --group=0 --numeric-owner -c "$name" | gzip -n > "$made.tar.gz" || die 2 "$made.tar.gz: cannot be written"
rm -rf "$made"
echo "$made.tar.gz"
