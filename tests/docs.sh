#!/bin/bash
# The documents: NOTICE names just the files that are carried over, links, paths and theorems' names are there, what is made from a source is made again, what is shown is so.
# Its last line is 'N passed, M failed'; it exits non-zero where M is not 0.
cd "$(dirname "$0")/.." || exit 1
passed=0 failed=0
tmp=$(mktemp -d) && trap 'rm -rf "$tmp"' EXIT

verdict() { # NAME CMD..
  local name=$1
  shift
  if "$@" > "$tmp/out" 2>&1; then
    passed=$((passed + 1)) && echo "ok      $name"
  else
    failed=$((failed + 1)) && echo "FAILED  $name" && head -n 20 "$tmp/out"
  fi
}

named() { # the files that NOTICE names as changed: a folder's further files stand behind its first
  sed -n '/^Carried over and changed/,/^Carried over unchanged/p' NOTICE | grep -o 'crates/[^ ,]*\|[A-Z][A-Za-z]*\.antt' |
    awk '/\// { folder = $0; sub("[^/]*$", "", folder); print; next } { print folder $0 }' | sort
}

saying() { # those that say that they are changed
  grep -rlF 'Changed from the source that NOTICE names: ported to Rattle.' crates --exclude-dir=out --include=*.rt --include=*.antt | sort
}

altered() { # FILE OLD NEW: names.py finds NEW's word, in a tree with this file changed
  rm -rf "$tmp/tree" && mkdir -p "$tmp/tree/tests" "$tmp/tree/$(dirname "$1")" && ln -s "$PWD"/{crates,oracle,rust,tools,.ci,*.md,*.sh,*.txt,LICENSE,NOTICE} "$tmp/tree" 2> "$tmp/linked"
  cp tests/* "$tmp/tree/tests" && rm -rf "$tmp/tree/docs" "$tmp/tree/$1" && cp -r docs "$tmp/tree" && sed "s@$2@$3@" "$1" > "$tmp/altered" &&
    ! cmp -s "$1" "$tmp/altered" && cp "$tmp/altered" "$tmp/tree/$1" && ! python3 "$tmp/tree/tests/names.py" > "$tmp/found" && ! grep -vF "$(grep -oE '[a-zA-Z_0-9-]+[a-z0-9]' <<< "$3" | head -n 1)" "$tmp/found"
}

looped() { # the lines of the loop that RECORDS.md shows are lines of the example that the tests run, in their order
  awk '/^## Writing a job/ { on = 1 } /^## Names/ { on = 0 } on && /^    / { sub("^ +", ""); if ($0 != "" && $0 != "}") print }' docs/RECORDS.md > "$tmp/shown"
  sed 's/^ *//' rust/pongiwaru/examples/emit.rs | grep -Fx -f "$tmp/shown" | diff "$tmp/shown" - && [ "$(wc -l < "$tmp/shown")" -gt 10 ]
}

made() { python3 tools/computed.py --check && python3 tools/layers.py --check && python3 tools/costs.py --check && python3 tools/claims.py --check && python3 tools/jobs.py antt --check; }

drawn() { # every crate has its place in the picture and its row in README.md
  local name bad=0
  for name in $(sed -n 's/^\([a-z0-9_]*\)\( staticlib\)\{0,1\}:.*/\1/p' crates.txt); do
    grep -q ">$name<" docs/layers.svg && grep -q "^|.*\`$name\`" README.md || { echo "$name" && bad=1; }
  done
  return $bad
}

worked() { # the bytes that RECORDS.md goes through are the bundled job's, and the log is its log
  local bytes
  bytes=$(sed -n '/^## A worked job/,/^    NV   4e 56/p' docs/RECORDS.md | sed -n 's/^    \(\([0-9a-f][0-9a-f] *\)*\)  [A-Z].*/\1/p' | tr -d ' \n')
  [ "$bytes" = "$(od -An -tx1 -v crates/joinlog/stdin | tr -d ' \n')" ] && sed 's/^/    /' crates/joinlog/stdout > "$tmp/log" &&
    grep -Fxq -f "$tmp/log" docs/RECORDS.md && [ "$(grep -Fxc -f "$tmp/log" docs/RECORDS.md)" -eq 3 ]
}

widths() { # prose of 120 columns at most, table cells of 200 characters
  LC_ALL=C.UTF-8 python3 - << 'END'
import glob, sys
bad = 0
for path in ['README.md', 'CONTRIBUTING.md', 'oracle/README.md', 'tools/README.md'] + glob.glob('docs/**/*.md', recursive=True) + glob.glob('rust/*/README.md'):
    for n, line in enumerate(open(path, encoding='utf-8'), 1):
        cells = line.split('|') if line.startswith('|') else []
        if not cells and not line.startswith('    ') and len(line) > 121 or any(len(c) > 200 for c in cells):
            print(f'{path}:{n}')
            bad = 1
sys.exit(bad)
END
}

verdict "files that NOTICE names are those that say they are changed" diff <(named) <(saying)
verdict "the source's copyright line" grep -qF 'Copyright (c) The Diem Core Contributors' NOTICE
verdict "the licence's text" grep -q 'END OF TERMS AND CONDITIONS' NOTICE
verdict "upstream is unchanged" sh -c 'cd oracle/upstream && sha256sum -c ../upstream.sha256'
verdict "links, paths and names" python3 tests/names.py
verdict "a link that leads nowhere is found" altered README.md '(docs/RUNS.md)' '(RUNES.md)'
verdict "a heading that is none is found" altered docs/RECORDS.md '(#a-call)' '(#no-call)'
verdict "a theorem's name that is none is found" altered docs/CLAIMS.md '`sound_is` (Soundness)' '`sound_was` (Soundness)'
verdict "a file of proofs that is none is found" altered docs/requests/R-2.md 'crates/theorems/proofs/NumericRule' 'crates/theorems/proofs/NumericRules'
verdict "an edit that is none is found" altered docs/CLAIMS.md 'default_u8 |' 'default_u9 |'
verdict "an edit that is none is found in prose" altered docs/CLAIMS.md 'length_on_15 (' 'length_on_16 ('
verdict "a name of the definition that is none is found" altered docs/TRACE.md '`max_record`' '`min_record`'
verdict "the loop of an emitter" looped
verdict "what tools/ makes, made again" made
verdict "every crate drawn and named" drawn
verdict "the worked job's bytes" worked
verdict "widths" widths
echo "$passed passed, $failed failed"
[ "$failed" -eq 0 ]
