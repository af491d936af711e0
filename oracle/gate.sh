#!/bin/bash
# 20,000 random jobs through core.rs and through the engine in one process: answers, payloads, bindings, marks, constraints. 4,000 with literals beside a
# second reading of 02 (R-7), 2,000 with an MJ before every second record (R-8), and MJ's edges; likewise KP (R-11). The slow engine beside the engine (R-14)
# in all of these, at edges, on the states of 500 more, and on the traps. Then joinlog over streams of 600 KiB, beside one call of the engine over the whole
# stream. Exits non-zero on a disagreement, and where cargo is missing, unless WITHOUT_CORE_RS=yes: so a green gate has made the comparison, or says that it
# was told not to. Engine and joinlog are the proved ones (tools/build.sh): after `rt ci`, as in the gate, they are there in seconds.
cd "$(dirname "$0")" || exit 1
if [ "${WITHOUT_CORE_RS-}" = yes ]; then
  echo "told to leave out the comparison with core.rs"
  exit 0
fi
if ! command -v cargo > /dev/null; then
  echo "no cargo, so no comparison with core.rs: WITHOUT_CORE_RS=yes leaves it out"
  exit 1
fi
PONGIWARU_LIB=$(bash ../tools/build.sh exports) || exit 1
export PONGIWARU_LIB
joinlog=$(bash ../tools/build.sh joinlog) || exit 1
cargo build --release --offline -j2 || exit 1
oracle=target/release/oracle
$oracle compare 1 20000 && $oracle compare 1 4000 --profile=numbers && $oracle compare 1 2000 --profile=pairs && $oracle many && $oracle twice 1 500 && $oracle traps slow && $oracle compare 1 2000 --profile=kept && $oracle keep 1 2000 && $oracle joinlog "$joinlog"
