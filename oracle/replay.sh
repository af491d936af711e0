#!/bin/sh
# Prints replay.list, made from its seeds: core.rs's answers, 0 to 4 alone.
cd "$(dirname "$0")" || exit 1
O=target/release/oracle
echo "# 180 jobs with core.rs's answers. Made by replay.sh."
$O gen exhaustive 50 60 115 --cut &&
  $O gen random 5 80 18 --cut &&
  $O gen random 6 20 18 refs --cut &&
  $O gen random 7 20 18 lists --cut
