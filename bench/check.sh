#!/usr/bin/env bash
# Times `hole check` from start to end, the best of 15 rounds for each of the settings: bench/check.sh PROGRAM SETTINGS..
set -euo pipefail
program=$1
shift
for settings; do
  for round in 1 2 3 4 5 6 7 8 9 10 11 12 13 14 15; do
    start=$(date +%s%N)
    "$program" check "$settings" > /dev/null
    echo $(($(date +%s%N) - start))
  done | sort -n | awk -v name="$settings" 'NR == 1 { printf "check %s: %d us\n", name, $1 / 1000 }'
done
