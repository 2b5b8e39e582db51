#!/usr/bin/env bash
# Times `hole replay` on scripts of three sizes: bench/replay.sh PROGRAM
set -euo pipefail
program=$1
folder=$(mktemp -d)
trap 'rm -rf "$folder"' EXIT
"$(dirname "$0")/scripts.py" "$folder"
for kind in links turns; do
  for size in quarter half whole; do
    script=$folder/$kind-$size.script
    for round in 1 2 3 4 5 6 7 8 9 10 11 12 13 14 15; do
      start=$(date +%s.%N)
      "$program" replay < "$script" > "$folder/output"
      end=$(date +%s.%N)
      echo "$start $end"
    done | awk -v name="$kind $size" -v bytes="$(stat -c %s "$script")" \
      '{ t = $2 - $1; if (NR == 1 || t < best) best = t } END { printf "%s: %d bytes, %.3f s\n", name, bytes, best }'
    tail -n 1 "$folder/output"
  done
done
