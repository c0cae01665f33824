#!/usr/bin/env bash
# Times the proved program on plays of 10,000 and 100,000 send lines: 32 nodes, a resolution of a
# nanosecond, 500 kbit/s, a frame every 300,000 ticks. Then 100,000 send lines once more with 1,024 error
# lines, at each tenth of the first 10,240 attempts. Build it first: `rt run` in crates/bench.
set -eu
program=$(realpath "${1:-$(dirname "$0")/../crates/bench/out/bench}")
folder=$(mktemp -d)
trap 'rm -rf "$folder"' EXIT
cd "$folder"

# measure SENDS ERRORS
measure() {
  local start end
  awk -v sends="$1" -v errors="$2" 'BEGIN {
    printf "play 1000000000 500000 2000000 32 %.0f\n", sends * 300000 + 1000000
    for (k = 1; k <= errors; k++) printf "error %d 1 1 sender 20\n", 10 * k
    for (k = 0; k < sends; k++) printf "%.0f %d send %03x#%02x%02x\n", k * 300000, k % 32, k % 2048, k % 256, k % 7
  }' > bus.play
  start=$(date +%s.%N)
  "$program" play bus.play > bus.log
  end=$(date +%s.%N)
  echo "$1 send lines, $2 error lines: $(awk -v a="$start" -v b="$end" 'BEGIN { printf "%.2f", b - a }') s, $(wc -l < bus.log) log lines, $(tail -n 1 bus.log)"
}

measure 10000 0
measure 100000 0
measure 100000 1024
