#!/usr/bin/env bash
# Measures `bench call` on the modules of tools/speed, and `wasm-interp` of Debian's package wabt on the same: the least
# processor time of five runs (RUNS in the environment), in seconds and in nanoseconds an instruction. The instructions
# are the fuel that `bench call` takes. Build the program first, with `rt run` in crates/bench, or name one.
set -eu
here=$(realpath "$(dirname "$0")")
program=$(realpath "${1:-$here/../crates/bench/out/bench}")
fuel=1000000000
folder=$(mktemp -d)
trap 'rm -rf "$folder"' EXIT
cd "$folder"

# least COMMAND...: the least user time of some runs
least() {
  local run TIMEFORMAT=%U
  for ((run = 0; run < ${RUNS:-5}; run++)); do
    { time "$@" > said; } 2>&1
  done | sort -n | head -n 1
}

# each SECONDS COUNT: nanoseconds for each
each() { awk -v s="$1" -v n="$2" 'BEGIN { printf "%.1f", s * 1e9 / n }'; }

echo "| Module | Instructions | bench call | ns each | wasm-interp | ns each | ratio |"
echo "|---|---|---|---|---|---|---|"
for name in fib sieve mix; do
  wat2wasm "$here/speed/$name.wat" -o "$name.wasm"
  ours=$(least "$program" call "$name.wasm" run $fuel)
  count=$("$program" call "$name.wasm" run $fuel | awk -v fuel=$fuel '{ print fuel - $4 }')
  theirs=$(least wasm-interp "$name.wasm" --run-all-exports)
  ratio=$(awk -v a="$theirs" -v b="$ours" 'BEGIN { printf "%.1f", a / b }')
  echo "| $name | $count | $ours s | $(each "$ours" "$count") | $theirs s | $(each "$theirs" "$count") | $ratio |"
done
