#!/usr/bin/env bash
# Measures `bench wasm`, and of Debian's package wabt `wasm-objdump -h` and `wasm-validate`, on the large modules of
# tools/big_modules.py, at 1, 2 and 4 MiB: processor time in seconds and the greatest memory in MiB. Then it checks
# that modules that state a count of 2^32 - 1 are refused as tools/big_modules.py says, and what that takes.
# Build the program first, with `rt run` in crates/bench, or name one. It needs GNU time (Debian's package time).
# SIZES and KINDS in the environment choose some: SIZES="1 2" KINDS="nops locals" tools/speed_modules.sh
set -eu
here=$(realpath "$(dirname "$0")")
program=$(realpath -m "${1:-$here/../crates/bench/out/bench}")
folder=$(mktemp -d)
trap 'rm -rf "$folder"' EXIT
cd "$folder"
[ -x /usr/bin/time ] || { echo "speed_modules: /usr/bin/time isn't there" >&2; exit 1; }

# has COMMAND
has() { command -v "$1" > /dev/null; }

# measure COMMAND...: "seconds s, memory MiB" of the command, and its status where that isn't 0.
measure() {
  local status=0
  has "$1" || { echo "-"; return; }
  /usr/bin/time -q -o took -f '%U %S %M' "$@" > answer 2> report || status=$?
  awk -v status="$status" '{ printf "%.2f s, %.0f MiB%s\n", $1 + $2, $3 / 1024, status == 0 ? "" : " (status " status ")" }' took
}

echo "| Module | Bytes | bench wasm | wasm-objdump -h | wasm-validate |"
echo "|---|---|---|---|---|"
for kind in ${KINDS-constants nops nested locals data segments functions exports}; do
  for size in ${SIZES-1 2 4}; do
    "$here/big_modules.py" "$kind" $((size * 1048576)) big.wasm
    echo "| $kind | $(stat -c %s big.wasm) | $(measure "$program" wasm big.wasm) | $(measure wasm-objdump -h big.wasm) | $(measure wasm-validate big.wasm) |"
  done
done

has "$program" || exit 0
failed=0
mkdir counts
"$here/big_modules.py" counts counts > expected
echo
echo "| A count of 2^32 - 1 | bench wasm | wasm-validate |"
echo "|---|---|---|"
while read -r name cause place; do
  took=$(measure "$program" wasm "counts/$name.wasm")
  if [ -s answer ] || [ "$(cat report)" != "refused main $cause $place 0" ]; then
    echo "speed_modules: $name: '$(cat answer report)' in place of 'refused main $cause $place 0'" >&2
    failed=1
  fi
  echo "| $name | $took | $(measure wasm-validate "counts/$name.wasm") |"
done < expected
exit "$failed"
