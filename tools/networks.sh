#!/usr/bin/env bash
# Runs the built program, or the one that is named, on each network of examples/networks and compares its log with the
# one beside the folder. Each line of a file guests.txt names a unit and the words by which the program `guests` writes
# its module: it is written again and compared. Assembles the text of each other module with wat2wasm (Debian's package
# wabt) and compares it with the module beside it; where wat2wasm isn't there, that is said. With the word `second` in
# place of a program, the logs are those of tools/compare/folder.py.
set -eu
here=$(realpath "$(dirname "$0")")
if [ "${1:-}" = second ]; then
  run() { python3 "$here/compare/folder.py" "$1"; }
else
  program=$(realpath "${1:-$here/../crates/bench/out/bench}")
  run() { "$program" run "$1"; }
fi
folder=$(mktemp -d)
trap 'rm -rf "$folder"' EXIT
cd "$here/../examples/networks"
# WebAssembly 1.0: each addition that wat2wasm takes by default is off.
profile="--disable-sign-extension --disable-saturating-float-to-int --disable-multi-value --disable-bulk-memory
  --disable-reference-types --disable-simd"
failed=0

fail() { echo "networks: $*" >&2; failed=1; }

for net in */net.toml; do
  net=${net%/net.toml}
  if ! run "$net" > "$folder/log" || ! cmp -s "$folder/log" "$net.log"; then
    fail "$net: the log differs"
  fi
done
guests="$here/../crates/guests/out/guests"
for list in */guests.txt; do
  while read -r unit words; do
    # the words are split
    if ! "$guests" $words > "$folder/module"; then
      fail "$list: $unit isn't written"
    elif ! cmp -s "$folder/module" "$(dirname "$list")/$unit/binaries/$unit.wasm"; then
      fail "$list: the module of $unit is another one"
    fi
  done < "$list"
done
if ! command -v wat2wasm > /dev/null; then
  echo "networks: wat2wasm isn't there: the modules of examples/networks are not compared with their texts"
  exit "$failed"
fi
for text in */*/*.wat; do
  unit=$(basename "$text" .wat)
  if ! wat2wasm $profile "$text" -o "$folder/module"; then
    fail "$text: not assembled"
  elif ! cmp -s "$folder/module" "$(dirname "$text")/binaries/$unit.wasm"; then
    fail "$text: the module beside it is another one"
  fi
done
exit "$failed"
