#!/usr/bin/env bash
# Assembles each text of examples/guests with wat2wasm (Debian's package wabt), compares what the built program, or the
# one that is named, writes of the module with the line in the text, and looks at its exports by tools/guest_exports.py.
# What isn't there is skipped, and that is said.
set -eu
here=$(realpath "$(dirname "$0")")
program=$(realpath -m "${1:-$here/../crates/bench/out/bench}")
folder=$(mktemp -d)
trap 'rm -rf "$folder"' EXIT
cd "$here/../examples/guests"
# WebAssembly 1.0: each addition that wat2wasm takes by default is off.
profile="--disable-sign-extension --disable-saturating-float-to-int --disable-multi-value --disable-bulk-memory
  --disable-reference-types --disable-simd"
failed=0

fail() { echo "guests: $*" >&2; failed=1; }

if ! command -v wat2wasm > /dev/null; then
  echo "guests: wat2wasm isn't there: examples/guests is not checked"
  exit 0
fi
[ -x "$program" ] || echo "guests: $program isn't there: bench wasm is not checked"
for text in *.wat; do
  name=${text%.wat}
  line=$(sed -n 's/^;; line: //p' "$text")
  if ! wat2wasm $profile "$text" -o "$folder/$name.wasm"; then
    fail "$text: not assembled"
    continue
  fi
  fault=$("$here/guest_exports.py" "$folder/$name.wasm") || fail "guest_exports.py ends with a fault"
  [ "$fault" = bound ] || fail "$text: $fault"
  if [ -x "$program" ]; then
    answer=$("$program" wasm "$folder/$name.wasm") || fail "$text: bench wasm has status $?"
    [ "$answer" = "$line" ] || fail "$text: bench wasm writes '$answer' in place of '$line'"
  fi
done
exit "$failed"
