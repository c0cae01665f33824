#!/usr/bin/env bash
# Assembles each text of examples/modules with wat2wasm (Debian's package wabt), and compares what the built
# program, or the one that is named, writes of the module with the line in the text; likewise what
# tools/module_line.py writes, and what the program writes of the calls in the text. Then it runs the program on each module of vectors/cases/module_cases/bodies.txt: it is accepted, or refused
# as the table says; and what the program accepts, here and there, wabt's wasm-validate accepts. What isn't there is
# skipped, and that is said.
set -eu
here=$(realpath "$(dirname "$0")")
program=$(realpath -m "${1:-$here/../crates/bench/out/bench}")
folder=$(mktemp -d)
trap 'rm -rf "$folder"' EXIT
cd "$here/../examples/modules"
# WebAssembly 1.0: each addition that wat2wasm takes by default is off.
profile="--disable-sign-extension --disable-saturating-float-to-int --disable-multi-value --disable-bulk-memory
  --disable-reference-types --disable-simd"
failed=0

fail() { echo "modules: $*" >&2; failed=1; }

# compare NAME WHO: the file "answer" is the line in the text of this name, and "report" is empty.
compare() {
  if [ -s "$folder/report" ] || ! cmp -s "$folder/$1.line" "$folder/answer"; then
    fail "$1.wat: $2 writes '$(cat "$folder/answer" "$folder/report")' in place of '$(cat "$folder/$1.line")'"
  fi
}

# accepted NAME: wasm-validate accepts the file of this name.
accepted() {
  command -v wasm-validate > /dev/null || return 0
  wasm-validate $profile "$folder/$1.wasm" > "$folder/report" 2>&1 || fail "$1: wasm-validate: $(head -n 1 "$folder/report")"
}

# The modules of the table.
if [ -x "$program" ]; then
  mkdir "$folder/table"
  python3 - "$folder/table" ../../vectors/cases/module_cases/bodies.txt << 'END'
import sys
for number, line in enumerate(line for line in open(sys.argv[2]) if not line.startswith("#")):
    runs, found = line.rstrip("\n").split(" ", 1)[1].rsplit(" = ", 1)
    units = (run.partition("*") for run in runs.split())
    with open("%s/%d.wasm" % (sys.argv[1], number), "wb") as file:
        file.write(b"".join(bytes.fromhex(unit) * int(times or 1) for unit, _, times in units))
    with open("%s/%d.found" % (sys.argv[1], number), "w") as file:
        file.write("" if found == "valid" else "refused main %s\n" % found)
END
  for file in "$folder"/table/*.wasm; do
    name=table/$(basename "$file" .wasm)
    "$program" wasm "$file" > /dev/null 2> "$folder/report" || true
    cmp -s "$folder/report" "$folder/$name.found" || fail "bodies.txt: '$(cat "$folder/report")' in place of '$(cat "$folder/$name.found")'"
    [ -s "$folder/$name.found" ] || accepted "$name"
  done
  command -v wasm-validate > /dev/null || echo "modules: wasm-validate isn't there: what is accepted is not tried there"
else
  echo "modules: $program isn't there: bench wasm is not checked"
fi

if ! command -v wat2wasm > /dev/null; then
  echo "modules: wat2wasm isn't there: examples/modules is not checked"
  exit "$failed"
fi
modules=()
for text in *.wat; do
  name=${text%.wat}
  sed -n 's/^;; line: //p' "$text" > "$folder/$name.line"
  options=$(sed -n 's/^;; options: //p' "$text")
  if wat2wasm $profile $options "$text" -o "$folder/$name.wasm"; then modules+=("$name"); else fail "$text: not assembled"; fi
done

# The second computation, of all modules in one run.
(cd "$folder" && "$here/module_line.py" "${modules[@]/%/.wasm}") > "$folder/lines" || fail "module_line.py ends with a fault"
for name in "${modules[@]}"; do
  IFS= read -r line || line="nothing"
  echo "$line" > "$folder/answer"
  : > "$folder/report"
  compare "$name" module_line.py
done < "$folder/lines"

if [ -x "$program" ]; then
  for name in "${modules[@]}"; do
    "$program" wasm "$folder/$name.wasm" > "$folder/answer" 2> "$folder/report" || fail "$name.wat: bench wasm has status $?"
    compare "$name" "bench wasm"
    accepted "$name"
    while IFS= read -r call; do
      "$program" call "$folder/$name.wasm" ${call%% = *} > "$folder/answer" 2> "$folder/report" || true
      [ "$(cat "$folder/answer" "$folder/report")" = "${call#* = }" ] ||
        fail "$name.wat: '$(cat "$folder/answer" "$folder/report")' in place of '$call'"
    done < <(sed -n 's/^;; call: //p' "$name.wat")
  done
fi
exit "$failed"
