#!/usr/bin/env bash
# Writes the modules and the descriptions of the six guests with the program `guests`, or with the one that is named, and
# runs random folders of them, 50 or as many as are named, through tools/compare/folder.py: the logs are those of the
# guests of tools/compare/kit_guests.py. Where Python 3.11 isn't there, that is said.
#
#     kit.sh [GUESTS [COUNT]]
set -eu
here=$(realpath "$(dirname "$0")")
guests=$(realpath "${1:-$here/../crates/guests/out/guests}")
if ! python3 -c 'import tomllib' 2> /dev/null; then
  echo "kit: Python 3.11 isn't there: the six guests are not compared with those of kit_guests.py"
  exit 0
fi
folder=$(mktemp -d)
trap 'rm -rf "$folder"' EXIT
for name in listener echo gateway flooder; do
  "$guests" "$name" > "$folder/kit-$name.wasm"
done
"$guests" sender '100#1770' 10 1000 > "$folder/kit-sender.wasm"
"$guests" sleeper '100#1770' > "$folder/kit-sleeper.wasm"
"$guests" description 1 > "$folder/kit-description-1.toml"
"$guests" description 1 timer > "$folder/kit-description-1t.toml"
"$guests" description 2 > "$folder/kit-description-2.toml"
python3 "$here/compare/kit_alike.py" "$folder" "${2:-50}"
