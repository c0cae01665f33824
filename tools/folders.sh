#!/usr/bin/env bash
# Compares runs of folders, and calls of functions, of a program with the second implementation in tools/compare.
#     tools/folders.sh [PROGRAM [COUNT [SEED]]]     COUNT random folders, as many that are spoiled, ten times as many
#                                                  calls; 200 and 1 if not said
# PROGRAM is the built one if it isn't named; with `second` in its place the second implementation is checked alone.
set -eu
here=$(realpath "$(dirname "$0")")
program=${1:-$here/../crates/bench/out/bench}
count=${2:-200}
seed=${3:-1}
named=()
if [ "$program" != second ]; then
  program=$(realpath "$program")
  [ -x "$program" ] || { echo "folders: $program isn't there" >&2; exit 1; }
  named=("$program")
fi
cd "$here/compare"
failed=0
try() { echo "folders: $*"; "$@" || failed=1; }
try python3 tried_modules.py
try python3 tried_calls.py "${named[@]}"
try python3 worked_folders.py "${named[@]}"
try python3 refused_folders.py "${named[@]}"
try python3 random_calls.py $((10 * count)) "$seed" "${named[@]}"
try python3 random_folders.py "$count" "$seed" "${named[@]}"
try python3 random_refusals.py "$count" "$seed" "${named[@]}"
try "$here/networks.sh" "$program"
exit "$failed"
