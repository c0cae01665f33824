#!/usr/bin/env bash
# Runs the built program on each play of examples/plays and compares its log with the one beside it.
set -eu
here=$(realpath "$(dirname "$0")")
program=$(realpath "${1:-$here/../crates/bench/out/bench}")
output=$(mktemp)
trap 'rm -f "$output"' EXIT
cd "$here/../examples/plays"
failed=0
for play in *.play; do
  if ! "$program" play "$play" > "$output" || ! cmp -s "$output" "${play%.play}.log"; then
    echo "examples/plays/$play: the log differs" >&2
    failed=1
  fi
done
exit "$failed"
