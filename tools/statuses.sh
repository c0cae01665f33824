#!/usr/bin/env bash
# Runs the proved program with the words and files of tools/runs.txt, and compares its output, its line on the error
# stream and its exit status. No clause speaks of `main`.
set -eu
here=$(dirname "$0")
exec python3 "$here/runs.py" "${1:-$here/../crates/bench/out/bench}"
