#!/usr/bin/env bash
# The edge of the built program: closed streams, two programs at once, kills, files that are there, no room, no rights, words.
set -u
akl=crates/akl/out/akl
if [ ! -x "$akl" ]; then
  log=$(cd crates/akl && rt run 2>&1) || { printf '%s\n' "$log"; exit 1; }
fi
python3 .ci/checks/edge.py "$akl"
