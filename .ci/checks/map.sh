#!/usr/bin/env bash
# The map in docs/architecture.md against crates.txt.
exec python3 "$(dirname "$0")/map.py"
