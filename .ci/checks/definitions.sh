#!/usr/bin/env bash
# docs/definitions.md against the definitions that the clauses of the top call reach.
exec python3 "$(dirname "$0")/definitions.py"
