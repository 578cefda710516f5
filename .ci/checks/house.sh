#!/usr/bin/env bash
# The house: the one line of HANDLES, and sources only where the toolchain looks for them.
set -u
status=0
if [ "$(cat HANDLES)" != "Handles allowed: Net." ]; then
  echo "HANDLES isn't its one line"
  status=1
fi
stray=$(git ls-files '*.rt' '*.antt' | grep -vE '^crates/[a-z0-9_]+/(src|specs|proofs)/')
if [ -n "$stray" ]; then
  printf 'sources outside of a crate:\n%s\n' "$stray"
  status=1
fi
long=$(git ls-files '*.md' | xargs awk 'length($0) > 140 { print FILENAME ": " FNR }')
if [ -n "$long" ]; then
  printf 'long lines in documents:\n%s\n' "$long"
  status=1
fi
exit $status
