#!/usr/bin/env bash
# README.md: its length, that it names each crate, and that the lines of the files that it trusts are counted.
set -u
status=0
if [ "$(wc -l <README.md)" -gt 250 ]; then
  echo 'README.md has more than 250 lines'
  status=1
fi
for crate in $(grep -oE '^[a-z0-9_]+' crates.txt); do
  if ! grep -qF "\`$crate\`" README.md; then
    echo "README.md doesn't name $crate"
    status=1
  fi
done
trusted=$(git ls-files 'crates/akl/src/*.rt' | grep -v '/tests\.rt$')
proved=$(grep -E '/(memory|items)\.rt$' <<<"$trusted")
lines() { tr '\n' '\0' <<<"$1" | xargs -0 cat | wc -l; }
counted="the $(wc -l <<<"$trusted") files of crates/akl beside its tests, $(lines "$trusted") lines"
exact="(\`memory.rt\` and \`items.rt\`, $(lines "$proved") lines)"
for text in "$counted" "$exact"; do
  if ! tr '\n' ' ' <README.md | tr -s ' ' | grep -qF "$text"; then
    echo "README.md doesn't say, as counted: $text"
    status=1
  fi
done
exit $status
