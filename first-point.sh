#!/usr/bin/env bash
# Proves and builds akl, then gives it a first point and a query, and shows the answer. How far it is goes to standard error.
set -euo pipefail
cd "$(dirname "$0")/crates/akl"

# The crates that akl stands on, and akl, in the order in which they are proved.
crates=$(awk -F: '
  function visit(name, below, i, n) {
    if (!(name in stands_on) || seen[name]++) return
    n = split(stands_on[name], below, " ")
    for (i = 1; i <= n; i++) visit(below[i])
    print name
  }
  { stands_on[$1] = $2 }
  END { visit("akl") }' ../../crates.txt)
count=$(wc -l <<<"$crates")

# Of what `rt run` says: which crate it proves, how many of its functions are done, and what it waits for.
progress() {
  local line crate=
  while IFS= read -r line; do
    case $line in
      'rt: chose --jobs '*' for '*)
        crate=${line##* }
        tell "$crate, crate $(grep -nx "$crate" <<<"$crates" | cut -d: -f1) of $count"
        ;;
      'so far: '*' of '*' functions checked'*)
        line=${line#so far: }
        tell "  ${line%% functions*} functions of $crate"
        ;;
      'rt: '*waiting*) tell "${line#rt: }" ;;
    esac
  done
}

# A line with the minutes and seconds since the script began.
tell() {
  printf '%3d:%02d  %s\n' $((SECONDS / 60)) $((SECONDS % 60)) "$1" >&2
}

tell "Proves and builds akl and the $((count - 1)) crates below it. From nothing that takes about 20 minutes on 4 processors;"
tell "what was proved on this machine before isn't proved again."
log=$(mktemp)
trap 'rm -f "$log"' EXIT
rt run 2>&1 </dev/null | tee "$log" | progress || { cat "$log" >&2; exit 1; }
tell "The answer to a first point and a query:"
printf '+cpu host=a\r\n:100\r\n:5\r\n+!query\r\n$16\r\n{"select":"cpu"}\r\n' | out/akl
