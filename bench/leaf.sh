#!/usr/bin/env bash
# Points a second of push, encode and decode of a leaf. It proves, builds and runs a small program in a copy of the
# crates that it stands on, so that the gate has nothing to do with it.
set -eu
top=$(cd "$(dirname "$0")/.." && pwd)
copy=$(mktemp -d)
trap 'rm -rf "$copy"' EXIT
mkdir -p "$copy/crates/leaf_bench/src" "$copy/crates/leaf_bench/proofs/fill"
for crate in ak_base ak_bytes ak_leaf; do
  mkdir "$copy/crates/$crate"
  cp -r "$top/crates/$crate/src" "$top/crates/$crate/specs" "$top/crates/$crate/proofs" "$copy/crates/$crate/"
done
cp "$top/bench/leaf/main.rt.txt" "$copy/crates/leaf_bench/src/main.rt"
cp "$top/bench/leaf/Invariants.antt.txt" "$copy/crates/leaf_bench/proofs/fill/Invariants.antt"
cp "$top/HANDLES" "$copy/"
{
  grep -E '^(ak_base|ak_bytes|ak_leaf):' "$top/crates.txt"
  echo 'leaf_bench: ak_base ak_bytes ak_leaf'
} >"$copy/crates.txt"
cd "$copy/crates/leaf_bench"
rt run >"$copy/log" 2>&1 || { cat "$copy/log"; exit 1; }
out/leaf_bench
