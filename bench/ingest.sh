#!/usr/bin/env bash
# What a put and a row of a select cost akl, beside what they cost a plain C program for the same work.
#
# It builds the floor (floor.c, which says what it does and what it leaves out) and measures both programs by turns in one
# run, on stores in a temporary folder that akl itself makes:
#
# - Puts: processor time a put, in the program and in the system together, for six shapes of puts, of 50 series and of 1000.
#   A run is the whole life of the process: the store is opened, all puts are read from a file, the leaves and views are
#   written and synced, and at the end all is flushed. Nothing is taken off; what a run without input takes is told below.
#   A put of an array gives two points, any other one. With the default number of points each of 50 series fills leaves, of
#   which views are taken; of 1000 series none does before the end, where each has one leaf closed.
# - Allocations a put: calls of malloc, calloc and realloc of one more run, less those of a run without input. They are
#   counted by a library that is loaded before the program (ingest/calls.c), so only where it is linked to the C library
#   dynamically, as akl is; else a dash stands there.
# - A select of all rows to a file, from a store whose leaves are all closed: rows a second on the wall and of processor
#   time, each over the whole life of the process.
#
# After each run the files of both stores and what both programs told are compared byte by byte, and with the allocations
# the reads, writes and syncs that both asked for. Where they differ the floor did other work, which is told, and the status
# is 1.
#
# Minimum and median are of the repeats. On a machine that does other work compare figures of one run alone.
set -eu

help() {
  cat <<'HELP'
usage: bench/ingest.sh [AKL]
AKL is the program, crates/akl/out/akl where it isn't given. These can be set in the environment:
  POINTS   points of a stream (default 300000)
  ROWS     rows of the select (default 1000000)
  REPEATS  runs of each program for a line (default 5)
HELP
}

refuse() {
  echo "bench/ingest.sh: $1" >&2
  exit "${2:-1}"
}

case ${1:-} in
  -h | --help)
    help
    exit 0
    ;;
  -*)
    help >&2
    exit 2
    ;;
esac
if [ $# -gt 1 ]; then
  help >&2
  exit 2
fi
here=$(cd "$(dirname "$0")" && pwd)
akl=${1:-$here/../crates/akl/out/akl}
points=${POINTS:-300000}
rows=${ROWS:-1000000}
repeats=${REPEATS:-5}
for number in "$points" "$rows" "$repeats"; do
  [[ $number =~ ^[1-9][0-9]{0,8}$ ]] || refuse "POINTS, ROWS and REPEATS are whole numbers from 1 on" 2
done
command -v gcc >/dev/null || refuse "gcc isn't there, and the floor is built with it"
if ! [ -f "$akl" ] || ! [ -x "$akl" ]; then
  refuse "no program at $akl; 'rt run' in crates/akl builds it"
fi
akl=$(cd "$(dirname "$akl")" && pwd)/$(basename "$akl")

work=$(mktemp -d)
trap 'rm -rf "$work"' EXIT
trap 'exit 1' INT TERM
cd "$work"
for tool in stream timed; do
  gcc -std=gnu11 -O2 -o "$tool" "$here/ingest/$tool.c"
done
gcc -std=gnu11 -O2 -o floor "$here/floor.c"
gcc -std=gnu11 -O2 -shared -fPIC -o calls.so "$here/ingest/calls.c"
: >empty
different=no

# Each program as the words that serve a store.
serve() {
  case $1 in
    akl) served=("$akl" run "$work/store.akl") ;;
    floor) served=("$work/floor" "$work/store.floor") ;;
  esac
}

# A point takes 8 bytes of a leaf or fewer, but for the first of each, so this many blocks have room for all points of a
# stream with so many series, and for the nodes above their leaves.
blocks_for() {
  echo $(($1 / 400 + 2 * $2 + 64))
}

# New stores for both programs: for so many points of so many series, with this pool and this scale.
make_stores() {
  local each blocks
  blocks=$(($(blocks_for "$1" "$2") / 2))
  rm -rf store.akl store.floor
  for each in akl floor; do
    "$akl" create "store.$each" --volumes 2 --blocks "$blocks" --slot 64 --pool "$3" --scale "$4" ||
      refuse "no store could be made"
  done
}

# Serves the input with one program, and gives its times.
run_one() {
  serve "$1"
  ./timed "$2" "told.$1" "${served[@]}" || refuse "$1 failed on $3"
}

compare() {
  local file
  cmp -s told.akl told.floor || differ "what they told on $1"
  for file in store.akl/*; do
    cmp -s "$file" "store.floor/${file#*/}" || differ "${file#*/} after $1"
  done
}

differ() {
  different=yes
  echo "akl and the floor differ: $1" >&2
}

# Runs both programs by turns, each one first in every second repeat. Their times stand in times.akl and times.floor. The
# stores are made anew by the words behind the first two, where there are any.
run_by_turns() {
  local input=$1 name=$2 i each order
  shift 2
  : >times.akl
  : >times.floor
  for ((i = 0; i < repeats; i++)); do
    [ $# -eq 0 ] || "$@"
    order="akl floor"
    [ $((i % 2)) -eq 0 ] || order="floor akl"
    for each in $order; do
      run_one "$each" "$input" "$name" >>"times.$each"
    done
    compare "$name"
  done
}

# Minimum and median of a column of a file with times.
low_and_middle() {
  sort -n -k "$2,$2" "$1" | awk -v column="$2" '
    { time[NR] = $column }
    END { print time[1], NR % 2 ? time[(NR + 1) / 2] : (time[NR / 2] + time[NR / 2 + 1]) / 2 }'
}

# Serves the input with one program and counts its calls: allocations, reads, writes, syncs.
count_one() {
  serve "$1"
  head -c 4096 /dev/zero >calls
  CALLS=$work/calls LD_PRELOAD=$work/calls.so "${served[@]}" <"$2" >"told.$1" ||
    refuse "$1 failed while its calls were counted"
  od -An -v -t u8 -N 32 -w32 calls
}

# The allocations of both programs for an input beyond those without one, a dash where they can't be counted.
count_allocations() {
  local input=$1 name=$2 each allocations rest without
  shift 2
  for each in akl floor; do
    "$@"
    count_one "$each" empty >counted
    read -r without rest <counted
    "$@"
    count_one "$each" "$input" >counted
    read -r allocations rest <counted
    if [ "$rest" = "0 0 0" ]; then
      echo - >"allocations.$each"
    else
      echo $((allocations - without)) >"allocations.$each"
    fi
    echo "$rest" >"calls.$each"
  done
  if ! grep -q -- - allocations.akl allocations.floor; then
    cmp -s calls.akl calls.floor ||
      differ "reads, writes and syncs of $name: $(<calls.akl) of akl, $(<calls.floor) of the floor"
  fi
}

load() {
  cut -d ' ' -f 1-3 /proc/loadavg 2>/dev/null || uptime
}

measure_puts() {
  local shape=$1 series=$2 pool=$3 name=$4 scale=0 puts=$points
  [ "$shape" != decimal ] || scale=2
  [ "$shape" != array ] || puts=$((points / 2))
  ./stream "$shape" "$series" "$points" >stream.resp
  run_by_turns stream.resp "$name of $series" make_stores "$points" "$series" "$pool" "$scale"
  count_allocations stream.resp "$name of $series" make_stores "$points" "$series" "$pool" "$scale"
  echo "$(low_and_middle times.akl 2) $(low_and_middle times.floor 2) $(<allocations.akl) $(<allocations.floor)" |
    awk -v name="$name" -v series="$series" -v puts="$puts" '
      function each(count) { return count == "-" ? count : sprintf("%.3f", count / puts) }
      { printf "%-24s %6d  %7.3f %7.3f  %7.3f %7.3f  %6.2f  %7s %7s\n", name, series,
          $1 / puts, $2 / puts, $3 / puts, $4 / puts, $2 / $4, each($5), each($6) }'
}

measure_shapes() {
  local series=$1 pool=$2
  measure_puts canonical "$series" "$pool" "canonical names"
  measure_puts reordered "$series" "$pool" "tags in another order"
  measure_puts array "$series" "$pool" "two metrics, an array"
  measure_puts bulk "$series" "$pool" "name as a bulk"
  measure_puts decimal "$series" "$pool" "decimal value, scale 2"
  measure_puts text-time "$series" "$pool" "time as text"
  run_by_turns empty "no input" make_stores "$points" "$series" "$pool" 0
  echo "$(low_and_middle times.akl 2) $(low_and_middle times.floor 2)" |
    awk -v series="$series" '{ printf "%-24s %6d  %7.3f %7.3f  %7.3f %7.3f   (milliseconds a run)\n", "no input", series,
      $1 / 1000, $2 / 1000, $3 / 1000, $4 / 1000 }'
}

measure_select() {
  local line column
  ./stream canonical 50 "$rows" >stream.resp
  make_stores "$rows" 50 256 0
  rm -rf store.floor
  serve akl
  "${served[@]}" <stream.resp || refuse "akl failed on the points for the select"
  cp -r store.akl store.floor
  sync store.floor/*
  # shellcheck disable=SC2016
  printf '+!query\r\n$16\r\n{"select":"cpu"}\r\n' >query.resp
  run_by_turns query.resp "the select"
  [ "$(grep -c ^cpu told.akl)" = "$rows" ] || refuse "the select didn't give $rows rows"
  column=1
  for line in "on the wall" "processor time"; do
    echo "$(low_and_middle times.akl $column) $(low_and_middle times.floor $column)" |
      awk -v name="$line" -v rows="$rows" '{ printf "%-24s %14d %14d  %14d %14d  %6.2f\n", name,
        1e6 * rows / $1, 1e6 * rows / $2, 1e6 * rows / $3, 1e6 * rows / $4, $2 / $4 }'
    column=2
  done
}

cat <<TABLE
$(date -u +%Y-%m-%d), $(getconf _NPROCESSORS_ONLN) processors, load average $(load)
$points points a stream, $repeats runs of each program by turns

microseconds of processor time a put      akl              floor        ratio   allocations a put
shape                    series      min  median      min  median  medians      akl   floor
TABLE
measure_shapes 50 256
measure_shapes 1000 1024
cat <<TABLE

select of $rows rows, rows a second       akl                            floor         ratio
                                    best         median            best         median  medians
TABLE
measure_select
echo
echo "load average at the end $(load)"
if [ $different = yes ]; then
  echo "akl and the floor differ, as told above: the floor did other work"
  exit 1
fi
echo "The files and answers of akl and of the floor were byte for byte the same after each run, as were the numbers of"
echo "reads, writes and syncs where they were counted."
