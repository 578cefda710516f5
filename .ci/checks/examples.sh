#!/usr/bin/env bash
# The examples of README.md, docs/protocol.md and docs/operations.md: what the program tells for them, and its statuses.
set -u
akl=crates/akl/out/akl
if [ ! -x "$akl" ]; then
  log=$(cd crates/akl && rt run 2>&1) || { printf '%s\n' "$log"; exit 1; }
fi
status=0
# gives INPUT EXPECTED STATUS [WORD]...: both texts as printf writes them
gives() {
  local input=$1 expected=$2 wanted=$3
  shift 3
  local told got
  told=$(printf -- "$input" | "$akl" "$@"; got=$?; printf '%s.' "$got")
  if [ "$told" != "$(printf -- "$expected"; printf '%s.' "$wanted")" ]; then
    printf 'akl told otherwise for: %s\n%s\n' "$input" "$told"
    status=1
  fi
}
query='+!query\r\n$16\r\n{"select":"cpu"}\r\n'
gives '+cpu host=a\r\n:100\r\n:5\r\n'"$query" '$17\r\ncpu host=a,100,5\n\r\n' 0
gives '+cpu host=a\r\n:100\r\n:5\r\n+cpu host=b\r\n:50\r\n:-7\r\n+mem\r\n:1\r\n:1\r\n+cpu host=a\r\n:100\r\n:6\r\n'"$query" \
  '$51\r\ncpu host=a,100,5\ncpu host=a,100,6\ncpu host=b,50,-7\n\r\n' 0
gives "$query" '$0\r\n\r\n' 0
gives '+cpu\r\n:1' '-ERR 16 input ended inside a message\r\n' 0
gives '+cpu\r\n:100\r\n:5\r\n+cpu\r\n:99\r\n:6\r\n+cpu\r\n:100\r\n:7\r\n'"$query" \
  '-ERR 25 late, last 100\r\n$20\r\ncpu,100,5\ncpu,100,7\n\r\n' 0
# names, parts and arrays
gives '+cpu region=eu host=a\r\n:100\r\n:5\r\n+cpu host=a region=eu\r\n:101\r\n:6\r\n'"$query" \
  '$54\r\ncpu host=a region=eu,100,5\ncpu host=a region=eu,101,6\n\r\n' 0
gives '$10\r\ncpu host=a\r\n$3\r\n100\r\n$1\r\n5\r\n'"$query" '$17\r\ncpu host=a,100,5\n\r\n' 0
gives '+cpu\r\n:100\r\n*1\r\n+5\r\n'"$query" '$10\r\ncpu,100,5\n\r\n' 0
gives '+cpu host=a,b"c\r\n:1\r\n:2\r\n'"$query" '$22\r\n"cpu host=a,b""c",1,2\n\r\n' 0
# compound writes
gives '+cpu|mem host=a\r\n:100\r\n*2\r\n:5\r\n:6\r\n'"$query"'+!query\r\n$16\r\n{"select":"mem"}\r\n' \
  '$17\r\ncpu host=a,100,5\n\r\n$17\r\nmem host=a,100,6\n\r\n' 0
gives '+mem host=a\r\n:100\r\n:1\r\n+cpu|mem host=a\r\n:99\r\n*2\r\n:5\r\n:6\r\n'"$query" \
  '-ERR 25 late, last 100\r\n$0\r\n\r\n' 0
gives '+mem\r\n:200\r\n:1\r\n+disk\r\n:300\r\n:1\r\n+cpu|disk|mem\r\n:100\r\n*3\r\n:1\r\n:2\r\n:3\r\n' \
  '-ERR 25 late, last 300\r\n' 0
# refused puts
refused='+cpu|mem\r\n:1\r\n:1\r\n+cpu host\r\n:1\r\n:1\r\n+cpu\r\n+now\r\n:1\r\n+cpu\r\n:-1\r\n:1\r\n'
gives "$refused"'+cpu\r\n:1\r\n+1e3\r\n+cpu\r\n:1\r\n:9223372036854775808\r\n' \
  '-ERR 27 counts differ\r\n-ERR 20 bad name\r\n-ERR 29 not built\r\n-ERR 24 timestamp out of range\r\n'\
'-ERR 22 bad value\r\n-ERR 23 value out of range\r\n' 0
# controls and faults
gives '+!frob\r\n'"$query" '-ERR 28 unknown control\r\n$0\r\n\r\n' 0
gives '+!query\r\n+{"select": "cpu"}\r\n' '-ERR 29 not built\r\n' 0
gives '+cpu\r\n:1\r\n:1\r\n?'"$query" '-ERR 10 bad type byte at 14\r\n' 0
gives '+cpu\r\n:1x' '-ERR 11 bad number at 8\r\n' 0
gives 'GET / HTTP/1.1\r\n\r\n' '-ERR 10 bad type byte at 0\r\n' 0
gives '+cpu\n' '-ERR 13 bad line end at 4\r\n' 0
gives '$65537\r\n' '-ERR 14 long bulk at 5\r\n' 0
gives '+cpu\r\n*' '-ERR 15 wrong shape at 6\r\n' 0
gives '+cpu\r\n:100\r\n:5\r\n+!flush\r\n' '+OK\r\n' 0
gives '' '' 0
# a store in a directory: made, served, served again, and killed while it waits for more
d=$(mktemp -d)
gives '' '' 0 create "$d/f" --volumes 2 --blocks 64 --slot 1
gives "$(for host in $(seq 10 44); do printf '+cpu host=%d\\r\\n:1\\r\\n:1\\r\\n' "$host"; done)" \
  '-ERR 26 metadata full, need 4159 room 4096\r\n' 0 run "$d/f"
gives '' '' 0 create "$d/d"
gives '+cpu host=a\r\n:100\r\n:5\r\n+!flush\r\n' '+OK\r\n' 0 run "$d/d"
gives "$query" '$17\r\ncpu host=a,100,5\n\r\n' 0 run "$d/d"
gives '' 'akl: store exists\n' 9 create "$d/d"
gives '' 'akl: no store\n' 8 run "$d/none"
# values at a scale
gives '' '' 0 create "$d/s" --scale 3
gives '+cpu\r\n:1\r\n+1.5\r\n+cpu\r\n:2\r\n+-0.007\r\n+cpu\r\n:3\r\n:2\r\n+cpu\r\n:4\r\n+1.0005\r\n'"$query" \
  '-ERR 22 bad value\r\n$31\r\ncpu,1,1.5\ncpu,2,-0.007\ncpu,3,2\n\r\n' 0 run "$d/s"
gives '' '' 0 create "$d/k"
mkfifo "$d/in"
"$akl" run "$d/k" <"$d/in" >"$d/out" &
killed=$!
exec 3>"$d/in"
printf '+cpu\r\n:1\r\n:10\r\n+!flush\r\n+cpu\r\n:2\r\n:20\r\n' >&3
for _ in $(seq 100); do [ -s "$d/out" ] && break; sleep 0.1; done
{ kill -9 "$killed"; wait "$killed"; } 2>/dev/null
exec 3>&-
[ "$(cat "$d/out"; printf .)" = "$(printf '+OK\r\n.')" ] || { echo 'a flush was not confirmed'; status=1; }
gives "$query" '$9\r\ncpu,1,10\n\r\n' 0 run "$d/k"
rm -rf "$d"
gives '' 'usage: akl [create|run|serve|soak DIR [options]]\n' 1 frob 2>/dev/null
exit $status
