#!/usr/bin/env bash
# The built program is stopped behind its system calls, and what the disk may then hold is opened again. And the check itself is
# tried: where syncs do nothing, or no page is dropped, it has to find faults.
set -u
akl=crates/akl/out/akl
if [ ! -x "$akl" ]; then
  log=$(cd crates/akl && rt run 2>&1) || { printf '%s\n' "$log"; exit 1; }
fi
if ! strace -o /dev/null true 2>/dev/null; then
  echo 'strace is not there, or may trace nothing: no crash is tried'
  exit 0
fi
python3 .ci/checks/crashes.py "$akl" || exit 1
status=0
# trial RUNS WORD: the trial has to find a fault
trial() {
  python3 .ci/checks/crashes.py "$akl" --only "$1" --deaf "$2" >/dev/null
  if [ $? -ne 3 ]; then
    echo "no fault is found in the trial of $2"
    status=1
  fi
}
trial plain meta
trial plain volumes
trial plain names
trial 'failed syncs, reused' drops
exit $status
