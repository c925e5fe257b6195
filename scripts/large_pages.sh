#!/usr/bin/env bash
# Runs a command while the system gives large pages of memory to all programs: large_pages.sh COMMAND..
# A check takes less CPU time with them. It is a setting of the whole machine, which only root can change; no other
# script changes it. It is set back when the command ends. Where it can't be changed, or needn't be, the command runs
# as it is.
set -u
if [ $# -eq 0 ]; then
  echo "usage: bash scripts/large_pages.sh COMMAND.." >&2
  exit 2
fi

setting=/sys/kernel/mm/transparent_hugepage/enabled
before=$(sed -n 's/.*\[\(.*\)\].*/\1/p' "$setting" 2> /dev/null)
if [ -z "$before" ] || [ "$before" = always ]; then
  exec "$@"
fi
if ! { echo always > "$setting"; } 2> /dev/null; then
  echo "only root can have large pages given to all programs: this runs without them" >&2
  exec "$@"
fi
trap 'echo "$before" > "$setting"' EXIT
"$@"
