#!/usr/bin/env bash
# Proves and builds the program or the library for C by the kit's own command: build.sh flow|flow_c
# The program is then crates/flow/out/flow, the library's archive crates/flow_c/out/libflow_c.a. `rt` proves the libraries
# below first, and keeps in crates/NAME/out what it has proved: only that is remembered. Progress goes to standard error,
# and nothing to standard output.
set -euo pipefail
if [ $# -ne 1 ] || ! [[ $1 =~ ^(flow|flow_c)$ ]]; then
  echo "usage: bash scripts/build.sh flow|flow_c" >&2
  exit 2
fi
if ! command -v rt > /dev/null; then
  echo "the Rattle kit's command rt is not on the PATH; CONTRIBUTING.md tells what the kit is" >&2
  exit 1
fi
cd "$(dirname "$0")/../crates/$1"

# The contract of a C function would be believed where this names its crate; no crate of ours declares one.
unset RT_ALLOW_C RT_BACKEND
# The prover keeps the memory that it has freed: to hand it back and to ask for it again takes a twentieth of its time.
export MIMALLOC_PURGE_DELAY=-1

echo "Proving and building $1. From nothing this takes some ten minutes on four idle cores; each proof is kept." >&2
log=$(mktemp)
started=$(mktemp)
trap 'rm -f "$log" "$started"' EXIT

prove() {
  if [ "$1" = flow ]; then
    rt run -- solve --value < stdin
  else
    rt lib
  fi
}
if ! prove "$1" 2>&1 | tee "$log" \
  | sed -unE 's/^rt: chose --jobs [0-9]+ for (.*)/\1/p; s/^so far: ([0-9]+ of [0-9]+ functions).*/  \1/p' >&2; then
  tail -n 20 "$log" >&2
  echo "$1 was not built" >&2
  exit 1
fi

# Which text was proved is not known where one has changed meanwhile.
changed=$(find ../../crates.txt ../*/src ../*/specs ../*/proofs -newer "$started" -print -quit 2> /dev/null || true)
if [ -n "$changed" ]; then
  echo "${changed#../} has changed while the proof went on: begin again" >&2
  exit 1
fi
