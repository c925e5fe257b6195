#!/usr/bin/env bash
# Proves and builds the program, and puts it into a folder: install.sh DIR
# Progress goes to standard error. The one line of standard output is the path of the program.
set -eu
if [ $# -ne 1 ]; then
  echo "usage: bash scripts/install.sh DIR" >&2
  exit 2
fi
bash "$(dirname "$0")/build.sh" flow
mkdir -p "$1"
install -m 755 "$(dirname "$0")/../crates/flow/out/flow" "$1/flow"
realpath "$1/flow"
