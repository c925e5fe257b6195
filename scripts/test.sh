#!/usr/bin/env bash
# The test command: the gate, the library for C, and the tests of what was built. It passes where its last line is
# 'N passed, 0 failed'. How far it is goes to standard error.
set -uo pipefail
cd "$(dirname "$0")/.." || exit 1

# say WORDS..: tells how far the test command is, with the minutes and seconds since it began.
say() {
  printf '%3d:%02d  %s\n' $((SECONDS / 60)) $((SECONDS % 60)) "$*" >&2
}

if ! python3 -c 'import pytest' 2> /dev/null; then
  echo "the tests need pytest: sudo apt install python3-pytest python3-pytest-xdist" >&2
  exit 1
fi

# One check for each processor, as far as there are 3 GB of memory for each.
if [ -z "${RT_JOBS:-}" ]; then
  most=$(awk '/^MemAvailable:/ { print int($2 / 3000000) }' /proc/meminfo)
  cores=$(nproc)
  RT_JOBS=$((most < 1 ? 1 : most < cores ? most : cores))
fi
export RT_JOBS

# The prover keeps the memory that it has freed: to hand it back and to ask for it again takes a twentieth of its time.
export MIMALLOC_PURGE_DELAY=-1

folder=$(mktemp -d)
trap 'rm -rf "$folder"' EXIT

# The gate: every proof from nothing, each wrong body, each test, and each program as two compilers make it. It would put
# libraries from before back, so these go first.
rm -rf crates/*/out/rlib
say "the gate, $RT_JOBS checks at a time"
rt ci 2>&1 | tee "$folder/gate" || exit 1
gate=$(grep -E '^[0-9]+ passed, 0 failed$' "$folder/gate" | tail -n 1)
[ -n "$gate" ] || exit 1
passed=${gate%% *}

# The library for C, proved and built over the libraries that the gate has just proved.
archive() {
  local kit words=() library
  kit=$(dirname "$(rt doc)")
  for library in flow_net flow_text flow_solve flow_tools; do
    words+=(--extern "$library=../$library/out/rlib/$library.rlib" -L "dependency=../$library/out/rlib")
  done
  cd crates/flow_c || return 1
  "$kit/bin/rattle" build --crate-name flow_c src/lib.rt --links flow_c= --extern "std=$kit/rlibs/std.rlib" \
    "${words[@]}" -L "dependency=$kit/rlibs" --antt-project "$kit/rattle/logic/antt-project.json" \
    --logic-built "$kit/logic_built" --jobs "$RT_JOBS" --crate-type staticlib --toolchain "$kit/toolchain" \
    -o out/libflow_c.a
}
say "the library for C"
(archive) > "$folder/archive" 2>&1 || { cat "$folder/archive"; exit 1; }
bash scripts/library.sh "$folder/made" crates/flow_c/out/libflow_c.a > /dev/null || exit 1
[ -x crates/flow/out/flow ] || (cd crates/flow && rt run -- solve --value < stdin > /dev/null) || exit 1
[ -x crates/growths/out/growths ] || (cd crates/growths && rt run < stdin > /dev/null) || exit 1

# The tests, in as many processes where the plugin for that is installed.
say "the tests"
words=(-n "$RT_JOBS" --dist loadgroup)
python3 -c 'import xdist' 2> /dev/null || words=()
PYTHONDONTWRITEBYTECODE=1 python3 -m pytest -q -rs "${words[@]}" --library="$folder/made" | tee "$folder/tests" \
  || exit 1
made=$(sed -n 's/^\([0-9]*\) checks in [0-9]* tests$/\1/p' "$folder/tests")
passed=$((passed + ${made:?the tests tell no count}))

say "done"
echo "$passed passed, 0 failed"
