#!/usr/bin/env bash
# All tests: what ncc.h has beside the crate (scripts/c_header.py); the gate `rt ci` (every proof from nothing, the
# must-fail edits, the unit tests, the program's own run); then the program that it built (scripts/rows.py over
# tests/*.rows, scripts/headers.py and scripts/faults.py over headers that are changed, scripts/selections.py over
# selections, and scripts/test_program.sh), the examples of the pages (scripts/pages.sh), whether all is there that the
# page of rules names (scripts/rules.py), whether the manual has the options and faults that the program has
# (packaging/man.py), and what the programs take (bench/count). Where `rt lib` has left the library for C, its examples
# (scripts/c_library.sh) and the Python package (scripts/python.sh) follow. The last line is `N passed, M failed` of
# all. If nothing failed and the tree has no changes that aren't committed, target/gate.txt says of which tree and kit
# that is: scripts/package.sh asks for it.
set -uo pipefail
top=$(cd "$(dirname "$0")/.." && pwd)
log=$(mktemp)
trap 'rm -f "$log"' EXIT
passed=0
failed=0
status=0

# Puts before the lines that name a crate how many seconds went by.
timed() {
  local line
  while IFS= read -r line; do
    case $line in
      'rt: '* | '== '*) printf '%5d s  %s\n' "$SECONDS" "$line" ;;
      *) printf '%s\n' "$line" ;;
    esac
  done
}

# Runs a part, and adds the numbers of its last line. A part that ends badly without a failure is one.
part() {
  local before=$failed last
  "$@" 2>&1 | timed | tee "$log"
  local ended=${PIPESTATUS[0]}
  last=$(tail -n 1 "$log")
  if [[ $last =~ ^([0-9]+)\ passed,\ ([0-9]+)\ failed$ ]]; then
    passed=$((passed + BASH_REMATCH[1]))
    failed=$((failed + BASH_REMATCH[2]))
  elif [ "$ended" = 0 ]; then
    ended=1
  fi
  if [ "$ended" != 0 ]; then
    status=1
    if [ "$failed" = "$before" ]; then failed=$((failed + 1)); fi
  fi
}

# Notes that all of this tree passed, if it is the tree of a commit.
note_tree() {
  if [ -n "$(git status --porcelain 2>&1)" ]; then return; fi
  mkdir -p target
  printf '%s\n' "tree $(git rev-parse 'HEAD^{tree}')" "kit $(rt version)" "result $passed passed, $failed failed" > target/gate.txt
}

# How many things `rt ci` does at once: one for each processor that has 5 GB of free memory. Left to itself it lets a
# large crate wait until next to nothing else runs.
jobs_here() {
  local processors memory
  processors=$(nproc)
  memory=$(awk '/^MemAvailable:/ { print int($2 / 5000000) }' /proc/meminfo)
  if [ "$memory" -lt "$processors" ]; then processors=$memory; fi
  echo $((processors > 0 ? processors : 1))
}

cd "$top" || exit 1
rm -f target/gate.txt
export RT_JOBS=${RT_JOBS:-$(jobs_here)}
part scripts/c_header.py
part rt ci
part scripts/rows.py crates/ncc_cli/out/ncc_cli
part scripts/headers.py crates/ncc_cli/out/ncc_cli
part scripts/faults.py crates/ncc_cli/out/ncc_cli
part scripts/selections.py crates/ncc_cli/out/ncc_cli
part scripts/test_program.sh crates/ncc_cli/out/ncc_cli
part scripts/pages.sh crates/ncc_cli/out/ncc_cli
part scripts/rules.py
part packaging/man.py --compare crates/ncc_cli/out/ncc_cli
part bench/count
if [ -f crates/ncc_c/out/libncc_c.a ]; then
  part scripts/c_library.sh
  part scripts/python.sh
else
  echo 'test.sh: crates/ncc_c/out/libncc_c.a is not there (rt lib makes it): the examples in C and Python are not run'
fi
if [ "$status" = 0 ] && [ "$failed" = 0 ]; then note_tree; fi
echo "$passed passed, $failed failed"
[ "$status" = 0 ] && [ "$failed" = 0 ]
