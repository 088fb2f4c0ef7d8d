#!/usr/bin/env bash
# Refuses each allocation, one in each run, of each test of CRATE whose name has `without_memory`. Such a test must pass
# each time: memory was asked for and refused, the answer says so, and nothing else was changed. The executable of the
# tests is the second word, or the one that scripts/test.sh left, or else it is built, which proves the crate. It needs
# a C compiler.
set -uo pipefail
crate=$1
top=$(cd "$(dirname "$0")/.." && pwd)
tests=${2:-$top/crates/$crate/out/${crate}_tests}
if [ ! -x "$tests" ]; then (cd "$top/crates/$crate" && rt test) || exit 1; fi
tests=$(realpath "$tests")
folder=$(mktemp -d)
trap 'rm -rf "$folder"' EXIT
cd "$folder" || exit 1
cc -O1 -shared -fPIC -o refuse.so "$top/scripts/refuse_calls.c" -ldl || exit 1
runs=0
failed=0
for name in $("$tests" --list | sed -n 's/: test$//p' | grep without_memory); do
  COUNTED=counted LD_PRELOAD=$folder/refuse.so "$tests" "$name" > said 2>&1 || { cat said; exit 1; }
  count=$(cat counted)
  for n in $(seq "$count"); do
    runs=$((runs + 1))
    if ! REFUSED=$n LD_PRELOAD=$folder/refuse.so "$tests" "$name" > said 2>&1; then
      failed=$((failed + 1))
      echo "$name: allocation $n of $count refused: $(tail -n 1 said)"
    fi
  done
done
echo "$crate: $runs allocations refused, $failed failed"
[ "$runs" != 0 ] && [ "$failed" = 0 ]
