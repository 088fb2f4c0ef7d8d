#!/usr/bin/env bash
# Calls the library for C with random arguments, so many times (100,000 if left out), under valgrind where it is
# installed: `scripts/c_fuzz.sh [CALLS [SEED]]`. It takes the library that is there, and does nothing where there is none.
# The last line is `N passed, M failed`.
set -uo pipefail
top=$(cd "$(dirname "$0")/.." && pwd)
library=$top/crates/ncc_c/out/libncc_c.a
if [ ! -f "$library" ] || ! command -v cc > /dev/null; then
  echo 'c_fuzz.sh: no library was built, or there is no C compiler: nothing is tried'
  echo '0 passed, 0 failed'
  exit 0
fi
out=$(mktemp -d)
trap 'rm -rf "$out"' EXIT
kit=$(find "$(dirname "$(dirname "$(realpath "$(command -v rt)")")")" -name liblibc_c.a -print -quit)
under=()
if command -v valgrind > /dev/null; then under=(valgrind -q --error-exitcode=9); fi
if cc -std=c11 -Wall -Wextra -pedantic -Werror -g -O1 -I"$top/crates/ncc_c/include" -o "$out/c_fuzz" \
  "$top/scripts/c_fuzz.c" "$library" "$kit" \
  && "${under[@]}" "$out/c_fuzz" "${1:-100000}" "${2:-1}" "$top"/examples/*.nc; then
  echo '1 passed, 0 failed'
else
  echo '0 passed, 1 failed'
  exit 1
fi
