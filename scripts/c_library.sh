#!/usr/bin/env bash
# Proves the library for C, puts it into the folder OUT (target/c if left out) with its header file, and runs the
# examples on the files of examples/. What it needs of the kit's C library is in libncc_c.a and libncc.so there. With --built nothing is proved: it takes the library that is there, and
# runs nothing where there is none, or no C compiler. The last line is `N passed, M failed`.
set -uo pipefail
top=$(cd "$(dirname "$0")/.." && pwd)
built=
if [ "${1:-}" = --built ]; then
  built=yes
  shift
fi
out=${1:-$top/target/c}
crate=$top/crates/ncc_c
passed=0
failed=0

fail() {
  echo "c_library.sh: $1" >&2
  exit 1
}

# Says what differs, if anything does.
expect() {
  if [ "$2" = "$3" ]; then
    passed=$((passed + 1))
  else
    failed=$((failed + 1))
    printf 'failed: %s\n  expected: %s\n  printed: %s\n' "$1" "$2" "$3"
  fi
}

if [ -n "$built" ] && { [ ! -f "$crate/out/libncc_c.a" ] || ! command -v cc > /dev/null; }; then
  echo 'c_library.sh: no library was built, or there is no C compiler: nothing is tried'
  echo '0 passed, 0 failed'
  exit 0
fi
command -v cc > /dev/null || fail 'there is no C compiler (cc)'
command -v rt > /dev/null || fail "there is no rt: the kit has the C library that is linked"
kit=$(find "$(dirname "$(dirname "$(realpath "$(command -v rt)")")")" -name liblibc_c.a -print -quit)
[ -n "$kit" ] || fail "the kit has no liblibc_c.a"
if [ -z "$built" ]; then
  (cd "$crate" && rt lib) || fail 'the library is not proved'
fi
mkdir -p "$out"
cp "$crate/include/ncc.h" "$out/" || fail "nothing can be written to $out"
printf '%s\n' "create $out/libncc_c.a" "addlib $crate/out/libncc_c.a" "addlib $kit" save end | ar -M \
  || fail 'the static library could not be made'
cc -shared -o "$out/libncc.so" -Wl,--whole-archive "$crate/out/libncc_c.a" -Wl,--no-whole-archive "$kit" \
  || fail 'the shared library could not be linked'
cc -std=c11 -D_POSIX_C_SOURCE=200809L -Wall -Wextra -pedantic -Werror -O2 -I"$out" -o "$out/column" \
  "$top/examples/c/column.c" "$out/libncc_c.a" || fail 'the example could not be compiled'
cc -std=c11 -D_POSIX_C_SOURCE=200809L -Wall -Wextra -pedantic -Werror -O2 -I"$out" -o "$out/write" \
  "$top/examples/c/write.c" "$out/libncc_c.a" || fail 'the example could not be compiled'

# The first line about each file is the one that `ncc check` prints.
for file in "$top"/examples/*.nc; do
  expect "$(basename "$file")" "$(head -n 1 "${file%.nc}.checked")" "$("$out/column" "$file" | head -n 1)"
done
while IFS='|' read -r file variable values; do
  expect "$file $variable" "$values" "$("$out/column" "$top/examples/$file" "$variable" | tail -n +2 | tr '\n' ' ')"
done < "$top/examples/c/columns.txt"

# A file of one record, and one more that was added.
"$out/write" "$out/written.nc"
expect 'write' 0 "$?"
expect 'the file that was written' 'ok CDF-1 records 2 variables 2' "$("$out/column" "$out/written.nc" | head -n 1)"
expect 'its fixed variable' '0 10 20 ' "$("$out/column" "$out/written.nc" depth | tail -n +2 | tr '\n' ' ')"
expect 'its records' '271 272 273 281 282 283 ' \
  "$("$out/column" "$out/written.nc" temperature | tail -n +2 | tr '\n' ' ')"
echo "$passed passed, $failed failed"
[ "$failed" = 0 ]
