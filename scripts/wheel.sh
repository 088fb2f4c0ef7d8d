#!/usr/bin/env bash
# Builds the wheel of the Python package into the folder OUT (python/dist if left out), without a network, and prints
# its path.
#
# The shared library in it is linked from crates/ncc_c/out/libncc_c.a, which `rt lib` leaves in crates/ncc_c once all of
# it is proved, and from the kit's C library. The wheel says of which commit it was built, and needs neither the kit nor
# a C compiler. With NCC_LIBRARY=FILE that shared library is taken as it is, and the wheel says so.
set -euo pipefail
top=$(cd "$(dirname "$0")/.." && pwd)
out=${1:-$top/python/dist}
python=${PYTHON:-/usr/bin/python3}
archive=$top/crates/ncc_c/out/libncc_c.a

fail() {
  echo "wheel.sh: $1" >&2
  exit 1
}

# Links the shared library to the path $1.
link() {
  local kit libc
  [ -f "$archive" ] || fail "there is no $archive: run rt lib in crates/ncc_c"
  command -v rt > /dev/null || fail "there is no rt: the kit has the C library that is linked"
  kit=$(dirname "$(dirname "$(realpath "$(command -v rt)")")")
  libc=$(find "$kit" -name liblibc_c.a -print -quit)
  [ -n "$libc" ] || fail "there is no liblibc_c.a in $kit"
  cc -shared -o "$1" -Wl,--whole-archive "$archive" -Wl,--no-whole-archive "$libc"
}

# Which commit the tree has, and whether anything was changed since.
commit() {
  local changed=
  if ! git -C "$top" rev-parse HEAD > /dev/null 2>&1; then echo "unknown"; return; fi
  if [ -n "$(git -C "$top" status --porcelain)" ]; then changed=" with changes"; fi
  echo "$(git -C "$top" rev-parse HEAD)$changed"
}

room=$(mktemp -d)
trap 'rm -rf "$room"' EXIT
mkdir -p "$out" "$room/python" "$room/out"
cp -r "$top/python/ncc" "$top/python/pyproject.toml" "$top/python/setup.py" "$top/python/README.md" "$room/python/"
find "$room/python" -name __pycache__ -prune -exec rm -r {} +
rm -f "$room/python/ncc/libncc.so" "$room/python/ncc/built.txt"
if [ -n "${NCC_LIBRARY:-}" ]; then
  cp "$NCC_LIBRARY" "$room/python/ncc/libncc.so"
  echo "unknown: the library was given" > "$room/python/ncc/built.txt"
else
  link "$room/python/ncc/libncc.so"
  commit > "$room/python/ncc/built.txt"
fi
strip --strip-unneeded "$room/python/ncc/libncc.so"
if ! "$python" -m pip wheel --quiet --no-index --no-build-isolation --no-deps --disable-pip-version-check \
  --wheel-dir "$room/out" "$room/python" > "$room/log" 2>&1; then
  cat "$room/log" >&2
  fail "pip can't build the wheel"
fi
for wheel in "$room"/out/ncc-*.whl; do
  mv -f "$wheel" "$out/"
  echo "$out/${wheel##*/}"
done
