#!/usr/bin/env bash
# The tests of the Python package: builds the wheel, installs it into a fresh environment, and runs pytest there from
# outside the source tree, without a network. `scripts/python.sh [WORD]...` hands the words on to pytest.
#
# What isn't installed (SciPy, netCDF4, xarray, Dask, fsspec) is skipped, and said so, and so are the comparisons with the
# program where it isn't built (NCC_PROGRAM, or else crates/ncc_cli/out/ncc_cli). The last line is `N passed,
# M failed`. Without numpy or pytest nothing can be run: that is `0 passed, 0 failed`, and status 0.
set -uo pipefail
top=$(cd "$(dirname "$0")/.." && pwd)
python=${PYTHON:-/usr/bin/python3}
missing=
for needed in numpy pytest setuptools wheel pip venv; do
  if ! "$python" -W ignore -c "import $needed" 2> /dev/null; then missing="$missing $needed"; fi
done
if [ -n "$missing" ]; then
  echo "python.sh: $python has no$missing: the Python package isn't tested"
  echo "0 passed, 0 failed"
  exit 0
fi

# How many the last line of pytest says of the word $1.
counted() {
  tail -n 1 "$room/log" | grep -oE "[0-9]+ $1" | grep -oE '^[0-9]+' || echo 0
}

room=$(mktemp -d)
trap 'rm -rf "$room"' EXIT
if ! "$top/scripts/python_room.sh" "$room" > "$room/log" 2>&1; then
  cat "$room/log"
  echo "python.sh: the package can't be built and installed"
  echo "0 passed, 1 failed"
  exit 1
fi
cp -r "$top/python/tests" "$room/tests"
cd "$room/tests" || exit 1
unset NCC_LIBRARY PYTHONPATH
NCC_EXAMPLES=$top/examples "$room/venv/bin/python" -m pytest -q -rs -p no:cacheprovider "$@" . 2>&1 | tee "$room/log"
ended=${PIPESTATUS[0]}
passed=$(counted passed)
failed=$(($(counted failed) + $(counted error)))
if [ "$ended" != 0 ] && [ "$failed" = 0 ]; then failed=1; fi
echo "$passed passed, $failed failed"
[ "$failed" = 0 ]
