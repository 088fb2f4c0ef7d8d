#!/usr/bin/env bash
# Times `ncc list` on large headers, with its peak memory, and `ncdump -h` beside it where that is installed
# (netcdf-bin). The program is the first word, or the ncc of the path: one that scripts/install.sh built. The
# aim is at most 0.06 of ncdump's time, and 0.2 of variables without attributes; the runs of the two go by turns.
set -euo pipefail
ncc=${1:-ncc}
here=$(cd "$(dirname "$0")" && pwd)
folder=$(mktemp -d)
trap 'rm -rf "$folder"' EXIT
python3 "$here/headers.py" listed "$folder"

. "$here/timing.sh"

for file in "$folder"/*.nc; do
    listed=
    dumped=
    for _ in 1 2 3 4 5 6 7; do
        listed=$(lesser "$listed" "$(once "$ncc" list "$file")")
        if command -v ncdump > /dev/null; then dumped=$(lesser "$dumped" "$(once ncdump -h "$file")"); fi
    done
    line="$(basename "$file" .nc), $(stat -c %s "$file") bytes: ncc list $((listed / 1000)) ms, $(peak "$ncc" list "$file") KiB"
    if [ -n "$dumped" ]; then
        ratio=$(awk "BEGIN { printf \"%.2f\", $listed / $dumped }")
        line+="; ncdump -h $((dumped / 1000)) ms, $(peak ncdump -h "$file") KiB; ratio $ratio"
    fi
    echo "$line"
done
