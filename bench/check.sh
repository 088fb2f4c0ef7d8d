#!/usr/bin/env bash
# Times `ncc check` on large headers and on a file of 512 MiB, with its peak memory. Beside it stands the time of
# reading alone, which is that of the header less its last byte, and `ncvalidator` where that is installed
# (pnetcdf-bin), by turns. The program is the first word, or the ncc of the path: one that scripts/install.sh built.
# The aims are, of 24,000 variables with 20 attributes, at most 0.45 of ncvalidator's time for reading alone, 0.6 for a
# check, and 0.7 of its memory; and for a check 1.5 of reading alone, which it kept while reading took three times as
# long, and doesn't keep now.
set -euo pipefail
ncc=${1:-ncc}
here=$(cd "$(dirname "$0")" && pwd)
folder=$(mktemp -d)
trap 'rm -rf "$folder"' EXIT
python3 "$here/headers.py" checked "$folder"
. "$here/timing.sh"

# A file of one variable of 512 MiB, of which no byte is written.
large=$folder/one_variable_of_512_MiB
printf 'CDF\1\0\0\0\0\0\0\0\x0a\0\0\0\1\0\0\0\1x\0\0\0\x20\0\0\0\0\0\0\0\0\0\0\0' > "$large.nc"
printf '\0\0\0\x0b\0\0\0\1\0\0\0\1v\0\0\0\0\0\0\1\0\0\0\0\0\0\0\0\0\0\0\0' >> "$large.nc"
printf '\0\0\0\1\x20\0\0\0\0\0\0\x50' >> "$large.nc"
head -c 79 "$large.nc" > "$large.cut"
truncate -s $((80 + 512 * 1024 * 1024)) "$large.nc"

# How long one is beside another.
beside() {
    awk "BEGIN { printf \"%.2f\", $1 / $2 }"
}

for file in "$folder"/*.nc; do
    checked=
    read=
    other=
    for _ in 1 2 3 4 5 6 7 8 9 10 11; do
        checked=$(lesser "$checked" "$(once "$ncc" check "$file")")
        read=$(lesser "$read" "$(once "$ncc" check "${file%.nc}.cut")")
        if command -v ncvalidator > /dev/null; then other=$(lesser "$other" "$(once ncvalidator -q "$file")"); fi
    done
    line="$(basename "$file" .nc), header of $(($(stat -c %s "${file%.nc}.cut") + 1)) bytes: ncc check"
    line+=" $((checked / 1000)) ms, $(peak "$ncc" check "$file") KiB; reading alone $((read / 1000)) ms"
    line+=", ratio $(beside "$checked" "$read")"
    if [ -n "$other" ]; then
        line+="; ncvalidator $((other / 1000)) ms, $(peak ncvalidator -q "$file") KiB"
        line+="; ratios $(beside "$checked" "$other") and $(beside "$read" "$other")"
    fi
    echo "$line"
done
