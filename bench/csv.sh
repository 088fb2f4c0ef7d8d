#!/usr/bin/env bash
# Times `ncc csv` on files of many values, with its peak memory: 4,000,000 shorts, floats and doubles over three
# dimensions, one column of the shorts, and 16,000,000 records of one byte. Beside it stand a C program of the
# same rows that knows each file by heart (csv_rows.c), and `ncdump -v` where that is installed (netcdf-bin),
# which prints no indices. The program is the first word, or the ncc of the path: one that scripts/install.sh
# built. The aim is at most half of `ncdump -v`'s time, and 1.3 of the C program's, for doubles 1.5. In decimal
# (`--decimal`) it is at most 1.3 of the C program's time, which prints by printf, and below `ncdump -v`.
set -euo pipefail
ncc=${1:-ncc}
here=$(cd "$(dirname "$0")" && pwd)
folder=$(mktemp -d)
trap 'rm -rf "$folder"' EXIT
python3 "$here/values.py" "$folder"
cc -O2 -o "$folder/csv_rows" "$here/csv_rows.c"
. "$here/timing.sh"

# Times the rows of a file, by the words of the C program and the words of ncc that follow.
rows() {
    local title=$1 file=$folder/$2.nc by_heart=$3 line taken peer
    shift 3
    # shellcheck disable=SC2086
    if [ "$title" = "${title% in decimal}" ]; then
        cmp <("$ncc" csv "$file" v "$@") <("$folder/csv_rows" "$file" $by_heart)
    fi
    taken=$(least "$ncc" csv "$file" v "$@")
    # shellcheck disable=SC2086
    peer=$(least "$folder/csv_rows" "$file" $by_heart)
    line="$title: ncc csv $((taken / 1000)) ms, $(peak "$ncc" csv "$file" v "$@") KiB"
    line+="; by heart $((peer / 1000)) ms, ratio $(awk "BEGIN { printf \"%.2f\", $taken / $peer }")"
    if [ "$*" = "${*#--stride}" ] && command -v ncdump > /dev/null; then
        peer=$(least ncdump -v v "$file")
        line+="; ncdump -v $((peer / 1000)) ms, ratio $(awk "BEGIN { printf \"%.2f\", $taken / $peer }")"
    fi
    echo "$line"
}

rows "4,000,000 shorts" shorts "s 112 3 400 100 100 1"
rows "4,000,000 floats" floats "f 112 3 400 100 100 1"
rows "4,000,000 doubles" doubles "d 112 3 400 100 100 1"
rows "4,000,000 floats in decimal" floats "F 112 3 400 100 100 1" --decimal
rows "4,000,000 doubles in decimal" doubles "D 112 3 400 100 100 1" --decimal
rows "a column of 40,000 shorts" shorts "s 112 3 400 100 100 100" --stride 1,1,100
rows "16,000,000 records of a byte" records "b 80 1 16000000 1"
