#!/usr/bin/env bash
# Times `ncc extend`: 1,000 records to a file of one lone record variable, a short, and 16 records of 65,536 shorts to
# one of 512 MiB. Beside it stands a C program that makes the same writes and syncs (extend_writes.c), by heart, and
# without a look at the file. The two go by turns, and the least of nine runs is told of each. The program is the first
# word, or the ncc of the path: one that scripts/install.sh built. The file must lie on a disk whose syncs are real:
# TMPDIR says where. The aim is at most 1.25 of the C program's time.
set -euo pipefail
ncc=${1:-ncc}
here=$(cd "$(dirname "$0")" && pwd)
folder=$(mktemp -d)
trap 'rm -rf "$folder"' EXIT
cc -O2 -o "$folder/extend_writes" "$here/extend_writes.c"
. "$here/timing.sh"

# Three records of a short.
{
  printf 'CDF\1\0\0\0\3\0\0\0\x0a\0\0\0\1\0\0\0\1t\0\0\0\0\0\0\0\0\0\0\0\0\0\0\0\0\0\0\x0b\0\0\0\1'
  printf '\0\0\0\1v\0\0\0\0\0\0\1\0\0\0\0\0\0\0\0\0\0\0\0\0\0\0\3\0\0\0\4\0\0\0\x50\0\1\0\2\0\3'
} > "$folder/lone.nc"
# 4,096 records of 65,536 shorts, 512 MiB.
{
  printf 'CDF\1\0\0\x10\0\0\0\0\x0a\0\0\0\2\0\0\0\1t\0\0\0\0\0\0\0\0\0\0\1x\0\0\0\0\1\0\0'
  printf '\0\0\0\0\0\0\0\0\0\0\0\x0b\0\0\0\1\0\0\0\1v\0\0\0\0\0\0\2\0\0\0\0\0\0\0\1'
  printf '\0\0\0\0\0\0\0\0\0\0\0\3\0\2\0\0\0\0\0\x60'
} > "$folder/large.nc"
truncate -s $((96 + 4096 * 131072)) "$folder/large.nc"

# Extends a fresh copy of a file.
fresh() {
    cp --sparse=always "$folder/$1.nc" "$folder/copy.nc"
    sync "$folder/copy.nc"
}

# The microseconds of a run on a fresh copy of a file.
on_fresh() {
    fresh "$1"
    shift
    once "$@"
}

# Times N records more of so many bytes, from an offset on, after so many records.
extend() {
    local title=$1 file=$2 more=$3 size=$4 place=$5 first=$6 taken= peer=
    fresh "$file"
    "$ncc" extend "$folder/copy.nc" "$more" > /dev/null
    cp --sparse=always "$folder/copy.nc" "$folder/extended.nc"
    fresh "$file"
    "$folder/extend_writes" "$folder/copy.nc" "$more" "$size" "$place" "$first" > /dev/null
    cmp "$folder/copy.nc" "$folder/extended.nc"
    for _ in 1 2 3 4 5 6 7 8 9; do
        taken=$(lesser "$taken" "$(on_fresh "$file" "$ncc" extend "$folder/copy.nc" "$more")")
        peer=$(lesser "$peer" \
            "$(on_fresh "$file" "$folder/extend_writes" "$folder/copy.nc" "$more" "$size" "$place" "$first")")
    done
    fresh "$file"
    echo "$title: ncc extend $((taken / 1000)) ms, $(peak "$ncc" extend "$folder/copy.nc" "$more") KiB; the same writes and" \
        "syncs $((peer / 1000)) ms, ratio $(awk "BEGIN { printf \"%.2f\", $taken / $peer }")"
}

extend "1,000 records of a short" lone 1000 2 86 3
extend "16 records of 65,536 shorts, to 512 MiB" large 16 131072 $((96 + 4096 * 131072)) 4096
