#!/usr/bin/env bash
# Times `ncc convert` from CDF-1 to CDF-2 and to CDF-5: of a file of 512 MiB, which are two fixed variables of 60 MiB and
# 896 records of three variables of 64 to 256 KiB, and of one of 200,000 records of three variables of 4 to 8 bytes.
# Beside it stand `cp --reflink=never`, which reads and writes the bytes as `ncc` does; `cp`, which has the system copy them
# where it can (copy_file_range); and `nccopy` where that is installed (netcdf-bin), whose file must be the same. A sync of
# the new file follows each of them, as `ncc` makes one. The runs go by turns, and medians of five are told, with the peak
# memory. The program is the first word, or the ncc of the path: one that scripts/install.sh built. TMPDIR says which disk:
# on one in memory syncs cost nothing. The aim is less than half of nccopy's time and less than 16 MiB of memory, for the
# first file at most 1.1 of the time of `cp --reflink=never` and 1.3 of that of `cp`, and for the second 3 of the former.
set -euo pipefail
ncc=${1:-ncc}
here=$(cd "$(dirname "$0")" && pwd)
folder=$(mktemp -d)
trap 'rm -rf "$folder"' EXIT
. "$here/timing.sh"

# Of 512 MiB.
{
  printf 'CDF\1\0\0\3\x80\0\0\0\x0a\0\0\0\3\0\0\0\1t\0\0\0\0\0\0\0\0\0\0\1y\0\0\0\0\0\0\xf0\0\0\0\1x\0\0\0\0\1\0\0'
  printf '\0\0\0\0\0\0\0\0\0\0\0\x0b\0\0\0\5'
  printf '\0\0\0\1w\0\0\0\0\0\0\2\0\0\0\1\0\0\0\2\0\0\0\0\0\0\0\0\0\0\0\5\3\xc0\0\0\0\0\1\x0c'
  printf '\0\0\0\1m\0\0\0\0\0\0\2\0\0\0\1\0\0\0\2\0\0\0\0\0\0\0\0\0\0\0\4\3\xc0\0\0\3\xc0\1\x0c'
  printf '\0\0\0\1a\0\0\0\0\0\0\2\0\0\0\0\0\0\0\2\0\0\0\0\0\0\0\0\0\0\0\3\0\2\0\0\7\x80\1\x0c'
  printf '\0\0\0\1b\0\0\0\0\0\0\2\0\0\0\0\0\0\0\2\0\0\0\0\0\0\0\0\0\0\0\5\0\4\0\0\7\x82\1\x0c'
  printf '\0\0\0\1c\0\0\0\0\0\0\2\0\0\0\0\0\0\0\2\0\0\0\0\0\0\0\0\0\0\0\1\0\1\0\0\7\x86\1\x0c'
  head -c $((512 << 20)) /dev/urandom
} > "$folder/large.nc"
# Of 200,000 records.
{
  printf 'CDF\1\0\3\x0d\x40\0\0\0\x0a\0\0\0\1\0\0\0\1t\0\0\0\0\0\0\0\0\0\0\0\0\0\0\0\0\0\0\x0b\0\0\0\3'
  printf '\0\0\0\1a\0\0\0\0\0\0\1\0\0\0\0\0\0\0\0\0\0\0\0\0\0\0\4\0\0\0\4\0\0\0\x98'
  printf '\0\0\0\1b\0\0\0\0\0\0\1\0\0\0\0\0\0\0\0\0\0\0\0\0\0\0\5\0\0\0\4\0\0\0\x9c'
  printf '\0\0\0\1c\0\0\0\0\0\0\1\0\0\0\0\0\0\0\0\0\0\0\0\0\0\0\6\0\0\0\x08\0\0\0\xa0'
  head -c 3200000 /dev/urandom
} > "$folder/small.nc"

# What is run: each makes the file new.nc.
converted() {
    "$ncc" convert --to "$2" "$1" "$folder/new.nc"
}
copied() {
    cp --reflink=never "$1" "$folder/new.nc" && sync "$folder/new.nc"
}
copied_inside() {
    cp "$1" "$folder/new.nc" && sync "$folder/new.nc"
}
nccopied() {
    nccopy -k "$2" "$1" "$folder/new.nc" && sync "$folder/new.nc"
}

# The microseconds of a run that makes its file anew.
anew() {
    rm -f "$folder/new.nc"
    once "$@"
}

# The ratio of two numbers.
ratio() {
    awk "BEGIN { printf \"%.2f\", $1 / $2 }"
}

# Times a file into a version, which nccopy names so.
convert() {
    local title=$1 file=$folder/$2.nc version=$3 kind=$4 taken=() plain=() inside=() peer=() line
    rm -f "$folder/new.nc" "$folder/kept.nc"
    converted "$file" "$version" > /dev/null
    mv "$folder/new.nc" "$folder/kept.nc"
    if command -v nccopy > /dev/null; then
        nccopied "$file" "$kind"
        cmp "$folder/kept.nc" "$folder/new.nc"
    fi
    rm -f "$folder/kept.nc"
    for _ in 1 2 3 4 5; do
        taken+=("$(anew converted "$file" "$version")")
        plain+=("$(anew copied "$file")")
        inside+=("$(anew copied_inside "$file")")
        if command -v nccopy > /dev/null; then peer+=("$(anew nccopied "$file" "$kind")"); fi
    done
    rm -f "$folder/new.nc"
    line="$title to CDF-$version: ncc convert $(($(median "${taken[@]}") / 1000)) ms,"
    line+=" $(peak "$ncc" convert --to "$version" "$file" "$folder/new.nc") KiB"
    line+="; cp --reflink=never $(($(median "${plain[@]}") / 1000)) ms, ratio $(ratio "$(median "${taken[@]}")" "$(median "${plain[@]}")")"
    line+="; cp $(($(median "${inside[@]}") / 1000)) ms, ratio $(ratio "$(median "${taken[@]}")" "$(median "${inside[@]}")")"
    if [ ${#peer[@]} -gt 0 ]; then
        rm -f "$folder/new.nc"
        line+="; nccopy $(($(median "${peer[@]}") / 1000)) ms, $(peak nccopy -k "$kind" "$file" "$folder/new.nc") KiB,"
        line+=" ratio $(ratio "$(median "${taken[@]}")" "$(median "${peer[@]}")")"
    fi
    echo "$line"
}

for file in "large|512 MiB" "small|200,000 records of 16 bytes"; do
    convert "${file#*|}" "${file%|*}" 2 "64-bit offset"
    convert "${file#*|}" "${file%|*}" 5 cdf5
done
