# How long a run takes and how much memory, for the scripts beside this one, which have a `$folder`.

# The microseconds of one run, whatever its status.
once() {
    local begin end
    begin=$(date +%s%N)
    "$@" > /dev/null || true
    end=$(date +%s%N)
    echo $(((end - begin) / 1000))
}

# The lesser of two numbers, of which the first may be missing.
lesser() {
    if [ -z "$1" ] || [ "$2" -lt "$1" ]; then echo "$2"; else echo "$1"; fi
}

# The most memory of a run, in KiB.
peak() {
    /usr/bin/time -f %M -o "$folder/peak" "$@" > /dev/null || true
    tail -n 1 "$folder/peak"
}

# The least microseconds of seven runs.
least() {
    local best=
    for _ in 1 2 3 4 5 6 7; do best=$(lesser "$best" "$(once "$@")"); done
    echo "$best"
}

# The median of an odd number of numbers.
median() {
    printf '%s\n' "$@" | sort -n | sed -n "$((($# + 1) / 2))p"
}
