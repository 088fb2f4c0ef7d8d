#!/usr/bin/env bash
# Runs the blocks of docs/ARCHIVE.md that one machine can run, as they stand there, with the program NCC and the Python
# package, on a tree of a thousand files, and compares the lines that they print: `scripts/archive_pages.sh NCC`.
# What they print has to be what stands beside each example. The last line is `N passed, M failed`.
set -uo pipefail
top=$(cd "$(dirname "$0")/.." && pwd)
ncc=$(realpath "${1:?usage: scripts/archive_pages.sh NCC}") || exit 1
python=${PYTHON:-/usr/bin/python3}
room=$(mktemp -d)
trap 'rm -rf "$room"' EXIT
passed=0
failed=0

# The block number $2 below the heading $1.
block() {
  awk -v heading="## $1" -v wanted="${2:-1}" '
    /^## / { is_here = $0 == heading; number = 0 }
    /^```/ { if (inside) { inside = 0 } else { inside = 1; number++ }; next }
    inside && is_here && number == wanted
  ' "$top/docs/ARCHIVE.md"
}

# A tree of 999 examples and a link that leads nowhere, and the lines that are wanted of it.
plant() {
  local number=0 file first status folder
  local examples=("$top"/examples/*.nc)
  while [ "$number" -lt 999 ]; do
    file=${examples[number % ${#examples[@]}]}
    folder=tree/part$((number / ${#examples[@]}))
    [ "$number" -lt 500 ] || folder="tree/a part $((number / ${#examples[@]}))"
    mkdir -p "$folder"
    cp "$file" "$folder/"
    first=$(head -n 1 "${file%.nc}.checked")
    status=1
    [ "${first%% *}" != ok ] || status=0
    printf '%s\t%s\t%s\n' "$status" "$first" "$folder/${file##*/}" >> "$room/wanted"
    number=$((number + 1))
  done
  ln -s nowhere tree/gone.nc
  printf '3\terror device\ttree/gone.nc\n' >> "$room/wanted"
  sort -o "$room/wanted" "$room/wanted"
}

# The lines that the page shows are lines of this tree.
compare_shown() {
  awk '/^```/ { number++; next } number == 1' "$top/docs/ARCHIVE.md" | sort > "$room/shown"
  if comm -23 "$room/shown" "$room/wanted" | grep .; then
    failed=$((failed + 1))
    echo "FAILED lines that the page shows"
  else
    passed=$((passed + 1))
  fi
}

# Compares the lines of the way $1, which took $2 ms, without the folder in front.
compare() {
  sed "s|\t$PWD/|\t|" verdicts.txt | sort > "$room/found"
  if cmp -s "$room/wanted" "$room/found"; then
    passed=$((passed + 1))
    printf 'as wanted in %s ms: %s\n' "$2" "$1"
  else
    failed=$((failed + 1))
    echo "FAILED $1"
    diff "$room/wanted" "$room/found" | head
  fi
  rm -rf verdicts* parts names* done.* report.html
}

# Runs the first block below the heading $1.
by_shell() {
  local begun=$EPOCHREALTIME
  block "$1" > way.sh
  bash way.sh
  compare "$1" "$(((${EPOCHREALTIME/./} - ${begun/./}) / 1000))"
}

# Runs each task of the array in turn.
by_array() {
  local begun=$EPOCHREALTIME task
  block 'A Slurm array' 1 > way.sh
  block 'A Slurm array' 2 > check.sh
  block 'A Slurm array' 3 > after.sh
  bash way.sh
  for task in {0..99}; do SLURM_ARRAY_TASK_ID=$task sh check.sh 2> /dev/null; done
  bash after.sh > again
  [ "$(wc -l < again)" = 1 ] || echo 'one task has a file that cannot be read' >> verdicts.txt
  compare 'A Slurm array, without Slurm' "$(((${EPOCHREALTIME/./} - ${begun/./}) / 1000))"
}

by_dask() {
  local begun=$EPOCHREALTIME
  block Dask > way.py
  python way.py 2> log || cat log
  compare Dask "$(((${EPOCHREALTIME/./} - ${begun/./}) / 1000))"
}

has() {
  "$python" -W ignore -c "import $1" 2> /dev/null
}

mkdir -p "$room/bin" "$room/work"
ln -s "$ncc" "$room/bin/ncc"
PATH=$room/bin:$PATH
cd "$room/work" || exit 1
plant
compare_shown
by_shell 'One process'
by_shell 'Several processes'
by_array
if ! has numpy; then
  echo "archive_pages.sh: $python has no numpy: the ways of Python aren't run"
elif ! "$top/scripts/python_room.sh" "$room" > "$room/log" 2>&1; then
  cat "$room/log"
  failed=$((failed + 1))
else
  unset NCC_LIBRARY PYTHONPATH
  PATH=$room/venv/bin:$PATH
  by_shell Python
  if has distributed; then by_dask; else echo "archive_pages.sh: $python has no distributed: Dask isn't run"; fi
fi
echo "$passed passed, $failed failed"
[ "$failed" = 0 ]
