#!/usr/bin/env bash
# Runs every example of README.md and docs/MANUAL.md with the program NCC, and compares what it prints word for word.
# An example is a line of an indented or fenced block that begins with `$ `. What it prints, on both outputs, stands
# below it, up to the next such line or the end of the block; a line `...` stands for whatever else is printed.
# The examples of a page are run one after another, in a folder of their own with a copy of examples/.
# The last line is `N passed, M failed`.
set -uo pipefail
top=$(cd "$(dirname "$0")/.." && pwd)
ncc=$(realpath "${1:?usage: scripts/pages.sh NCC}") || exit 1
folder=$(mktemp -d)
trap 'rm -rf "$folder"' EXIT
mkdir "$folder/bin"
ln -s "$ncc" "$folder/bin/ncc"
passed=0
failed=0

# Runs the example that was read last, if there is one: its COMMAND, and the lines WANTED of it.
run() {
  local found
  [ -n "$command" ] || return 0
  found=$(cd "$folder/$page" && PATH=$folder/bin:$PATH bash -c "$command" 2>&1 < /dev/null)
  if [ "$is_open" = yes ]; then found=$(head -n "${#wanted[@]}" <<< "$found"); fi
  if [ "$found" = "$(printf '%s\n' "${wanted[@]}")" ]; then
    passed=$((passed + 1))
  else
    failed=$((failed + 1))
    printf 'FAILED %s: $ %s\n--- wanted\n' "$page" "$command"
    printf '%s\n' "${wanted[@]}" "--- found" "$found"
  fi
  command=
}

# Takes a line of a block.
take() {
  case $1 in
    '$ '*) run; command=${1#'$ '} wanted=() is_open=no ;;
    ...) is_open=yes ;;
    *) if [ "$is_open" = no ]; then wanted+=("$1"); fi ;;
  esac
}

# Reads a page: fenced blocks, and blocks of lines behind four spaces, with the empty lines between these.
read_page() {
  local line is_fenced=no empty=0
  command= wanted=() is_open=no
  while IFS= read -r line; do
    if [ "${line:0:3}" = '```' ]; then
      run
      if [ "$is_fenced" = no ]; then is_fenced=yes; else is_fenced=no; fi
    elif [ "$is_fenced" = yes ]; then
      take "$line"
    elif [ "${line:0:4}" = "    " ]; then
      while [ "$empty" -gt 0 ]; do take ""; empty=$((empty - 1)); done
      take "${line:4}"
    elif [ -z "$line" ]; then
      if [ -n "$command" ]; then empty=$((empty + 1)); fi
    else
      run
    fi
    if [ -n "$line" ]; then empty=0; fi
  done < "$1"
  run
}

for file in README.md docs/MANUAL.md; do
  page=$(basename "$file" .md)
  mkdir "$folder/$page"
  cp -r "$top/examples" "$folder/$page/"
  read_page "$top/$file"
done
echo "$passed passed, $failed failed"
[ "$failed" = 0 ]
