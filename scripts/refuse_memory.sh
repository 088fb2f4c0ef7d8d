#!/usr/bin/env bash
# Refuses each allocation, one in each run, of a run of each command and of the help, of `ncc check` over a file with a
# note of each kind. Each run must write the whole text with the status of a run with memory, and leave the files of a run with memory; or less than the text
# and `error memory` with status 3, and leave the files as they were. Then each sync: what wants one must write nothing and `error device` with status 3.
# The program is the first word, or the one that scripts/test.sh left. It needs a C compiler.
set -uo pipefail
top=$(cd "$(dirname "$0")/.." && pwd)
ncc=$(realpath "${1:-$top/crates/ncc_cli/out/ncc_cli}") || exit 1
folder=$(mktemp -d)
trap 'rm -rf "$folder"' EXIT
cd "$folder" || exit 1
cc -O1 -shared -fPIC -o refuse.so "$top/scripts/refuse_calls.c" -ldl || exit 1

# A run of the program's words in a new folder with the examples.
run() {
  rm -rf run && mkdir run && cp "$top"/examples/*.nc run
  (cd run && LD_PRELOAD=$folder/refuse.so "$ncc" "$@" > ../out 2> ../err)
}

# Is this a beginning of the text, and not all of it?
is_less() {
  [ -z "$1" ] || { [ "${2#"$1"}" != "$2" ] && [ "$1" != "$2" ]; }
}

# Is this what is written where memory is refused? An object of a file (`other`) says so itself.
other=
is_refused() {
  [ -n "$other" ] && [ "$1" = "$other" ] || { [ "$(cat err)" = 'error memory' ] && is_less "$1" "$2"; }
}

# The runs that are to write this text, of the command line that follows.
refuse() {
  local text=$1 memory=0 count due=0 n out status
  shift
  rm -rf before && mkdir before && cp "$top"/examples/*.nc before
  COUNTED=$folder/counted run "$@" || due=$?
  [ "$due" -le 1 ] || exit 1
  count=$(cat counted)
  rm -rf whole && mv run whole
  for n in $(seq "$count"); do
    REFUSED=$n run "$@"
    status=$?
    out=$(cat out)
    if [ "$status" = "$due" ] && [ "$out" = "$text" ] && diff -r run whole > differs; then continue; fi
    if [ "$status" = 3 ] && is_refused "$out" "$text" && diff -r run before > differs; then
      memory=$((memory + 1))
      continue
    fi
    echo "$*: allocation $n of $count refused: status $status, wrote: $out$(cat err)"
    exit 1
  done
  echo "$*: $count allocations refused, $memory answered error memory, the others were whole"
}

# The run of the command line that follows, of which each sync fails.
unsynced() {
  UNSYNCED=1 run "$@"
  local found="status $?, wrote: $(cat out)$(cat err)"
  if [ "$found" != 'status 3, wrote: error device' ]; then
    echo "$*: no sync: $found"
    exit 1
  fi
  echo "$*: no sync: $found"
}

refuse "$(cat "$top/examples/noted.listed")" list noted.nc
refuse "$(cat "$top/examples/noted.checked")" check noted.nc
refuse "$("$ncc" check --explain "$top/examples/noted.nc")" check --explain noted.nc
refuse "$("$ncc" check --explain "$top/examples/bad_type_1.nc" || true)" check --explain bad_type_1.nc
refuse "$("$ncc" layout "$top/examples/ocean.nc")" layout ocean.nc
refuse "$("$ncc" layout --svg "$top/examples/ocean.nc")" layout --svg ocean.nc
other='{"file":"noted.nc","status":3,"verdict":"error","error":"memory"}'
refuse "$(cd "$top/examples" && "$ncc" check --json noted.nc)" check --json noted.nc
other='{"file":"ocean.nc","status":3,"verdict":"error","error":"memory"}'
refuse "$(cd "$top/examples" && "$ncc" layout --json ocean.nc)" layout --json ocean.nc
refuse "$(cd "$top/examples" && "$ncc" list --json ocean.nc)" list --json ocean.nc
refuse "$(cd "$top/examples" && "$ncc" list --json --decimal ocean.nc)" list --json --decimal ocean.nc
other=
refuse "$(printf 'dim,vx\n1,1\n3,1')" csv tiny.nc vx --start 1 --stride 2
refuse "records 3" extend ocean.nc 1
refuse "ok CDF-2" convert --to 2 tiny.nc out.nc
refuse "$("$ncc" --help)" --help
unsynced extend ocean.nc 1
unsynced convert --to 2 tiny.nc out.nc
