#!/usr/bin/env bash
# Proves, builds and installs the program as PREFIX/bin/ncc (PREFIX is /usr/local if left out).
#
# A crate is proved as soon as those that it names in crates.txt are, so that several are proved side by side: on all
# processors, or as many as RT_JOBS says, with 4 GB of free memory for each. A run of rt locks every crate below its
# own. So each is proved in a room of its own in target/: a copy of its files, with links to the libraries below it.
# What rt keeps moves back into the crate's out/, where the next install, `rt check` and `rt run` go on from it.
set -euo pipefail
prefix=${1:-/usr/local}
top=$(cd "$(dirname "$0")/.." && pwd)
rooms=$top/target/rooms
log=$top/target/install.log
declare -A uses=() chain=() pid_of=() jobs_of=() started=() is_done=()

fail() {
  echo "install.sh: $1" >&2
  exit 1
}

# The crates below NAME and NAME itself, lowest first, into the list `found`.
closure() {
  local it
  for it in ${uses[$1]}; do
    if [ -n "${uses[$it]+named}" ]; then closure "$it"; fi
  done
  case " ${found[*]} " in *" $1 "*) ;; *) found+=("$1") ;; esac
}

# How many lines of code stand in the longest chain of crates from each crate up.
measure() {
  local at name it
  for ((at = ${#crates[@]} - 1; at >= 0; at--)); do
    name=${crates[at]}
    chain[$name]=$((${chain[$name]:-0} + $(find "$top/crates/$name/src" -name '*.rt' -exec cat {} + | wc -l)))
    for it in ${uses[$name]}; do
      if [ "${chain[$name]}" -gt "${chain[$it]:-0}" ]; then chain[$it]=${chain[$name]}; fi
    done
  done
}

# Makes the room of NAME, with its kept work.
furnish() {
  local found=() it part
  closure "$1"
  mkdir -p "$rooms/$1/crates"
  for it in "${found[@]}"; do
    echo "$it: ${uses[$it]}" >> "$rooms/$1/crates.txt"
    mkdir -p "$rooms/$1/crates/$it/out"
    for part in src specs proofs; do
      if [ -d "$top/crates/$it/$part" ]; then cp -a "$top/crates/$it/$part" "$rooms/$1/crates/$it/"; fi
    done
    if [ "$it" != "$1" ]; then cp -al "$top/crates/$it/out/rlib" "$rooms/$1/crates/$it/out/"; fi
  done
  if [ -d "$top/crates/$1/out" ]; then
    rmdir "$rooms/$1/crates/$1/out"
    mv "$top/crates/$1/out" "$rooms/$1/crates/$1/out"
  fi
}

# Moves the kept work of NAME out of its room, if it has one.
clear_room() {
  if [ -d "$rooms/$1/crates/$1/out" ]; then
    rm -rf "$top/crates/$1/out"
    mv "$rooms/$1/crates/$1/out" "$top/crates/$1/out"
  fi
  rm -rf "${rooms:?}/$1"
}

# Starts the proof of NAME with so many jobs. The program is linked too, and run once.
start() {
  local command=(rt lib --jobs "$2")
  if [ "$1" = ncc_cli ]; then command=(rt run --jobs "$2" -- --version); fi
  furnish "$1"
  (cd "$rooms/$1/crates/$1" && exec "${command[@]}") > "$rooms/$1/log" 2>&1 < /dev/null &
  pid_of[$1]=$!
  jobs_of[$1]=$2
  started[$1]=$SECONDS
  idle=$((idle - $2))
}

# Ends the run of NAME, which is over: its line, or the end of it all.
end() {
  local status=0 seconds=$((SECONDS - started[$1]))
  wait "${pid_of[$1]}" || status=$?
  { echo "== $1: $seconds s, --jobs ${jobs_of[$1]}"; cat "$rooms/$1/log"; } >> "$log"
  clear_room "$1"
  unset "pid_of[$1]"
  [ "$status" = 0 ] || fail "$1 failed; what it said stands at the end of $log"
  is_done[$1]=1
  idle=$((idle + jobs_of[$1]))
  printf '%-12s %4s s\n' "$1" "$seconds"
}

# Starts the crates that wait for none: first those with the longest chain of crates above, which also get the
# processors that no other crate is there for.
start_ready() {
  local ready=() it name jobs
  for name in "${crates[@]}"; do
    if [ -n "${is_done[$name]:-}${pid_of[$name]:-}" ]; then continue; fi
    for it in ${uses[$name]}; do
      if [ -n "${uses[$it]+named}" ] && [ -z "${is_done[$it]:-}" ]; then continue 2; fi
    done
    ready+=("${chain[$name]} $name")
  done
  while [ "${#ready[@]}" -gt 0 ] && [ "$idle" -gt 0 ]; do
    mapfile -t ready < <(printf '%s\n' "${ready[@]}" | sort -rn)
    jobs=$((idle - ${#ready[@]} + 1))
    if [ "$jobs" -lt 1 ]; then jobs=1; fi
    start "${ready[0]#* }" "$jobs"
    ready=("${ready[@]:1}")
  done
}

# Ends what still runs (rt ends all that it started), and leaves no room.
stop() {
  local name
  for name in "${!pid_of[@]}"; do kill "${pid_of[$name]}" 2> /dev/null || true; done
  for name in "${!pid_of[@]}"; do wait "${pid_of[$name]}" || true; clear_room "$name"; done
}

command -v rt > /dev/null || fail "there is no rt: ncc is proved and built by the Rattle kit"
mkdir -p "$prefix/bin" "$rooms" || exit 1
[ -w "$prefix/bin" ] || fail "$prefix/bin can't be written"
while IFS=': ' read -r name rest; do uses[$name]=$rest; done < <(sed 's/#.*//; /^ *$/d' "$top/crates.txt")
found=()
closure ncc_cli
crates=("${found[@]}")
measure
idle=${RT_JOBS:-$(nproc)}
room_for=$(awk '/^MemAvailable/ { print int($2 / 4000000) }' /proc/meminfo)
if [ "$idle" -gt "$room_for" ]; then idle=$room_for; fi
if [ "$idle" -lt 1 ]; then idle=1; fi
echo "Proving and building ncc: ${#crates[@]} crates, on $idle processors."
echo "From nothing that is an hour of processor time, about half an hour on 4; with no change since, under a minute."
echo "The log is $log"
# No other run of rt works in these folders meanwhile.
for name in $(printf '%s\n' "${crates[@]}" | sort); do
  exec {held}< "$top/crates/$name"
  flock -n "$held" || { echo "waiting for another run of rt in crates/$name"; flock "$held"; }
done
for name in "${crates[@]}"; do clear_room "$name"; done
: > "$log"
trap stop EXIT
trap 'exit 1' INT TERM HUP
while [ "${#is_done[@]}" -lt "${#crates[@]}" ]; do
  start_ready
  sleep 0.5
  for name in "${!pid_of[@]}"; do
    if ! kill -0 "${pid_of[$name]}" 2> /dev/null; then end "$name"; fi
  done
done
install -m 755 "$top/crates/ncc_cli/out/ncc_cli" "$prefix/bin/ncc"
echo "installed $prefix/bin/ncc in $((SECONDS / 60)) minutes and $((SECONDS % 60)) seconds"
