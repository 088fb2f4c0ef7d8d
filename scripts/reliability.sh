#!/usr/bin/env bash
# What `ncc extend` and `ncc convert` leave on a real file where a call of the system fails, a disk is full, they are
# killed, or two run at once; and what a reader answers of a file that changes meanwhile. docs/RELIABILITY.md says what
# is promised, and has the figures of the last run. The words are the program (or else the one that scripts/test.sh
# left), how many kills (300) and how many times two run at once (1000). The last line is `N passed, M failed`.
# It needs a C compiler, and for the full disk to be root; what can't be tried is said. A power cut isn't tried.
set -uo pipefail
top=$(cd "$(dirname "$0")/.." && pwd)
ncc=$(realpath "${1:-$top/crates/ncc_cli/out/ncc_cli}") || exit 1
kills=${2:-300}
times=${3:-1000}
folder=$(mktemp -d)
trap 'umount "$folder/full" 2> /dev/null; rm -rf "$folder"' EXIT
cd "$folder" || exit 1
cc -O1 -shared -fPIC -o refuse.so "$top/scripts/refuse_calls.c" -ldl || exit 1
passed=0
failed=0

# A case: its name, what is wanted, and what was found.
count() {
  if [ "$2" = "$3" ]; then
    passed=$((passed + 1))
  else
    failed=$((failed + 1))
    printf 'FAILED %s\n--- wanted\n%s\n--- found\n%s\n' "$1" "$2" "$3"
  fi
}

# The file of int v(t, x), with x of length 3 and one record, 1 2 3.
series() {
  printf 'CDF\1\0\0\0\1\0\0\0\x0a\0\0\0\2\0\0\0\1t\0\0\0\0\0\0\0\0\0\0\1x\0\0\0\0\0\0\3'
  printf '\0\0\0\0\0\0\0\0\0\0\0\x0b\0\0\0\1\0\0\0\1v\0\0\0\0\0\0\2\0\0\0\0\0\0\0\1'
  printf '\0\0\0\0\0\0\0\0\0\0\0\4\0\0\0\x0c\0\0\0\x60\0\0\0\1\0\0\0\2\0\0\0\3'
}

# How many records the file has, if it passes and they are 1 2 3 and then fill values; else nothing.
records() {
  local found
  found=$("$ncc" check --strict "$1" | sed -n 's/^ok CDF-1 records \([0-9]*\) variables 1$/\1/p')
  [ -n "$found" ] || return
  "$ncc" csv "$1" v | awk -F, -v records="$found" '
    NR > 1 && $3 != (NR < 5 ? NR - 1 : -2147483647) { wrong = 1 }
    END { if (!wrong && NR == 3 * records + 1) print records }'
}

# A run with the calls of the system counted, and the one that FAILED names refused.
watched() {
  CALLS=$folder/calls LD_PRELOAD=$folder/refuse.so "$ncc" "$@" > out 2> err
}

# How many calls of this kind the last watched run made.
called() {
  sed -n "s/^$1 //p" calls
}

# ---- extend: its calls, and each of them failing

series > series.nc
cp series.nc file.nc
watched extend file.nc 3
count "extend by 3" "0 records 4" "$? $(cat out)"
count "extend by 3: writes and syncs" "6 7" "$(called pwrite) $(called fsync)"
refused=0
for call in "fsync 1" "fsync 2" "fsync 3" "fsync 4" "fsync 5" "fsync 6" "fsync 7" \
    "pwrite 1" "pwrite 2" "pwrite 3" "pwrite 4" "pwrite 5" "pwrite 6"; do
  cp series.nc file.nc
  FAILED=$call watched extend file.nc 3
  count "extend, $call fails" "3  error device" "$? $(cat out) $(cat err)"
  count "extend, $call fails: it is the last of its kind" "${call#* }" "$(called "${call% *}")"
  found=$(records file.nc)
  number=${call#* }
  # The sync after the k-th record, and then the one after its count: a write that was done is there.
  case $call in
    fsync\ *) wanted=$((number / 2 + 1 - (number % 2 == 0 ? 1 : 0))) ;;
    *) wanted=$(((number + 1) / 2)) ;;
  esac
  count "extend, $call fails: records" "$wanted" "$found"
  refused=$((refused + 1))
done
echo "extend: 6 writes and 7 syncs for 3 records; each of $refused calls failed once, none was made again"
# The reason is told, of whatever call it is.
for row in "pwrite 1 28|no space left" "pwrite 2 122|no space left" "fsync 2 28|no space left" "fsync 3 30|read-only file system" \
    "fsync 2 22|can't be read or written" \
    "pwrite 1 27|would be too large a file" "pwrite 1 5|can't be read or written" "pread 1 13|permission denied"; do
  cp series.nc file.nc
  FAILED=${row%|*} watched extend --verbose file.nc 1
  count "extend, ${row%|*} fails: the reason" "3  error device ncc: file.nc: ${row#*|}" "$? $(cat out) $(echo $(cat err))"
done
# Calls that a signal interrupts (4, EINTR): a write is a failure, a sync and a read are made again.
cp series.nc file.nc
watched extend file.nc 1
reads=$(called pread)
for row in "pwrite 1|3  error device|$reads 1 1|1" "pwrite 2|3  error device|$reads 2 2|1" "fsync 1|0 records 2 |$reads 2 4|2" \
    "fsync 3|0 records 2 |$reads 2 4|2" "pread 1|0 records 2 |$((reads + 1)) 2 3|2"; do
  IFS='|' read -r call answer calls wanted <<< "$row"
  cp series.nc file.nc
  FAILED="$call 4" watched extend file.nc 1
  count "extend, $call is interrupted" "$answer" "$? $(cat out) $(cat err)"
  count "extend, $call is interrupted: reads, writes and syncs" "$calls" "$(called pread) $(called pwrite) $(called fsync)"
  count "extend, $call is interrupted: records" "$wanted" "$(records file.nc)"
done
echo "extend: an interrupted write is a failure, an interrupted sync or read is made again"

# ---- convert: its calls, and each of them failing

cp "$top"/examples/kinds_1.nc in.nc
"$ncc" convert --to 5 in.nc whole.nc > /dev/null
watched convert --to 5 in.nc new.nc
count "convert" "0 ok CDF-5" "$? $(cat out)"
count "convert: syncs, names given and taken" "2 1 1" "$(called fsync) $(called link) $(called unlink)"
count "convert: the file" "" "$(cmp new.nc whole.nc 2>&1)$(ls new.nc.part 2> /dev/null)"
watched convert --to 5 in.nc new.nc
count "convert onto a file: nothing is written, given or taken" "3 0 0 0" \
  "$? $(called write) $(called link) $(called unlink)"
rm -f new.nc
# What is synced, and when: the part, then after the names its folder.
mkdir sub
for name in new.nc sub/new.nc "$folder/sub/new.nc"; do
  rm -f traced
  TRACED=$folder/traced watched convert --to 5 in.nc "$name"
  path=$(realpath "$name")
  wanted=$(printf 'fsync %s.part\nlink %s\nunlink %s.part\nfsync %s' "$path" "$name" "$name" "$(dirname "$path")")
  count "convert to $name: what it calls" "$wanted" "$(cat traced)"
  rm -f "$name"
done
refused=0
for call in "write 1" "fsync 1" "link 1" "link 1 4" "link 1 13" "link 1 28" "fsync 2"; do
  FAILED=$call watched convert --to 5 in.nc new.nc
  count "convert, $call fails" "3  error device" "$? $(cat out) $(cat err)"
  count "convert, $call fails: no file is left" "" "$(ls new.nc new.nc.part 2> /dev/null)"
  rm -f new.nc new.nc.part
  refused=$((refused + 1))
done
# A file system without links (EPERM, EMLINK, ENOSYS, EOPNOTSUPP, and NFS's ENOTSUPP): the name is claimed, and the whole
# file is renamed onto it.
for error in 1 31 38 95 524; do
  FAILED="link 1 $error" watched convert --to 5 in.nc new.nc
  count "convert without links ($error)" "0 ok CDF-5 1" "$? $(cat out) $(called rename)"
  count "convert without links ($error): the file" "" "$(cmp new.nc whole.nc 2>&1)$(ls new.nc.part 2> /dev/null)"
  rm -f new.nc
done
echo "convert: each of $refused calls failed once, and no file was left"

# ---- a full disk

mkdir full
if mount -t tmpfs -o size=256k tmpfs full 2> /dev/null; then
  series > full/series.nc
  "$ncc" extend --verbose full/series.nc 100000 > out 2> err
  count "extend on a full disk" "3  error device ncc: full/series.nc: no space left" "$? $(cat out) $(echo $(cat err))"
  found=$(records full/series.nc)
  count "extend on a full disk: the file passes" 1 "$((found > 1000))"
  "$ncc" convert --verbose --to 5 full/series.nc full/new.nc > out 2> err
  count "convert on a full disk" "3  error device ncc: full/new.nc: no space left" "$? $(cat out) $(echo $(cat err))"
  count "convert on a full disk: no file is left" "" "$(cd full && ls new.nc new.nc.part 2> /dev/null)"
  echo "full disk: $found records stand, and no new file"
  umount full
else
  echo "skipped the full disk: only root can make one"
fi

# ---- kills

series > killed.nc
before=1
for ((kill = 1; kill <= kills; kill++)); do
  "$ncc" extend killed.nc 1000000 > out 2>&1 &
  process=$!
  sleep "0.0$((RANDOM % 5))$((RANDOM % 10))"
  kill -9 "$process" 2> /dev/null
  wait "$process" 2> /dev/null
  after=$(records killed.nc)
  if [ -z "$after" ] || [ "$after" -lt "$before" ]; then break; fi
  before=$after
done
count "kills of extend" "$kills" "$((kill - 1))"
echo "extend: $((kill - 1)) kills, $before records"

# A file of 16 MiB, so that a kill falls into each part of its conversion.
{
  printf 'CDF\1\0\0\0\0\0\0\0\x0a\0\0\0\1\0\0\0\1x\0\0\0\0\x80\0\0\0\0\0\0\0\0\0\0\0\0\0\x0b\0\0\0\1'
  printf '\0\0\0\1v\0\0\0\0\0\0\1\0\0\0\0\0\0\0\0\0\0\0\0\0\0\0\3\1\0\0\0\0\0\0\x50'
  head -c $((16 << 20)) /dev/urandom
} > large.nc
rm -f whole.nc
"$ncc" convert --to 2 large.nc whole.nc > out
count "the file of 16 MiB" "ok CDF-2" "$(cat out)"
none=0
part=0
whole=0
for ((kill = 1; kill <= kills; kill++)); do
  "$ncc" convert --to 2 large.nc killed_2.nc > out 2>&1 &
  process=$!
  sleep "0.0$((RANDOM % 5))$((RANDOM % 10))"
  kill -9 "$process" 2> /dev/null
  wait "$process" 2> /dev/null
  if [ -e killed_2.nc ]; then
    cmp -s killed_2.nc whole.nc || break
    whole=$((whole + 1))
  elif [ -e killed_2.nc.part ]; then
    part=$((part + 1))
  else
    none=$((none + 1))
  fi
  rm -f killed_2.nc killed_2.nc.part
done
count "kills of convert" "$kills" "$((kill - 1))"
echo "convert: $((kill - 1)) kills, of which $none left nothing, $part the other name, $whole the whole file"

# ---- two writers

series > two.nc
said=0
told=0
for ((time = 1; time <= times; time++)); do
  "$ncc" extend two.nc 1 > one 2> err &
  process=$!
  "$ncc" extend two.nc 1 > other 2> err2
  wait "$process"
  lines=$(cat one other | grep -c '^records [0-9]*$')
  said=$((said + lines))
  told=$((told + $(cat err err2 | grep -c '^error device$')))
  # What was printed is true of the file, and no two printed the same.
  last=$(cat one other | sed 's/^records //' | sort -n | tail -n 1)
  if [ "$lines" = 0 ] || [ "$last" != $((said + 1)) ] || [ -n "$(sort one other | uniq -d)" ]; then break; fi
done
count "two writers" "$times" "$((time - 1))"
count "two writers: each record that was told stands" "$((said + 1))" "$(records two.nc)"
count "two writers: each answered" "$((2 * times))" "$((said + told))"
echo "two writers: $((time - 1)) times, $said added a record, $told were refused the file"

# ---- a file that changes while it is read

cp large.nc changing.nc
(while :; do truncate -s 20 changing.nc; cp large.nc changing.nc; truncate -s 9000000 changing.nc; done) 2> /dev/null &
process=$!
answers=0
for ((time = 1; time <= times; time++)); do
  case $((time % 4)) in
    0) timeout 60 "$ncc" check changing.nc > out 2> err ;;
    1) timeout 60 "$ncc" list changing.nc > out 2> err ;;
    2) timeout 60 "$ncc" csv changing.nc v --start 8388000 > out 2> err ;;
    3) timeout 60 "$ncc" convert --to 5 changing.nc changed.nc > out 2> err; rm -f changed.nc changed.nc.part ;;
  esac
  case $? in 0 | 1 | 3) answers=$((answers + 1)) ;; esac
done
kill "$process" 2> /dev/null
wait "$process" 2> /dev/null
count "a file that changes" "$times" "$answers"
echo "a file that changes: $answers reads of $times were answered"
echo "$passed passed, $failed failed"
[ "$failed" = 0 ]
