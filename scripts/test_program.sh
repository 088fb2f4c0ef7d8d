#!/usr/bin/env bash
# Runs the built program as a user does, in a folder of its own: its statuses, full and closed outputs, its
# help, and the files of examples/. The program is the first word, or else crates/ncc_cli is proved and built.
# The last line is `N passed, M failed`.
set -uo pipefail
top=$(cd "$(dirname "$0")/.." && pwd)
folder=$(mktemp -d)
trap 'umount "$folder/full" 2> /dev/null; rm -rf "$folder"' EXIT
if [ $# -gt 0 ]; then
  ncc=$(realpath "$1") || exit 1
else
  "$top/scripts/install.sh" "$folder/built" > "$folder/build.log" 2>&1 || { cat "$folder/build.log"; exit 1; }
  ncc=$folder/built/bin/ncc
fi
passed=0
failed=0

# Counts a case, and says what is wrong with one that failed.
count() {
  if [ "$2" = "$3" ]; then
    passed=$((passed + 1))
  else
    failed=$((failed + 1))
    printf 'FAILED %s\n--- wanted\n%s\n--- found\n%s\n' "$1" "$2" "$3"
  fi
}

# A run's status, its output and its error, in one text.
seen() {
  "$ncc" "$@" > out 2> err < /dev/null
  printf 'status %s\n%s\n%s' "$?" "$(cat out)" "$(cat err)"
}

# The case NAME: STATUS, OUT and ERR of the words that follow.
expect() {
  local name=$1 wanted
  wanted=$(printf 'status %s\n%s\n%s' "$2" "$3" "$4")
  shift 4
  count "$name" "$wanted" "$(seen "$@")"
}

# The case NAME: STATUS, and a first line of OUT and of ERR, of the words that follow.
expect_first() {
  local name=$1 wanted found
  wanted=$(printf '%s|%s|%s' "$2" "$3" "$4")
  shift 4
  "$ncc" "$@" > out 2> err < /dev/null
  found=$(printf '%s|%s|%s' "$?" "$(head -n 1 out)" "$(head -n 1 err)")
  count "$name" "$wanted" "$found"
}

cd "$folder" || exit 1
cp "$top"/examples/*.nc .

# ---- each example has the lines beside it; its status is 1 where that is a fault's line

for file in *.nc; do
  listed=$top/examples/${file%.nc}.listed
  checked=$top/examples/${file%.nc}.checked
  if grep -q '^fault ' "$listed"; then status=1; else status=0; fi
  expect "list $file" "$status" "$(cat "$listed")" "" list "$file"
  if grep -q '^fault ' "$checked"; then status=1; else status=0; fi
  expect "check $file" "$status" "$(cat "$checked")" "" check "$file"
  if grep -q '^note ' "$checked"; then status=1; fi
  expect "check --strict $file" "$status" "$(cat "$checked")" "" check --strict "$file"
done
whole=$(wc -c < "$top/examples/ocean.listed")
count "list writes its last newline" "$whole" "$("$ncc" list ocean.nc | wc -c | tr -d ' ')"

# ---- statuses

expect "no such file" 3 "" "error device" list not_there.nc
expect "a folder" 3 "" "error device" list .
: > nothing.nc
expect "an empty file" 1 "fault EndsEarly at 0" "" list nothing.nc
expect "no such file to check" 3 "" "error device" check not_there.nc
expect "a folder to check" 3 "" "error device" check .
expect "an empty file to check" 1 "fault EndsEarly at 0" "" check nothing.nc
{
  printf 'CDF\1\0\0\0\0\0\0\0\0\0\0\0\0\0\0\0\x0c\x7f\xff\xff\xff'
  for _ in {1..34}; do printf '\0\0\0\0\0\0\0\6\0\0\0\0'; done
} > counted.nc
counted=$(printf 'status 1\nfault EndsEarly at 432\n')
count "34 attributes of 2,147,483,647, in 32 megabytes" "$counted" "$(ulimit -v 32000 && seen check counted.nc)"
printf 'CDF\1\0\0\0\0\0\0\0\0\0\0\0\0\0\0\0\x0c\0\0\0\1\0\0\0\1a\0\0\0\0\0\0\2\3\0\0\0' > long_text.nc
truncate -s 60000000 long_text.nc
refused=$(printf 'status 3\n\nerror memory')
count "a text of 48 MiB, in 32 megabytes" "$refused" "$(ulimit -v 32000 && seen check long_text.nc)"
rows=$(printf 'status 0\ndim,vx\n0,3\n1,1\n2,4\n3,1\n4,5\n')
count "csv in 32 megabytes" "$rows" "$(ulimit -v 32000 && seen csv tiny.nc vx)"
expect "a header of the given limit" 0 "ok CDF-1 records 0 variables 0" "" check --max-header 32 empty.nc
expect "a header past the given limit" 1 "fault HeaderTooLong at 28" "" check --max-header 31 empty.nc
source="ncc 0.1.0 (built from source: neither its commit nor the kit's logic is told here.)"
expect "version" 0 "$source" "" --version
expect "a limit behind a sign" 1 "fault HeaderTooLong at 28" "" check --max-header=31 --strict empty.nc
expect "the greatest limit" 0 "ok CDF-1 records 0 variables 0" "" check --max-header 18446744073709551615 empty.nc
# Its vsize isn't 12.
cp tiny.nc vsize.nc
printf '\0' | dd of=vsize.nc bs=1 seek=75 conv=notrunc status=none
expect "a note" 0 "$(printf 'ok CDF-1 records 0 variables 1\nnote VsizeField at 72')" "" check --max-header 100 vsize.nc
expect "a note with --strict and a limit" 1 "$(printf 'ok CDF-1 records 0 variables 1\nnote VsizeField at 72')" "" \
  check --strict --max-header 100 vsize.nc
# A file of the system that nobody may write, not even root.
expect "a file that may not be written" 1 "fault EndsEarly at 0" "" check /proc/sys/kernel/osrelease

# ---- command lines that are wrong

# The case of a command line that is wrong: the FIRST line of its error, and the words that follow.
wrong() {
  local first=$1
  shift
  expect_first "wrong: $*" 2 "" "$first" "$@"
}

wrong "Checks, lists, reads, extends and converts netCDF classic files"
wrong "error: unrecognized subcommand 'lst'" lst ocean.nc
wrong "error: the following required arguments were not provided:" list
wrong "error: the following required arguments were not provided:" check
wrong "error: the following required arguments were not provided:" layout
wrong "error: the argument '--files-from0 <LIST>' cannot be used with '[FILE]...'" list --files-from0 names ocean.nc
wrong "error: the argument '--svg <FILE>' cannot be used with '[FILE]...'" layout --svg tiny.nc ocean.nc
wrong "error: the argument '--svg <FILE>' cannot be used with '--json'" layout --svg tiny.nc --json
wrong "error: the argument '--svg <FILE>' cannot be used with '--files-from0 <LIST>'" layout --svg tiny.nc --files-from0 names
wrong "error: a value is required for '--svg <FILE>' but none was supplied" layout --svg
wrong "error: the argument '--svg <FILE>' cannot be used multiple times" layout --svg tiny.nc --svg ocean.nc
wrong "error: unexpected argument '--svg' found" check --svg ocean.nc
wrong "error: unexpected argument '--all' found" list --all ocean.nc
wrong "error: invalid value 'x' for '--max-header <N>': invalid digit found in string" check --max-header x ocean.nc
wrong "error: invalid value '18446744073709551616' for '--max-header <N>': number too large to fit in target type" \
  check --max-header 18446744073709551616 ocean.nc
wrong "error: invalid value '-1' for '--max-header <N>': invalid digit found in string" check --max-header -1 ocean.nc
wrong "error: invalid value '-1' for '<N>': invalid digit found in string" extend ocean.nc -1
wrong "error: the argument '--strict' cannot be used multiple times" check --strict --strict ocean.nc
wrong "error: the argument '--explain' cannot be used with '--brief'" check --explain --brief ocean.nc
wrong "error: the argument '--json' cannot be used with '--brief'" check --json --brief ocean.nc
wrong "error: the argument '--json' cannot be used with '--explain'" check --json --explain ocean.nc
wrong "error: unexpected argument '--json' found" csv --json ocean.nc time
wrong "error: the argument '--json' cannot be used multiple times" list --json --decimal --json ocean.nc
wrong "error usage" csv ocean.nc time --start -1
wrong "error usage" csv ocean.nc time --start -1,0
wrong "error usage" csv ocean.nc time --start --count=1
for list in --start= --start=-1 --start=+1 --count=1, --count=,1 --count=1,,2 --stride=0x1 \
  --stride=18446744073709551616; do
  wrong "error usage" csv ocean.nc time "$list"
done
wrong "error usage" csv not_there.nc time --count=
expect "no such file to select from" 3 "" "error device" csv not_there.nc time

# ---- help

# The help of a command: what it is for, an example that begins with it, and these options, in order.
while IFS='|' read -r command about options; do
  "$ncc" "$command" --help > out 2> err
  count "help of $command" "0 $about" "$? $(head -n 1 out)$(cat err)"
  count "help of $command: its example" "  ncc $command " \
    "$(grep -A 1 '^Example:$' out | tail -n 1 | grep -o "^  ncc $command ")"
  count "help of $command: its options" "$options" \
    "$(grep -oE '^ +(-h, )?--[a-z0-9-]+' out | grep -oE -- '--[a-z0-9-]+$' | paste -sd ' ')"
  count "help of $command: its longest line" yes "$(awk 'length > most { most = length } END { print (most > 100 ? most : "yes") }' out)"
  count "help of $command: its statuses" "  2  the command line is wrong|  3  a device or memory failed" \
    "$(tail -n 2 out | paste -sd '|')"
done <<'END'
check|Says whether files are sound, and what is unusual in them|--strict --brief --explain --json --max-header --files-from0 --verbose --help
convert|Writes what a file holds into a new file, in another version|--to --verbose --help
csv|Prints the values of a variable, or of a selection of them|--start --count --stride --decimal --text --verbose --help
extend|Adds records of fill values to a file|--verbose --help
layout|Shows where everything in files lies|--json --svg --files-from0 --verbose --help
list|Lists what the headers of files say|--decimal --json --files-from0 --verbose --help
END
expect_first "help by a word" 0 "Lists what the headers of files say" "" help list
"$ncc" --help > out
count "help begins with what it is for" "Checks, lists, reads, extends and converts netCDF classic files||Usage: ncc <COMMAND>" \
  "$(head -n 3 out | paste -sd '|')"
count "help ends with the statuses" "  2  the command line is wrong|  3  a device or memory failed" \
  "$(tail -n 2 out | paste -sd '|')"

# ---- rows

expect "csv tiny.nc" 0 "$(printf 'dim,vx\n0,3\n1,1\n2,4\n3,1\n4,5')" "" csv tiny.nc vx
expect "csv from a start on" 0 "$(printf 'dim,vx\n1,1\n3,1')" "" csv tiny.nc vx --start 1 --stride 2
expect "csv of no rows" 0 "dim,vx" "" csv tiny.nc vx --count 0
expect "csv of another variable" 1 "refused NoVariable" "" csv tiny.nc vy
expect "csv past the end" 1 "refused Outside 0" "" csv tiny.nc vx --start 4 --count 2
expect "csv of two numbers" 1 "refused RankMismatch" "" csv tiny.nc vx --start 1,1
expect "csv past the end by a stride" 1 "refused Outside 0" "" csv tiny.nc vx --start 0 --count 3 --stride 3
expect "csv of a stride of 0" 1 "refused ZeroStride 0" "" csv tiny.nc vx --stride 0
expect "csv of a fault" 1 "fault Truncated at 60" "" csv bad_truncated_1.nc v

# A file of 100,000 shorts, whose rows are read after a second and a half: only a terminal is told how far it is.
{
  printf 'CDF\1\0\0\0\0\0\0\0\x0a\0\0\0\1\0\0\0\1x\0\0\0\0\1\x86\xa0\0\0\0\0\0\0\0\0'
  printf '\0\0\0\x0b\0\0\0\1\0\0\0\1v\0\0\0\0\0\0\1\0\0\0\0\0\0\0\0\0\0\0\0'
  printf '\0\0\0\3\0\3\x0d\x40\0\0\0\x50'
  head -c 200000 /dev/zero
} > long.nc
count "check of 100,000 shorts" "ok CDF-1 records 0 variables 1" "$("$ncc" check long.nc)"
cat > slow.py <<'END'
import os, pty, select, subprocess, sys, time

terminal, told = pty.openpty()
errors = subprocess.PIPE if sys.argv[1] == "pipe" else told
run = subprocess.Popen(sys.argv[2:], stdin=subprocess.DEVNULL, stdout=subprocess.PIPE, stderr=errors)
time.sleep(1.5)
rows = run.stdout.read().count(b"\n")
status = run.wait()
shown = run.stderr.read() if sys.argv[1] == "pipe" else b""
while sys.argv[1] != "pipe" and select.select([terminal], [], [], 0.5)[0]:
    shown += os.read(terminal, 65536)
kind = "nothing"
if shown:
    kind = "rows" if b" of 100000 rows" in shown and shown.endswith(b"\r\x1b[K") else repr(shown)
print(status, rows, kind)
END
count "a terminal is told how far it is" "0 100001 rows" "$(python3 slow.py terminal "$ncc" csv long.nc v)"
count "a pipe isn't" "0 100001 nothing" "$(python3 slow.py pipe "$ncc" csv long.nc v)"

# ---- outputs that take nothing

for file in ocean.nc bad_magic_1.nc; do
  "$ncc" list "$file" > /dev/full 2> err
  count "list $file, full output" "3 error device" "$? $(cat err)"
  "$ncc" list "$file" >&- 2> err
  count "list $file, closed output" "3 error device" "$? $(cat err)"
  "$ncc" check "$file" > /dev/full 2> err
  count "check $file, full output" "3 error device" "$? $(cat err)"
  "$ncc" layout "$file" > /dev/full 2> err
  count "layout $file, full output" "3 error device" "$? $(cat err)"
  "$ncc" csv "$file" time > /dev/full 2> err
  count "csv $file, full output" "3 error device" "$? $(cat err)"
  "$ncc" extend "$file" 0 > /dev/full 2> err
  count "extend $file, full output" "3 error device" "$? $(cat err)"
  "$ncc" convert --to 5 "$file" "new_$file" > /dev/full 2> err
  count "convert $file, full output" "3 error device" "$? $(cat err)"
done
count "convert of a fault makes no file, full output" absent "$([ -e new_bad_magic_1.nc ] || echo absent)"
rm -f new_ocean.nc
"$ncc" list --help > /dev/full 2> err
count "help, full output" "3 error device" "$? $(cat err)"
"$ncc" --version > /dev/full 2> err
count "version, full output" "3 error device" "$? $(cat err)"
"$ncc" list not_there.nc > out 2> /dev/full
count "full error" "3 " "$? $(cat out)"
"$ncc" list > out 2> /dev/full
count "a wrong command line, full error" "2 " "$? $(cat out)"
"$ncc" list ocean.nc 2>&- > out
count "closed error" 0 $?
"$ncc" list ocean.nc | head -c 1 > out
count "an output that is read in part" f "$(cat out)"

# ---- records that are added

# Three records of a short.
{
  printf 'CDF\x01\x00\x00\x00\x03\x00\x00\x00\x0a\x00\x00\x00\x01\x00\x00\x00\x01'
  printf 't\x00\x00\x00\x00\x00\x00\x00\x00\x00\x00\x00\x00\x00\x00\x00\x00\x00\x00\x0b'
  printf '\x00\x00\x00\x01\x00\x00\x00\x01v\x00\x00\x00\x00\x00\x00\x01\x00\x00\x00\x00'
  printf '\x00\x00\x00\x00\x00\x00\x00\x00\x00\x00\x00\x03\x00\x00\x00\x04\x00\x00\x00P'
  printf '\x00\x01\x00\x02\x00\x03'
} > records.nc
# Two records of a byte and of a short, without the padding of the last.
{
  printf 'CDF\x01\x00\x00\x00\x02\x00\x00\x00\x0a\x00\x00\x00\x01\x00\x00\x00\x01'
  printf 't\x00\x00\x00\x00\x00\x00\x00\x00\x00\x00\x00\x00\x00\x00\x00\x00\x00\x00\x0b'
  printf '\x00\x00\x00\x02\x00\x00\x00\x01a\x00\x00\x00\x00\x00\x00\x01\x00\x00\x00\x00'
  printf '\x00\x00\x00\x00\x00\x00\x00\x00\x00\x00\x00\x01\x00\x00\x00\x04\x00\x00\x00t'
  printf '\x00\x00\x00\x01b\x00\x00\x00\x00\x00\x00\x01\x00\x00\x00\x00\x00\x00\x00\x00'
  printf '\x00\x00\x00\x00\x00\x00\x00\x03\x00\x00\x00\x04\x00\x00\x00x\x05\x81\x81\x81'
  printf '\x00\x07\x80\x01\x06\x81\x81\x81\x00\x08'
} > two.nc

# The bytes of a file from an offset on, in hexadecimal.
bytes_from() {
  tail -c +$(($2 + 1)) "$1" | head -c "$3" | od -An -v -tx1 | tr -d ' \n'
}

cp records.nc before.nc
expect "extend by none" 0 "records 3" "" extend records.nc 0
count "extend by none leaves the file" 0 "$(cmp records.nc before.nc > /dev/null 2>&1; echo $?)"
expect "extend by one" 0 "records 4" "" extend records.nc 1
count "the count" 00000004 "$(bytes_from records.nc 4 4)"
count "the record" "8001 88" "$(bytes_from records.nc 86 2) $(wc -c < records.nc | tr -d ' ')"
expect "the extended file passes" 0 "ok CDF-1 records 4 variables 1" "" check --strict records.nc
expect "its rows" 0 "$(printf 't,v\n0,1\n1,2\n2,3\n3,-32767')" "" csv records.nc v
expect "extend by a thousand" 0 "records 1004" "" extend records.nc 1000
expect "extend of two variables" 0 "records 3" "" extend two.nc 1
count "its padding and record" "00008181818180018001 140" "$(bytes_from two.nc 130 10) $(wc -c < two.nc | tr -d ' ')"
expect "extend by none without record variables" 0 "records 0" "" extend tiny.nc 0
expect "extend without record variables" 1 "refused NoRecordVariable" "" extend tiny.nc 1
expect "extend of a fault" 1 "fault Truncated at 60" "" extend bad_truncated_1.nc 0
expect "extend of a fault by one" 1 "fault Truncated at 60" "" extend bad_truncated_1.nc 1
expect "no such file to extend" 3 "" "error device" extend not_there.nc 1
# Another has the lock: nobody else adds to the file, and all may read it.
if command -v flock > /dev/null; then
  cp two.nc locked.nc
  count "extend of a locked file" "3  error device ncc: locked.nc: is being written" \
    "$(flock locked.nc "$ncc" extend --verbose locked.nc 1 > out 2> err; echo "$? $(cat out) $(cat err | tr '\n' ' ' | sed 's/ $//')")"
  count "extend of a locked file leaves it" "" "$(cmp locked.nc two.nc)"
  count "extend of a locked file by none" "0 records 3" "$(flock locked.nc "$ncc" extend locked.nc 0 > out; echo "$? $(cat out)")"
  count "check of a locked file" "0 ok CDF-1 records 3 variables 2" "$(flock locked.nc "$ncc" check locked.nc > out; echo "$? $(cat out)")"
else
  echo "skipped locks: there is no flock"
fi
# A file of the system that nobody may write: with none to add it is opened for reading.
expect "a file that may not be written, by none" 1 "fault EndsEarly at 0" "" extend /proc/sys/kernel/osrelease 0
expect "a file that may not be written, by one" 3 "" "error device" extend /proc/sys/kernel/osrelease 1
expect_first "extend by no number" 2 "" "error: invalid value 'x' for '<N>': invalid digit found in string" extend two.nc x
expect_first "extend by what" 2 "" "error: the following required arguments were not provided:" extend two.nc
expect_first "help of extend" 0 "Adds records of fill values to a file" "" extend --help

# ---- files in another version

# The case NAME: neither FILE nor its part is there.
neither() {
  count "$1: no file is made" "absent absent" "$([ -e "$2" ] || echo absent) $([ -e "$2.part" ] || echo absent)"
}

# The case of a FILE that is converted to a VERSION: its line, and the bytes of another file.
converts() {
  rm -f new.nc
  expect "convert $1 to CDF-$2" 0 "ok CDF-$2" "" convert --to "$2" "$1" new.nc
  count "convert $1 to CDF-$2: no part is left" absent "$([ -e new.nc.part ] || echo absent)"
  count "convert $1 to CDF-$2: the bytes of $3" "" "$(cmp new.nc "$3" 2>&1)"
}

# The case of a FILE that is converted to a VERSION, and from there to its OWN: its bytes are the same.
there_and_back() {
  rm -f middle.nc
  expect "convert $1 to CDF-$2" 0 "ok CDF-$2" "" convert --to "$2" "$1" middle.nc
  rm -f new.nc
  expect "convert $1 to CDF-$2 and back" 0 "ok CDF-$3" "" convert --to "$3" middle.nc new.nc
  count "convert $1 to CDF-$2 and back: its bytes" "" "$(cmp new.nc "$1" 2>&1)"
}

# The case NAME of a FILE that isn't converted to a VERSION: STATUS, OUT and ERR, and no file is made.
makes_none() {
  rm -f new.nc
  expect "$1" "$4" "$5" "$6" convert --to "$3" "$2" new.nc
  neither "$1" new.nc
}

# A copy of a FILE, as the last word, with these bytes at an OFFSET.
changed() {
  cp "$1" "$4"
  printf "$3" | dd of="$4" bs=1 seek="$2" conv=notrunc status=none
}

# kinds and lone are one dataset each, in three versions.
for name in kinds lone; do
  for from in 1 2 5; do
    for to in 1 2 5; do converts "${name}_$from.nc" "$to" "${name}_$to.nc"; done
  done
done
for to in 1 2 5; do
  for file in empty tiny grid ocean; do there_and_back "$file.nc" "$to" 1; done
done
there_and_back counts.nc 5 5

# A file that is still written, with a part of a record behind those that are whole.
for name in kinds lone; do
  for from in 1 2 5; do
    mark='\xff\xff\xff\xff'
    if [ "$from" = 5 ]; then mark=$mark$mark; fi
    changed "${name}_$from.nc" 4 "$mark" streaming.nc
    printf '\1' >> streaming.nc
    for to in 1 2 5; do converts streaming.nc "$to" "${name}_$to.nc"; done
  done
done

# The standard's example with a padding of its header, a tag of an empty list, a vsize and a padding of its values that
# aren't those of a canonical file; with a gap before its values and bytes behind them; and without its last padding.
changed tiny.nc 50 '\1' rough.nc
changed rough.nc 60 '\0\0\0\x0c' rougher.nc
changed rougher.nc 72 '\0\0\0\x08' rough.nc
changed rough.nc 90 '\1\2' rougher.nc
converts rougher.nc 1 tiny.nc
{
  head -c 76 tiny.nc
  printf '\0\0\0\x58\1\2\3\4\5\6\7\x08'
  tail -c 12 tiny.nc
  printf '\1\2\3'
} > apart.nc
converts apart.nc 1 tiny.nc
head -c 90 tiny.nc > cut.nc
converts cut.nc 1 tiny.nc
# The int a behind the byte b, and what they are in CDF-2.
{
  printf 'CDF\1\0\0\0\0\0\0\0\0\0\0\0\0\0\0\0\0\0\0\0\0\0\0\0\x0b\0\0\0\2'
  printf '\0\0\0\1a\0\0\0\0\0\0\0\0\0\0\0\0\0\0\0\0\0\0\4\0\0\0\4\0\0\0\x64'
  printf '\0\0\0\1b\0\0\0\0\0\0\0\0\0\0\0\0\0\0\0\0\0\0\1\0\0\0\4\0\0\0\x60'
  printf '\6\0\0\0\0\0\0\5'
} > other.nc
{
  printf 'CDF\2\0\0\0\0\0\0\0\0\0\0\0\0\0\0\0\0\0\0\0\0\0\0\0\x0b\0\0\0\2'
  printf '\0\0\0\1a\0\0\0\0\0\0\0\0\0\0\0\0\0\0\0\0\0\0\4\0\0\0\4\0\0\0\0\0\0\0\x68'
  printf '\0\0\0\1b\0\0\0\0\0\0\0\0\0\0\0\0\0\0\0\0\0\0\1\0\0\0\4\0\0\0\0\0\0\0\x6c'
  printf '\0\0\0\5\6\x81\x81\x81'
} > in_order.nc
converts other.nc 2 in_order.nc

# Files that don't pass, and what a version can't hold.
for file in bad_*.nc; do makes_none "convert $file" "$file" 1 1 "$(cat "$top/examples/${file%.nc}.checked")" ""; done
makes_none "convert an empty file" nothing.nc 2 1 "fault EndsEarly at 0" ""
for to in 1 2; do makes_none "convert counts.nc to CDF-$to" counts.nc "$to" 1 "refused TypeForVersion" ""; done
for to in 1 2 5; do
  makes_none "convert noted.nc to CDF-$to" noted.nc "$to" 1 "refused DuplicateName" ""
  for name in 'a\/b' '.ab' 'ab '; do
    sed "s/dim/$name/" tiny.nc > named.nc
    makes_none "convert a dimension '$name' to CDF-$to" named.nc "$to" 1 "refused BadName" ""
  done
done
sed 's/vx/v\//' tiny.nc > named.nc
makes_none "convert a variable v/" named.nc 2 1 "refused BadName" ""
# A ubyte of CDF-5.
{
  printf 'CDF\5\0\0\0\0\0\0\0\0\0\0\0\0\0\0\0\0\0\0\0\0\0\0\0\0\0\0\0\0\0\0\0\0\0\0\0\x0b\0\0\0\0\0\0\0\1'
  printf '\0\0\0\0\0\0\0\1u\0\0\0\0\0\0\0\0\0\0\0\0\0\0\0\0\0\0\0\0\0\0\0\0\0\0\7\0\0\0\0\0\0\0\4\0\0\0\0\0\0\0\x64'
  printf '\7\xff\xff\xff'
} > ubyte.nc
for to in 1 2; do makes_none "convert a ubyte to CDF-$to" ubyte.nc "$to" 1 "refused TypeForVersion" ""; done
converts ubyte.nc 5 ubyte.nc
# A dimension of length 2^31, which a header of CDF-1 can tell too, though none is written so.
{
  printf 'CDF\5\0\0\0\0\0\0\0\0\0\0\0\x0a\0\0\0\0\0\0\0\1\0\0\0\0\0\0\0\1x\0\0\0'
  printf '\0\0\0\0\x80\0\0\0\0\0\0\0\0\0\0\0\0\0\0\0\0\0\0\0\0\0\0\0\0\0\0\0'
} > long_5.nc
{
  printf 'CDF\1\0\0\0\0\0\0\0\x0a\0\0\0\1\0\0\0\1x\0\0\0\x80\0\0\0'
  printf '\0\0\0\0\0\0\0\0\0\0\0\0\0\0\0\0'
} > long_1.nc
for to in 1 2; do
  for from in 1 5; do
    makes_none "convert a length of 2^31 from CDF-$from to CDF-$to" "long_$from.nc" "$to" 1 "refused CountForVersion" ""
  done
done
for from in 1 5; do converts "long_$from.nc" 5 long_5.nc; done
# 2^31 records of nothing.
changed empty.nc 4 '\x80\0\0\0' records_of_nothing.nc
makes_none "convert 2^31 records to CDF-2" records_of_nothing.nc 2 1 "refused CountForVersion" ""
# The bytes a(x), with x of length 2^31 - 4, and b behind them, in CDF-2.
{
  printf 'CDF\2\0\0\0\0\0\0\0\x0a\0\0\0\1\0\0\0\1x\0\0\0\x7f\xff\xff\xfc\0\0\0\0\0\0\0\0\0\0\0\x0b\0\0\0\2'
  printf '\0\0\0\1a\0\0\0\0\0\0\1\0\0\0\0\0\0\0\0\0\0\0\0\0\0\0\1\x7f\xff\xff\xfc\0\0\0\0\0\0\0\x78'
  printf '\0\0\0\1b\0\0\0\0\0\0\0\0\0\0\0\0\0\0\0\0\0\0\1\0\0\0\4\0\0\0\0\x80\0\0\x74'
} > far.nc
truncate -s 2147483768 far.nc
count "check of a begin past 2^31" "ok CDF-2 records 0 variables 2" "$("$ncc" check --strict far.nc)"
makes_none "convert a begin past 2^31 to CDF-1" far.nc 1 1 "refused OffsetForVersion" ""
# The doubles a(y, x) of 2^32 bytes and b behind them, in CDF-5.
{
  printf 'CDF\5\0\0\0\0\0\0\0\0\0\0\0\x0a\0\0\0\0\0\0\0\2'
  printf '\0\0\0\0\0\0\0\1y\0\0\0\0\0\0\0\0\1\0\0\0\0\0\0\0\0\0\1x\0\0\0\0\0\0\0\0\0\x20\0'
  printf '\0\0\0\0\0\0\0\0\0\0\0\0\0\0\0\x0b\0\0\0\0\0\0\0\2'
  printf '\0\0\0\0\0\0\0\1a\0\0\0\0\0\0\0\0\0\0\2\0\0\0\0\0\0\0\0\0\0\0\0\0\0\0\1'
  printf '\0\0\0\0\0\0\0\0\0\0\0\0\0\0\0\6\0\0\0\1\0\0\0\0\0\0\0\0\0\0\0\xf8'
  printf '\0\0\0\0\0\0\0\1b\0\0\0\0\0\0\0\0\0\0\0\0\0\0\0\0\0\0\0\0\0\0\0\0\0\0\6'
  printf '\0\0\0\0\0\0\0\x08\0\0\0\1\0\0\0\xf8'
} > wide.nc
truncate -s 4294967552 wide.nc
count "check of 2^32 bytes" "ok CDF-5 records 0 variables 2" "$("$ncc" check --strict wide.nc)"
for to in 1 2; do makes_none "convert 2^32 bytes to CDF-$to" wide.nc "$to" 1 "refused SizeForVersion" ""; done
rm -f far.nc wide.nc

# A file that is there stays as it is, whatever the answer.
cp lone_5.nc there.nc
expect "convert to a file that is there" 3 "" "error device" convert --to 2 tiny.nc there.nc
expect "convert a file to itself" 3 "" "error device" convert --to 5 there.nc there.nc
expect "convert what is refused to a file that is there" 1 "refused TypeForVersion" "" convert --to 1 counts.nc there.nc
expect "convert a fault to a file that is there" 1 "fault Truncated at 60" "" convert --to 1 bad_truncated_1.nc there.nc
count "the file that is there" "" "$(cmp there.nc lone_5.nc 2>&1)"
count "the file that is there: no part is made" absent "$([ -e there.nc.part ] || echo absent)"
ln -s nowhere.nc link.nc
expect "convert to a link to no file" 3 "" "error device
ncc: link.nc: exists already" convert --verbose --to 2 tiny.nc link.nc
neither "convert to a link to no file" nowhere.nc
count "convert to a link to no file: no part is made" absent "$([ -e link.nc.part ] || echo absent)"
expect "convert to a folder" 3 "" "error device" convert --to 2 tiny.nc .
expect "convert into no folder" 3 "" "error device
ncc: not_there: no such file or folder" convert --verbose --to 2 tiny.nc not_there/new.nc
expect "convert to an empty name" 3 "" "error device" convert --to 2 tiny.nc ""
neither "convert to an empty name" ""

# A part that is there stays as it is, and is what the reason names.
rm -f new.nc
cp tiny.nc new.nc.part
expect "convert beside a part that is there" 3 "" "error device
ncc: new.nc.part: exists already" convert --verbose --to 2 tiny.nc new.nc
expect "convert a fault beside a part that is there" 1 "fault Truncated at 60" "" convert --to 1 bad_truncated_1.nc new.nc
expect "convert a part to its file" 3 "" "error device" convert --to 2 new.nc.part new.nc
count "the part that is there" "absent" "$([ -e new.nc ] || echo absent)$(cmp new.nc.part tiny.nc 2>&1)"
rm -f new.nc.part

# OUT in another folder, in this one by its path, and in one that can't be written.
mkdir inside
for name in inside/new.nc ./new.nc "$folder/inside/other.nc" inside/../second.nc; do
  expect "convert to $name" 0 "ok CDF-5" "" convert --to 5 kinds_1.nc "$name"
  count "convert to $name: the bytes" "absent" "$(cmp "$name" kinds_5.nc 2>&1)$([ -e "$name.part" ] || echo absent)"
done
count "names in the folder" "new.nc other.nc" "$(ls -A inside | paste -sd ' ')"
rm -f new.nc second.nc
chmod 555 inside
if [ -w inside ]; then
  echo "skipped a folder that can't be written: this user may write any"
else
  expect "convert into a folder that can't be written" 3 "" "error device
ncc: inside/more.nc: permission denied" convert --verbose --to 5 kinds_1.nc inside/more.nc
  neither "convert into a folder that can't be written" inside/more.nc
fi
chmod 755 inside
expect "convert into a folder of the system" 3 "" "error device" convert --to 5 kinds_1.nc /proc/new.nc
makes_none "convert no such file" not_there.nc 1 3 "" "error device"
makes_none "convert a folder" . 1 3 "" "error device"

# The new file is whole where only its line can't be written.
rm -f new.nc
"$ncc" convert --to 5 kinds_1.nc new.nc > /dev/full 2> err
count "convert, full output" "3 error device" "$? $(cat err)"
count "convert, full output: the file" "" "$(cmp new.nc kinds_5.nc 2>&1)"
rm -f new.nc
"$ncc" convert --to 5 kinds_1.nc new.nc <&- >&- 2> err
count "convert, closed input and output" "3 error device" "$? $(cat err)"
count "convert, closed input and output: the file" "" "$(cmp new.nc kinds_5.nc 2>&1)"

# Where OUT can't be written whole nothing is left.
converts long.nc 1 long.nc
rm -f new.nc
(trap '' XFSZ; ulimit -f 100; "$ncc" convert --to 1 long.nc new.nc > out 2> err)
count "convert past the limit of files" "3  error device" "$? $(cat out) $(cat err)"
neither "convert past the limit of files" new.nc
mkdir full
if mount -t tmpfs -o size=64k tmpfs full 2> /dev/null; then
  expect "convert to a full disk" 3 "" "error device
ncc: full/new.nc: no space left" convert --verbose --to 1 long.nc full/new.nc
  neither "convert to a full disk" full/new.nc
  # Records of 3 bytes, of which the last one that is begun has room for some.
  cp "$top/examples/lone_1.nc" full/lone.nc
  expect "extend on a full disk" 3 "" "error device
ncc: full/lone.nc: written only in part: no space left, or a limit was reached" extend --verbose full/lone.nc 100000
  count "extend on a full disk: it passes" "ok CDF-1 records 21813 variables 1" "$("$ncc" check full/lone.nc)"
  umount full
else
  echo "skipped a full disk: none can be mounted"
fi

# IN is only read.
expect "convert a file that may not be written" 1 "fault EndsEarly at 0" "" convert --to 2 /proc/sys/kernel/osrelease new_release.nc

# A number may have a plus.
cp two.nc plus.nc
expect "extend by +2" 0 "records 5" "" extend plus.nc +2
expect "check, a limit of +116" 0 "$("$ncc" check --max-header 116 two.nc)" "" check --max-header +116 two.nc
expect "check, a limit of +115" 1 "fault HeaderTooLong at 112" "" check --max-header +115 two.nc

# Where nothing can be synced, neither `ok` nor how many records there are is printed.
if cc -O1 -shared -fPIC -o refuse.so "$top/scripts/refuse_calls.c" -ldl 2> /dev/null; then
  cp two.nc unsynced.nc
  UNSYNCED=1 LD_PRELOAD=$folder/refuse.so "$ncc" extend unsynced.nc 1 > out 2> err
  count "extend, no sync" "3  error device" "$? $(cat out) $(cat err)"
  count "extend, no sync: the count" "$(bytes_from two.nc 4 4)" "$(bytes_from unsynced.nc 4 4)"
  # A call that fails once isn't made again: so many writes and syncs go before it, and none after.
  for row in "fsync 1|0 1" "fsync 2|1 2" "fsync 3|2 3" "pwrite 1|1 1" "pwrite 2|2 2"; do
    cp two.nc unsynced.nc
    FAILED=${row%|*} CALLS=calls LD_PRELOAD=$folder/refuse.so "$ncc" extend unsynced.nc 1 > out 2> err
    count "extend, ${row%|*} fails once" "3  error device ${row#*|}" \
      "$? $(cat out) $(cat err) $(sed -n 's/^pwrite //p' calls) $(sed -n 's/^fsync //p' calls)"
  done
  # A write that the system cuts short goes on where it ended, but that of the count, which is one call.
  {
    printf 'CDF\1\0\0\0\1\0\0\0\x0a\0\0\0\2\0\0\0\1t\0\0\0\0\0\0\0\0\0\0\1x\0\0\0\0\0\0\x08\0\0\0\0\0\0\0\0'
    printf '\0\0\0\x0b\0\0\0\1\0\0\0\1v\0\0\0\0\0\0\2\0\0\0\0\0\0\0\1\0\0\0\0\0\0\0\0\0\0\0\3\0\0\0\x10\0\0\0\x60'
    printf '\0\1\0\2\0\3\0\4\0\5\0\6\0\7\0\x08'
  } > eight.nc
  cp eight.nc extended.nc
  expect "extend of eight shorts" 0 "records 2" "" extend extended.nc 1
  count "its record" "8001800180018001800180018001 128" "$(bytes_from extended.nc 114 14) $(wc -c < extended.nc | tr -d ' ')"
  for row in "pwrite 1 5|3 3" "pwrite 1 15|3 3"; do
    cp eight.nc cut.nc
    CUT=${row%|*} CALLS=calls LD_PRELOAD=$folder/refuse.so "$ncc" extend cut.nc 1 > out 2> err
    count "extend, ${row%|*}" "0 records 2  ${row#*|}" \
      "$? $(cat out) $(cat err) $(sed -n 's/^pwrite //p' calls) $(sed -n 's/^fsync //p' calls)"
    count "extend, ${row%|*}: the file" "" "$(cmp extended.nc cut.nc 2>&1)"
  done
  for row in "pwrite 1 0|1 1" "pwrite 2 3|2 2"; do
    cp eight.nc cut.nc
    CUT=${row%|*} CALLS=calls LD_PRELOAD=$folder/refuse.so "$ncc" extend --verbose cut.nc 1 > out 2> err
    count "extend, ${row%|*}" "3  error device ncc: cut.nc: written only in part: no space left, or a limit was reached ${row#*|}" \
      "$? $(cat out) $(echo $(cat err)) $(sed -n 's/^pwrite //p' calls) $(sed -n 's/^fsync //p' calls)"
    count "extend, ${row%|*}: the file" "ok CDF-1 records 1 variables 1" "$("$ncc" check cut.nc)"
  done
  for row in "write 1 5" "pread 1 5" "pread 2 1"; do
    CUT=$row LD_PRELOAD=$folder/refuse.so "$ncc" convert --to 1 eight.nc cut_1.nc > out 2> err
    count "convert, $row" "0 ok CDF-1 " "$? $(cat out) $(cat err)$(cmp eight.nc cut_1.nc 2>&1)"
    rm -f cut_1.nc
  done
  # Where the system has no lock to give (37, ENOLCK) nothing is written. A reader asks for none.
  cp two.nc unlocked.nc
  FAILED="flock 1 37" CALLS=calls LD_PRELOAD=$folder/refuse.so "$ncc" extend --verbose unlocked.nc 1 > out 2> err
  count "extend, no lock" "3  error device ncc: unlocked.nc: can't be read or written 0 0" \
    "$? $(cat out) $(echo $(cat err)) $(sed -n 's/^pwrite //p' calls) $(sed -n 's/^fsync //p' calls)"
  count "extend, no lock: the file" "" "$(cmp two.nc unlocked.nc 2>&1)"
  CALLS=calls LD_PRELOAD=$folder/refuse.so "$ncc" check two.nc > out 2> err
  count "check asks for no lock" "flock 0" "$(grep '^flock' calls)"
  # Each call that fails has its own file and reason: 13 is EACCES, 28 ENOSPC, 122 EDQUOT, 30 EROFS, 4 EINTR.
  for row in "pread 1 13|two.nc: permission denied" "pread 2 13|two.nc: permission denied" \
      "link 1|made.nc: can't be read or written" "link 1 4|made.nc: can't be read or written" \
      "link 1 13|made.nc: permission denied" "link 1 28|made.nc: no space left" "fsync 1 28|made.nc: no space left" \
      "write 1 122|made.nc: no space left" "fsync 2 30|.: read-only file system" "unlink 1 13|made.nc.part: can't be removed"; do
    FAILED=${row%|*} LD_PRELOAD=$folder/refuse.so "$ncc" convert --verbose --to 5 two.nc made.nc > out 2> err
    count "convert, ${row%|*} fails" "3  error device ncc: ${row#*|}" "$? $(cat out) $(echo $(cat err))"
    rm -f made.nc.part
    neither "convert, ${row%|*} fails" made.nc
  done
  for words in "check --verbose two.nc" "csv --verbose two.nc a"; do
    FAILED="pread 1 13" LD_PRELOAD=$folder/refuse.so "$ncc" $words > out 2> err
    count "$words, a read fails" "3  error device ncc: two.nc: permission denied" "$? $(cat out) $(echo $(cat err))"
  done
  # A header that has a fault is read once more up to the fault, and then the field there.
  for fault in "2 bad_magic_1" "2 bad_type_1" "3 bad_type_1"; do
    FAILED="pread ${fault% *} 13" LD_PRELOAD=$folder/refuse.so "$ncc" check --explain --verbose "${fault#* }.nc" > out 2> err
    count "check in words, read $fault fails" "3  error device ncc: ${fault#* }.nc: permission denied" \
      "$? $(cat out) $(echo $(cat err))"
  done
  FAILED="pread 1 13" LD_PRELOAD=$folder/refuse.so "$ncc" check --verbose not_there.nc two.nc tiny.nc > out 2> err
  count "check of several files, a read fails" "3 tiny.nc: ok CDF-1 records 0 variables 1 not_there.nc: error device \
ncc: not_there.nc: no such file or folder two.nc: error device ncc: two.nc: permission denied" "$? $(cat out) $(echo $(cat err))"
  # The errors by which a file system says that it has no second names: EPERM, EMLINK, ENOSYS, EOPNOTSUPP, and that of NFS.
  for error in 1 31 38 95 524; do
    FAILED="link 1 $error" LD_PRELOAD=$folder/refuse.so "$ncc" convert --to 5 kinds_1.nc linkless_5.nc > out 2> err
    count "convert, link fails by $error" "0 ok CDF-5 " "$? $(cat out) $(cat err)"
    count "convert, link fails by $error: the bytes" "absent" \
      "$(cmp linkless_5.nc kinds_5.nc 2>&1)$([ -e linkless_5.nc.part ] || echo absent)"
    rm -f linkless_5.nc
  done
  UNSYNCED=1 LD_PRELOAD=$folder/refuse.so "$ncc" convert --to 5 kinds_1.nc unsynced_5.nc > out 2> err
  count "convert, no sync" "3  error device" "$? $(cat out) $(cat err)"
  neither "convert, no sync" unsynced_5.nc
  # The second sync is that of the folder.
  UNSYNCED=2 LD_PRELOAD=$folder/refuse.so "$ncc" convert --to 5 kinds_1.nc unsynced_5.nc > out 2> err
  count "convert, no sync of the folder" "3  error device" "$? $(cat out) $(cat err)"
  neither "convert, no sync of the folder" unsynced_5.nc
  # A file system on which a file has one name.
  UNLINKED=1 LD_PRELOAD=$folder/refuse.so "$ncc" convert --to 5 kinds_1.nc unlinked_5.nc > out 2> err
  count "convert, no link" "0 ok CDF-5 " "$? $(cat out) $(cat err)"
  count "convert, no link: the bytes" "absent" "$(cmp unlinked_5.nc kinds_5.nc 2>&1)$([ -e unlinked_5.nc.part ] || echo absent)"
  UNLINKED=1 UNSYNCED=2 LD_PRELOAD=$folder/refuse.so "$ncc" convert --to 5 kinds_1.nc unsynced_5.nc > out 2> err
  count "convert, no link and no sync of the folder" "3  error device" "$? $(cat out) $(cat err)"
  neither "convert, no link and no sync of the folder" unsynced_5.nc
  # Another run makes a file of the name meanwhile: it stays as it is, and the part goes.
  OVERTAKEN=1 LD_PRELOAD=$folder/refuse.so "$ncc" convert --to 5 kinds_1.nc theirs_1.nc > out 2> err
  count "convert, overtaken" "3  error device theirs absent" "$? $(cat out) $(cat err) $(cat theirs_1.nc) $([ -e theirs_1.nc.part ] || echo absent)"
  OVERTAKEN=1 UNLINKED=1 LD_PRELOAD=$folder/refuse.so "$ncc" convert --to 5 kinds_1.nc theirs_2.nc > out 2> err
  count "convert, overtaken without links" "3  error device theirs absent" "$? $(cat out) $(cat err) $(cat theirs_2.nc) $([ -e theirs_2.nc.part ] || echo absent)"
else
  echo "skipped syncs and links that fail: there is no C compiler"
fi

# Ten million records of two variables, of which a run is stopped for a while: only a terminal is told how far it is.
{
  head -c 4 two.nc
  printf '\0\x98\x96\x80'
  head -c 120 two.nc | tail -c 112
  head -c 80000000 /dev/zero
} > many.nc
count "check of ten million records" "ok CDF-1 records 10000000 variables 2" "$("$ncc" check many.nc | head -n 1)"
cat > stopped.py <<'END'
import os, pty, re, select, signal, subprocess, sys, time

terminal, told = pty.openpty()
errors = subprocess.PIPE if sys.argv[1] == "pipe" else told
run = subprocess.Popen(sys.argv[2:], stdin=subprocess.DEVNULL, stdout=subprocess.PIPE, stderr=errors)
time.sleep(0.1)
run.send_signal(signal.SIGSTOP)
time.sleep(1.5)
run.send_signal(signal.SIGCONT)
line = run.stdout.read().decode().strip()
status = run.wait()
shown = run.stderr.read() if sys.argv[1] == "pipe" else b""
while sys.argv[1] == "terminal" and select.select([terminal], [], [], 0.5)[0]:
    shown += os.read(terminal, 65536)
print(status, line, "bytes" if re.fullmatch(rb"(\r\d+ of 80000120 bytes)+\r\x1b\[K", shown) else shown or "nothing")
END
count "a terminal is told how far convert is" "0 ok CDF-2 bytes" \
  "$(python3 stopped.py terminal "$ncc" convert --to 2 many.nc shown.nc)"
count "a pipe isn't told of convert" "0 ok CDF-2 nothing" \
  "$(python3 stopped.py pipe "$ncc" convert --to 2 many.nc unshown.nc)"
rm -f many.nc shown.nc unshown.nc

expect_first "convert to no version" 2 "" "error: the following required arguments were not provided:" convert tiny.nc new.nc
expect_first "convert to CDF-3" 2 "" "error: invalid value '3' for '--to <VERSION>'" convert --to 3 tiny.nc new.nc
expect_first "convert to what" 2 "" "error: the following required arguments were not provided:" convert --to 1 tiny.nc
expect_first "convert of three files" 2 "" "error: unexpected argument 'new.nc' found" convert --to 1 tiny.nc there.nc new.nc
expect_first "help of convert" 0 "Writes what a file holds into a new file, in another version" "" convert --help
"$ncc" --help > out
count "help names convert" 1 "$(grep -c '^  convert  ' out)"

# ---- floats in decimal: an attribute and a variable of 0.1, -0, the fill value, NaN, infinity, the least float

{
  printf 'CDF\1\0\0\0\0\0\0\0\x0a\0\0\0\1\0\0\0\1x\0\0\0\0\0\0\6\0\0\0\x0c\0\0\0\1\0\0\0\1a\0\0\0\0\0\0\6\0\0\0\2'
  printf '\x3f\xb9\x99\x99\x99\x99\x99\x9a\x47\x9e\0\0\0\0\0\0'
  printf '\0\0\0\x0b\0\0\0\1\0\0\0\1v\0\0\0\0\0\0\1\0\0\0\0\0\0\0\0\0\0\0\0\0\0\0\5\0\0\0\x18\0\0\0\x70'
  printf '\x3d\xcc\xcc\xcd\x80\0\0\0\x7c\xf0\0\0\x7f\xc0\0\1\xff\x80\0\0\0\0\0\1'
} > floats.nc
expect "floats by their bits" 0 "x,v
0,0x3dcccccd
1,0x80000000
2,0x7cf00000
3,0x7fc00001
4,0xff800000
5,0x00000001" "" csv floats.nc v
expect "floats in decimal" 0 "x,v
0,0.1
1,-0
2,9.96921e36
3,NaN
4,-Infinity
5,1e-45" "" csv --decimal floats.nc v
expect "list by bits" 0 "format CDF-1
records 0
dimension 0 x 6
attribute global a double 2 0x3fb999999999999a 0x479e000000000000
variable 0 v float fixed begin 112 dims 1 x" "" list floats.nc
expect "list in decimal" 0 "format CDF-1
records 0
dimension 0 x 6
attribute global a double 2 0.1 9.969209968386869e36
variable 0 v float fixed begin 112 dims 1 x" "" list --decimal floats.nc
# The object of floats.nc, with the values of its attribute.
floats_object() {
  printf '{"file":"floats.nc","status":0,"version":1,"numrecs":0,"header_length":112,"dimensions":[{"name":"x","length":6}],'
  printf '"attributes":[{"name":"a","type":"double","values":%s}],' "$1"
  printf '"variables":[{"name":"v","type":"float","dimensions":[0],"attributes":[],"vsize":24,"begin":112}]}'
}
expect "list by bits, as an object" 0 "$(floats_object '["0x3fb999999999999a","0x479e000000000000"]')" "" list --json floats.nc
expect "list in decimal, as an object" 0 "$(floats_object '[0.1,9.969209968386869e36]')" "" list --json --decimal floats.nc

# ---- texts: c(n, 5) of `ab`, `a,b\\` and no byte but NULs, and the rows of its bytes

{
  printf 'CDF\1\0\0\0\0\0\0\0\x0a\0\0\0\2\0\0\0\1n\0\0\0\0\0\0\3\0\0\0\1m\0\0\0\0\0\0\5\0\0\0\0\0\0\0\0'
  printf '\0\0\0\x0b\0\0\0\1\0\0\0\1c\0\0\0\0\0\0\2\0\0\0\0\0\0\0\1\0\0\0\0\0\0\0\0\0\0\0\2\0\0\0\x10\0\0\0\x60'
  printf 'ab\0\0\0a,\0b\\\0\0\0\0\0\0'
} > texts.nc
expect "texts" 0 'n,c
0,ab
1,"a,\x00b\x5c"
2,' "" csv --text texts.nc c
expect "texts of a selection" 0 'n,c
1,"a,"
2,' "" csv --text texts.nc c --start 1,0 --count 2,2
expect "texts of no characters" 0 "n,c
0,
1,
2," "" csv --text texts.nc c --start 0,5 --count 3,0
expect "texts past the end are refused" 1 "refused Outside 1" "" csv --text texts.nc c --start 0,3 --count 1,3
expect "no texts of shorts" 0 "dim,vx
1,1
3,1" "" csv --text tiny.nc vx --start 1 --stride 2

# ---- several files

tab=$(printf '\t')
expect "check of several files" 3 "tiny.nc: ok CDF-1 records 0 variables 1
bad_truncated_1.nc: fault Truncated at 60
floats.nc: ok CDF-1 records 0 variables 1" "not_there.nc: error device
.: error device" check tiny.nc not_there.nc bad_truncated_1.nc . floats.nc
expect "check of several files, one of them bad" 1 "tiny.nc: ok CDF-1 records 0 variables 1
bad_truncated_1.nc: fault Truncated at 60" "" check tiny.nc bad_truncated_1.nc
expect "check of several files, in words" 3 "tiny.nc: ok CDF-1 records 0 variables 1
bad_truncated_1.nc: fault Truncated at 60
bad_truncated_1.nc:     in variable a
bad_truncated_1.nc:     it ends at 68, and the file ends at 67
bad_truncated_1.nc:     the file ends before a variable's last element does [Notes on Computing File Offsets]
floats.nc: ok CDF-1 records 0 variables 1" "not_there.nc: error device" \
  check --explain tiny.nc bad_truncated_1.nc not_there.nc floats.nc
expect "check of one file twice" 0 "tiny.nc: ok CDF-1 records 0 variables 1
tiny.nc: ok CDF-1 records 0 variables 1" "" check tiny.nc tiny.nc
expect "check in brief" 3 "0${tab}ok CDF-1 records 0 variables 1${tab}tiny.nc
1${tab}fault Truncated at 60${tab}bad_truncated_1.nc
3${tab}error device${tab}not_there.nc" "" check --brief tiny.nc bad_truncated_1.nc not_there.nc
expect "check of one file in brief" 0 "0${tab}ok CDF-1 records 0 variables 1${tab}tiny.nc" "" check --brief tiny.nc
expect "strict in brief" 1 "1${tab}ok CDF-1 records 2147483648 variables 2${tab}noted.nc" "" check --strict --brief noted.nc
expect "check of several files, as objects" 3 \
  '{"file":"tiny.nc","status":0,"verdict":"ok","version":1,"records":0,"variables":1,"notes":[]}
{"file":"bad_truncated_1.nc","status":1,"verdict":"fault","fault":"Truncated","offset":60,"variable":"a","end":68,"file_length":67,"rule":"the file ends before a variable'"'"'s last element does [Notes on Computing File Offsets]"}
{"file":"not_there.nc","status":3,"verdict":"error","error":"device"}' "" \
  check --json tiny.nc bad_truncated_1.nc not_there.nc
expect "check of one file as an object" 0 \
  '{"file":"tiny.nc","status":0,"verdict":"ok","version":1,"records":0,"variables":1,"notes":[]}' "" check --json tiny.nc
"$ncc" check --json --strict noted.nc > out 2> err
count "strict as an object" '1 {"file":"noted.nc","status":1,"verdict":"ok",' "$? $(head -c 45 out)$(cat err)"
strange=$(printf 'a "b" \\ c\td\001\303\251.nc')
cp tiny.nc "$strange"
expect "an object of a file with a strange name" 0 \
  '{"file":"a \"b\" \\ c\u0009d\u0001é.nc","status":0,"verdict":"ok","version":1,"records":0,"variables":1,"notes":[]}' "" \
  check --json "$strange"
printf 'caf\351.nc\0' > names
expect "an object of a name that isn't UTF-8" 3 \
  '{"file":{"hex":"636166e92e6e63"},"status":3,"verdict":"error","error":"device"}' "" check --json --files-from0 names
head -c 3 tiny.nc > cut
expect "list of several files" 1 "tiny.nc: format CDF-1
tiny.nc: records 0
tiny.nc: dimension 0 dim 5
tiny.nc: variable 0 vx short fixed begin 80 dims 1 dim
cut: fault EndsEarly at 3" "" list tiny.nc cut
expect "layout of several files" 3 "tiny.nc: file 92
tiny.nc: header 0 80
tiny.nc: variable 0 vx fixed begin 80 end 90 gap 0
tiny.nc: after 2
cut: fault EndsEarly at 3" "not_there.nc: error device" layout tiny.nc cut not_there.nc
expect "layout of several files, as objects" 3 \
  '{"file":"tiny.nc","status":0,"file_length":92,"header_length":80,"variables":[{"number":0,"name":"vx","kind":"fixed","begin":80,"end":90,"gap":0}],"after":2}
{"file":"cut","status":1,"verdict":"fault","fault":"EndsEarly","offset":3}
{"file":"not_there.nc","status":3,"verdict":"error","error":"device"}' "" layout --json tiny.nc cut not_there.nc
expect "layout of a file that isn't there" 3 "" "error device
ncc: not_there.nc: no such file or folder" layout --verbose not_there.nc
tiny_members='"version":1,"numrecs":0,"header_length":80,"dimensions":[{"name":"dim","length":5}],"attributes":[],"variables":[{"name":"vx","type":"short","dimensions":[0],"attributes":[],"vsize":12,"begin":80}]'
expect "list of one file as an object" 0 "{\"file\":\"tiny.nc\",\"status\":0,$tiny_members}" "" list --json tiny.nc
expect "list of several files, as objects" 3 "{\"file\":\"tiny.nc\",\"status\":0,$tiny_members}
{\"file\":\"cut\",\"status\":1,\"verdict\":\"fault\",\"fault\":\"EndsEarly\",\"offset\":3}
{\"file\":\"not_there.nc\",\"status\":3,\"verdict\":\"error\",\"error\":\"device\"}" "" list --json tiny.nc cut not_there.nc
expect "a picture of a file that isn't there" 3 "" "error device
ncc: not_there.nc: no such file or folder" layout --verbose --svg not_there.nc
expect_first "a picture" 0 '<svg xmlns="http://www.w3.org/2000/svg" width="1080" height="156" viewBox="0 0 1080 156">' "" layout --svg tiny.nc
expect "a file without a picture" 1 "fault EndsEarly at 3" "" layout --svg cut
printf 'tiny.nc\0bad_truncated_1.nc\0' > names
expect "names from a list" 1 "tiny.nc: ok CDF-1 records 0 variables 1
bad_truncated_1.nc: fault Truncated at 60" "" check --files-from0 names
printf 'tiny.nc\0' > names
expect "one name from a list" 0 "ok CDF-1 records 0 variables 1" "" check --files-from0 names
printf 'tiny.nc' > names
expect "a list that is cut in its only name" 3 "" "error device" check --files-from0 names
printf 'floats.nc\0\0tiny.nc' > names
expect "a list with an empty name that is cut" 3 "floats.nc: ok CDF-1 records 0 variables 1" ": error device
tiny.nc: error device" check --files-from0 names
: > names
expect "an empty list" 0 "" "" check --files-from0 names
expect "a list that isn't there" 3 "" "error device" check --files-from0 not_there
count "names from standard input" "1 tiny.nc: ok CDF-1 records 0 variables 1 bad_truncated_1.nc: fault Truncated at 60" \
  "$(printf 'tiny.nc\0bad_truncated_1.nc\0' | "$ncc" check --files-from0 - > out 2> err; echo "$?" $(cat out) $(cat err))"
count "list of standard input" "0 format CDF-1 records 0 dimension 0 dim 5 variable 0 vx short fixed begin 80 dims 1 dim" \
  "$(cat tiny.nc | "$ncc" list - > out; echo "$?" $(cat out))"
count "list of standard input, as an object" "0 {\"file\":\"-\",\"status\":0,$tiny_members}" \
  "$("$ncc" list --json - < tiny.nc > out 2> err; echo "$?" "$(cat out err)")"
count "list of standard input that is cut, as an object" \
  '1 {"file":"-","status":1,"verdict":"fault","fault":"EndsEarly","offset":3}' \
  "$("$ncc" list --json - < cut > out 2> err; echo "$?" "$(cat out err)")"
# A header with one attribute of the file, the float 1.5.
printf 'CDF\001\0\0\0\0\0\0\0\0\0\0\0\0\0\0\0\014\0\0\0\001\0\0\0\001f\0\0\0\0\0\0\005\0\0\0\001\077\300\0\0\0\0\0\0\0\0\0\0' > float.nc
with_float() {
  printf '0 {"file":"-","status":0,"version":1,"numrecs":0,"header_length":52,"dimensions":[],'
  printf '"attributes":[{"name":"f","type":"float","values":[%s]}],"variables":[]}' "$1"
}
count "list of floats of standard input, as an object" "$(with_float '"0x3fc00000"')" \
  "$("$ncc" list --json - < float.nc > out 2> err; echo "$?" "$(cat out err)")"
count "list of floats of standard input, as an object in decimal" "$(with_float 1.5)" \
  "$("$ncc" list --json --decimal - < float.nc > out 2> err; echo "$?" "$(cat out err)")"
failed_input='{"file":"-","status":3,"verdict":"error","error":"device"}'
count "list of a folder as standard input, as an object" "3 $failed_input" \
  "$("$ncc" list --json - > out 2> err < .; echo "$?" "$(cat out err)")"
count "list of a folder as standard input, as an object, told" "3 $failed_input ncc: -: is a folder" \
  "$("$ncc" list --json --verbose - > out 2> err < .; echo "$?" $(cat out err))"
"$ncc" list --json - > /dev/full 2> err < tiny.nc
count "list of standard input as an object, full output" "3 error device" "$? $(cat err)"
# Only a FILE - that is given alone is standard input.
expect "list of standard input and of another, as objects" 3 "$failed_input
{\"file\":\"tiny.nc\",\"status\":0,$tiny_members}" "" list --json - tiny.nc
expect "list of standard input and of another" 3 "tiny.nc: format CDF-1
tiny.nc: records 0
tiny.nc: dimension 0 dim 5
tiny.nc: variable 0 vx short fixed begin 80 dims 1 dim" "-: error device" list - tiny.nc
printf -- '-\0' > names
count "a list that names -" "3 error device" "$("$ncc" list --files-from0 names < tiny.nc > out 2> err; echo $? $(cat out err))"
count "a list that names -, as an object" "3 $failed_input" \
  "$("$ncc" list --json --files-from0 names < tiny.nc > out 2> err; echo "$?" "$(cat out err)")"
count "check of standard input" "3 error device" "$("$ncc" check - < tiny.nc > out 2> err; echo $? $(cat out err))"
for n in $(seq 300); do printf 'tiny.nc\0'; done > names
count "300 files, and a reader that goes" "tiny.nc: ok CDF-1 records 0 variables 1 0" \
  "$("$ncc" check --files-from0 names 2> err | head -n 1) $(wc -c < err | tr -d ' ')"
"$ncc" check --files-from0 names > /dev/full 2> err
count "300 files, full output" "3 error device" "$? $(cat err)"
"$ncc" check tiny.nc tiny.nc > /dev/full 2> err
count "two files that pass, full output" "3 error device" "$? $(cat err)"
"$ncc" check tiny.nc not_there.nc > /dev/full 2> err
count "several files, one of them not there, full output" "3 not_there.nc: error device error device" "$? $(echo $(cat err))"
mkdir "$(printf '%0200d' 0)"
long=$(printf '%0200d' 0)/$(printf '%0100d' 0)
cp tiny.nc "$long"
expect "a name of 301 bytes" 0 "ok CDF-1 records 0 variables 1" "" check "$long"
expect "a word of 108893 bytes" 1 "refused RankMismatch" "" csv tiny.nc vx --start "$(seq -s , 20000)"
count "300 files in words" "0 300" \
  "$("$ncc" check $(for n in $(seq 300); do echo tiny.nc; done) > out 2> err; echo "$? $(grep -c '^tiny.nc: ok CDF-1 ' out)$(cat err)")"
latin=$(printf 'caf\351.nc')
cp tiny.nc "$latin"
count "a name that isn't UTF-8" "3 tiny.nc: ok CDF-1 records 0 variables 1 error device ncc: the name isn't UTF-8" \
  "$("$ncc" check --verbose "$latin" tiny.nc > out 2> err; echo "$?" $(cat out) $(LC_ALL=C sed "s/caf.*nc: //" err))"
# That name as it is printed, which is UTF-8, is another file.
cp tiny.nc 'caf\xe9.nc'
count "a name that isn't UTF-8, and one as it is printed" "3 caf\xe9.nc: ok CDF-1 records 0 variables 1" \
  "$("$ncc" check "$latin" 'caf\xe9.nc' > out 2> err; echo "$?" "$(cat out)")"

# ---- why something failed

expect "no such file" 3 "" "error device
ncc: not_there.nc: no such file or folder" check --verbose not_there.nc
expect "a folder, told" 3 "" "error device
ncc: .: is a folder" list --verbose .
expect "a file in place of a folder, told" 3 "" "error device
ncc: tiny.nc/x: a file stands in the path where a folder should" csv --verbose tiny.nc/x v
ln -s circle_2.nc circle_1.nc
ln -s circle_1.nc circle_2.nc
expect "links in a circle, told" 3 "" "error device
ncc: circle_1.nc: too many symbolic links" check --verbose circle_1.nc
rm circle_1.nc circle_2.nc
long=$(printf '%300s' '' | tr ' ' a)
expect "too long a name, told" 3 "" "error device
ncc: ${long:0:200}...: the name is too long" extend --verbose "$long" 1
"$ncc" list --verbose - > out 2> err < .
count "a folder as standard input, told" "3 error device ncc: -: is a folder" "$? $(echo $(cat out err))"
expect "several files, told" 3 "tiny.nc: ok CDF-1 records 0 variables 1" "not_there.nc: error device
ncc: not_there.nc: no such file or folder" check --verbose not_there.nc tiny.nc
expect "in brief, told" 3 "3${tab}error device${tab}not_there.nc" "ncc: not_there.nc: no such file or folder" \
  check --brief --verbose not_there.nc
expect "an OUT that is there, told" 3 "" "error device
ncc: floats.nc: exists already" convert --verbose --to 2 tiny.nc floats.nc
expect "a list of numbers, told" 2 "" "error usage
ncc: --start: '1,,2' is no list of numbers, each at most 18446744073709551615" csv --verbose tiny.nc vx --start 1,,2
expect "too large a number in a list, told" 2 "" "error usage
ncc: --count: '18446744073709551616' is no list of numbers, each at most 18446744073709551615" \
  csv --verbose tiny.nc vx --count 18446744073709551616
expect "a number below 0 in a list, told" 2 "" "error usage
ncc: --stride: '-1' is no list of numbers, each at most 18446744073709551615" csv --verbose tiny.nc vx --stride -1
expect "a list of names, told" 3 "" "error device
ncc: not_there: no such file or folder" list --verbose --files-from0 not_there
expect "a file that passes, told" 0 "ok CDF-1 records 0 variables 1" "" check --verbose tiny.nc
expect "a file with a fault, told" 1 "fault Truncated at 60" "" check --verbose bad_truncated_1.nc
expect "a selection that is refused, told" 1 "refused RankMismatch" "" csv --verbose tiny.nc vx --start 1,1
# A file that can be opened and not read, after one that can't be opened.
unread=/sys/kernel/mm/transparent_hugepage/enabled
if [ "$(stat -c %s "$unread" 2> /dev/null)" = 4096 ]; then
  expect "a file that isn't read, told" 3 "" "not_there.nc: error device
ncc: not_there.nc: no such file or folder
$unread: error device
ncc: $unread: ends before its length" check --verbose not_there.nc "$unread"
else
  echo "skipped a file that can be opened and not read: $unread isn't there"
fi
cat > errors.py <<'END'
import os, pty, select, subprocess, sys

terminal, told = pty.openpty()
run = subprocess.run(sys.argv[1:], stdin=subprocess.DEVNULL, stdout=subprocess.PIPE, stderr=told)
shown = b""
while select.select([terminal], [], [], 0.5)[0]:
    shown += os.read(terminal, 65536)
print(run.returncode, shown.decode().split("\r\n"))
END
count "a terminal is told why" "3 ['error device', 'ncc: not_there.nc: no such file or folder', '']" \
  "$(python3 errors.py "$ncc" check not_there.nc)"
# A run over 100,000 files that is stopped for a while: a terminal is told how many are done, and where it is the output
# too each line stands on its own, with nothing of that after it. (The line is shorter than what is told.)
cat > files.py <<'END'
import os, pty, re, signal, subprocess, sys, time

terminal, told = pty.openpty()
output = told if sys.argv[1] == "both" else subprocess.DEVNULL
run = subprocess.Popen(sys.argv[2:], stdin=subprocess.DEVNULL, stdout=output, stderr=told)
os.close(told)
time.sleep(0.1)
run.send_signal(signal.SIGSTOP)
time.sleep(1.5)
run.send_signal(signal.SIGCONT)
shown = b""
while True:
    try:
        shown += os.read(terminal, 65536)
    except OSError:  # (nobody has the other end any more)
        break
lines, line, column = [], "", 0
for part in re.findall(r"\r|\n|\x1b\[K|[^\r\n\x1b]+|\x1b", shown.decode()):
    if part == "\r":
        column = 0
    elif part == "\n":
        lines.append(line)
        line = ""
    elif part == "\x1b[K":
        line = line[:column]
    else:
        line = line[:column] + part + line[column + len(part):]
        column += len(part)
told = "files" if re.search(rb"\r\d+ of 100000 files\r", shown) else "nothing"
print(run.wait(), len(lines), *sorted(set(lines)), told, repr(line))
END
printf XXXX > f
python3 -c 'print(end="f\0" * 100000)' > names
count "a terminal is told how many files are done" "1 0 files ''" "$(python3 files.py err "$ncc" check --files-from0 names)"
count "lines in brief and how many files are done, on one terminal" "1 100000 1${tab}fault BadMagic at 0${tab}f files ''" \
  "$(python3 files.py both "$ncc" check --brief --files-from0 names)"
count "lines and how many files are done, on one terminal" \
  "1 100000 f: fault BadMagic at 0 files ''" "$(python3 files.py both "$ncc" check --files-from0 names)"
printf 'tiny.nc' > cut_list
expect "a list without its last NUL byte, told" 3 "" "error device
ncc: tiny.nc: no NUL byte stands after this name in the list" check --verbose --files-from0 cut_list
expect "a list without its last NUL byte, in brief" 3 "3${tab}error device${tab}tiny.nc" "" \
  check --brief --files-from0 cut_list
# A list with line feeds between its names: it is one name, which is shown on one line, and cut after 200 bytes.
printf 'tiny.nc\nfloats.nc\n' > lines_list
expect "a list with line feeds, told" 3 "" "error device
ncc: tiny.nc\x0afloats.nc\x0a: no NUL byte stands after this name in the list" check --verbose --files-from0 lines_list
long=$(printf '%199s' '' | tr ' ' a)
expect "a long name, told" 3 "" "error device
ncc: $long...: no such file or folder" check --verbose "${long}é/b"
expect "a long name that is cut in a sign of four bytes, told" 3 "" "error device
ncc: ${long:2}...: no such file or folder" check --verbose "${long:2}😀/b"
expect "a long name that is cut in a sign of three bytes, told" 3 "" "error device
ncc: ${long:1}...: no such file or folder" check --verbose "${long:1}€/b"
expect "a name with a backslash, told" 3 "" "error device
ncc: a\x5cb: no such file or folder" check --verbose 'a\b'
expect "a name of 200 bytes, told" 3 "" "error device
ncc: ${long}a: no such file or folder" check --verbose "${long}a"
expect "a name with a tab and a byte 127, in brief" 3 "3${tab}error device${tab}a${tab}b$(printf '\177')" \
  "ncc: a\x09b\x7f: no such file or folder" check --brief --verbose "a${tab}b$(printf '\177')"
mkfifo pipe
expect "a pipe" 3 "" "error device
ncc: pipe: is a pipe or device, not a file" check --verbose pipe
expect "a pipe to list" 3 "" "error device" list pipe
expect "a device" 3 "" "error device
ncc: /dev/zero: is a pipe or device, not a file" extend --verbose /dev/zero 1
"$ncc" list --verbose tiny.nc > /dev/full 2> err
count "a full output, told" "3 error device ncc: standard output: no space left" "$? $(echo $(cat err))"
count "a reader that goes" "x,v 0" "$("$ncc" csv long.nc v 2> err | head -n 1) $(wc -c < err | tr -d ' ')"
"$ncc" help faults > out
count "help of faults" "39 0" "$(grep -c '^  [A-Z]' out) $?"
for word in $(grep -oh '^  [A-Z][A-Za-z]*' out); do count "a fault of the program: $word" yes \
  "$(grep -qrE "\"(refused )?$word( |\\\\n)?\"" "$top"/crates/ncc_lines/src "$top"/crates/ncc_csv/src "$top"/crates/ncc_convert/src && echo yes)"; done

# ---- headers at the limit, and 4 bytes past it, where the last field is: its 48 bytes besides the values are
# the fields, and the lines are 57 bytes besides them

head_of() {
  printf 'CDF\1\0\0\0\0\0\0\0\0\0\0\0\0\0\0\0\x0c\0\0\0\1\0\0\0\1n\0\0\0\0\0\0\2'
  printf "\\x$(printf '%02x' $(($1 >> 24)))\\x$(printf '%02x' $(($1 >> 16 & 255)))"
  printf "\\x$(printf '%02x' $(($1 >> 8 & 255)))\\x$(printf '%02x' $(($1 & 255)))"
  head -c "$1" /dev/zero | tr '\0' a
  printf '\0\0\0\0\0\0\0\0'
}
# Values that end at the limit are read on, and the input ends before them; one byte more is too long.
head_of $((67108864 - 40)) | head -c 40 > cut_at_the_limit.nc
head_of $((67108864 - 39)) | head -c 40 > cut_past_the_limit.nc
for command in list check; do
  expect "$command of values to the limit that are cut" 1 "fault EndsEarly at 40" "" "$command" cut_at_the_limit.nc
  expect "$command of values past the limit" 1 "fault HeaderTooLong at 40" "" "$command" cut_past_the_limit.nc
done
expect "check of values to a greater limit that are cut" 1 "fault EndsEarly at 40" "" \
  check --max-header 67108868 cut_past_the_limit.nc
expect "list of several files to the limit" 1 "cut_at_the_limit.nc: fault EndsEarly at 40
cut_past_the_limit.nc: fault HeaderTooLong at 40" "" list cut_at_the_limit.nc cut_past_the_limit.nc
head_of $((67108864 - 48)) > at_the_limit.nc
"$ncc" list at_the_limit.nc > out 2> err
count "a header of 67108864 bytes" "0 67108864 $((67108864 - 48 + 57)) " \
  "$? $(wc -c < at_the_limit.nc | tr -d ' ') $(wc -c < out | tr -d ' ') $(cat err)"
head_of $((67108864 - 44)) > past_the_limit.nc
expect "a header of 67,108,868 bytes" 1 "fault HeaderTooLong at 67108864" "" list past_the_limit.nc
converts at_the_limit.nc 1 at_the_limit.nc
makes_none "convert a header of 67,108,868 bytes" past_the_limit.nc 1 1 "fault HeaderTooLong at 67108864" ""
expect "check of a header of 67108864 bytes" 0 "ok CDF-1 records 0 variables 0" "" check at_the_limit.nc
expect "check of a header of 67,108,868 bytes" 1 "fault HeaderTooLong at 67108864" "" check past_the_limit.nc
expect "check of it with a greater limit" 0 "ok CDF-1 records 0 variables 0" "" \
  check --max-header 67108868 past_the_limit.nc

echo "$passed passed, $failed failed"
[ "$failed" = 0 ]
