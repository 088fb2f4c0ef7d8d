#!/usr/bin/env bash
# Other tools read the files that the libraries write, and `ncc` reads those that `ncgen` writes: in each version, with
# the same values. Of a file of `ncgen` or of SciPy that `ncc convert` wrote in another version they say what they said
# before. Of Debian's netcdf-bin, pnetcdf-bin and python3-scipy it takes what is there, and says what it
# skipped. The words are the programs ncc and example_write; without them both are proved and built.
# The last line is `N passed, M failed`.
set -uo pipefail
top=$(cd "$(dirname "$0")/.." && pwd)
folder=$(mktemp -d)
trap 'rm -rf "$folder"' EXIT
passed=0
failed=0

# Counts a case, and says what is wrong with one that failed.
count() {
  if [ "$2" = "$3" ]; then
    passed=$((passed + 1))
  else
    failed=$((failed + 1))
    printf 'FAILED %s\n--- wanted\n%s\n--- found\n%s\n' "$1" "$2" "$3"
  fi
}

# The program of a crate, proved and built.
built() {
  (cd "$top/crates/$1" && rt run -- "${@:2}") > "$folder/$1.log" 2>&1 || { cat "$folder/$1.log" >&2; exit 1; }
  echo "$top/crates/$1/out/$1"
}

# Whether a tool is there; says so where it isn't.
has() {
  if command -v "$1" > /dev/null; then return 0; fi
  echo "skipped $1: it isn't installed"
  return 1
}

if [ $# -gt 1 ]; then
  ncc=$(realpath "$1") && example=$(realpath "$2") || exit 1
else
  ncc=$(built ncc_cli --version) && example=$(built example_write) || exit 1
fi
cd "$folder" || exit 1

# ---- what the tools say of the three files that are written

# What netCDF tools call a version.
kinds=([1]="classic" [2]="64-bit offset" [5]="cdf5")

cat > grid.cdl <<'END'
netcdf grid {
dimensions:
	time = UNLIMITED ; // (2 currently)
	y = 2 ;
	x = 3 ;
variables:
	int height(y, x) ;
		height:units = "m" ;
	short temperature(time, y, x) ;
		temperature:_FillValue = -999s ;

// global attributes:
		:title = "a small grid" ;
data:

 height =
  1, 2, 3,
  4, 5, 6 ;

 temperature =
  201, 202, _,
  _, _, _,
  _, _, _,
  _, _, _ ;
}
END
cat > grid.py <<'END'
import sys
from scipy.io import netcdf_file

with netcdf_file(sys.argv[1], mmap=False) as grid:
    print(grid.version_byte, dict(grid.dimensions), grid.title.decode())
    for name, variable in grid.variables.items():
        print(name, variable.dimensions, variable.typecode(), variable[:].tolist())
    print(grid.variables["height"].units.decode(), grid.variables["temperature"]._FillValue.tolist())
END
missing=-999
empty="[$missing, $missing, $missing]"

# The lines of grid.py for a version.
grid_of() {
  printf "%s {'time': None, 'y': 2, 'x': 3} a small grid\n" "$1"
  printf "height ('y', 'x') i [[1, 2, 3], [4, 5, 6]]\n"
  printf "temperature ('time', 'y', 'x') h [[[201, 202, %s], %s], [%s, %s]]\n" "$missing" "$empty" "$empty" "$empty"
  printf 'm %s' "$missing"
}

# A Python that has SciPy.
python=
for candidate in python3 /usr/bin/python3; do
  if [ -z "$python" ] && "$candidate" -c 'import scipy.io' 2> /dev/null; then python=$candidate; fi
done
if [ -z "$python" ]; then echo "skipped SciPy: it isn't installed"; fi

# The shown values of a file of a version, as the example prints them.
shown=$(printf '2 records, 0 notes\ntemperature [201, 202, -999]')
for version in 1 2 5; do
  mkdir "v$version"
  count "CDF-$version is written" "$shown" "$("$example" "v$version/grid.nc" "$version" 2>&1)"
  count "ncc checks CDF-$version" "ok CDF-$version records 2 variables 2" "$("$ncc" check --strict "v$version/grid.nc")"
done
if has ncdump; then
  for version in 1 2 5; do
    count "ncdump names CDF-$version" "${kinds[version]}" "$(ncdump -k "v$version/grid.nc")"
    count "ncdump reads CDF-$version" "$(cat grid.cdl)" "$(ncdump "v$version/grid.nc" 2>&1)"
  done
fi
if has ncvalidator; then
  for version in 1 2 5; do
    count "ncvalidator passes CDF-$version" 0 "$(ncvalidator -q "v$version/grid.nc" > /dev/null 2>&1; echo $?)"
  done
fi
if [ -n "$python" ]; then
  for version in 1 2; do
    count "SciPy reads CDF-$version" "$(grid_of "$version")" "$("$python" grid.py "v$version/grid.nc" 2>&1)"
  done
  echo "skipped SciPy on CDF-5: it reads CDF-1 and CDF-2 alone"
fi

# ---- what ncc says of the files that ncgen writes: without record variables, with one, whose records have no
# padding, and with several

cat > fixed.cdl <<'END'
netcdf fixed {
dimensions: x = 3 ;
variables:
  byte b(x) ; char c(x) ; short s(x) ; int i(x) ; float f(x) ; double d(x) ;
  int alone ; alone:text = "abc" ; alone:numbers = 1s, 2s, 3s ;
data:
  b = -128, 0, 127 ; c = "abc" ; s = -32768, 0, 32767 ; i = -2147483648, 0, 2147483647 ;
  f = 1.5, -2, 0 ; d = 0.5, -0.25, 3 ; alone = 7 ;
}
END
cat > one.cdl <<'END'
netcdf one {
dimensions: time = UNLIMITED ; x = 3 ;
variables: byte b(time, x) ;
data: b = 1, 2, 3, 4, 5, 6, 7, 8, 9 ;
}
END
cat > several.cdl <<'END'
netcdf several {
dimensions: time = UNLIMITED ; x = 3 ;
variables:
  byte b(time, x) ; char c(time, x) ; int fixed(x) ; short s(time, x) ; double d(time) ;
data:
  b = 1, 2, 3, 4, 5, 6 ; c = "abcdef" ; fixed = 10, 20, 30 ; s = 201, 202, _, 204, 205, 206 ; d = 0.5, 1 ;
}
END
# ncgen 4.9.0 gives an int64 variable the type int, so its values here fit in both.
cat > wide.cdl <<'END'
netcdf wide {
dimensions: time = UNLIMITED ;
variables:
  ubyte ub(time) ; ushort us(time) ; uint ui(time) ; uint64 ul(time) ;
  int64 l(time) ; l:most = 9223372036854775807LL ;
data:
  ub = 0, 255 ; us = 0, 65535 ; ui = 0, 4294967295 ; l = -7, 7 ; ul = 0, 18446744073709551615 ;
}
END

# The values of a variable of a file, on one line.
values_of() {
  "$ncc" csv "$1" "$2" | tail -n +2 | sed 's/.*,//' | paste -sd ' '
}

# The case of a file NAME, made by ncgen in a VERSION: the line of its check, and then each variable with its values.
made() {
  local name=$1 version=$2 file=v$2/$1.nc line
  ncgen -k "${kinds[version]}" -o "$file" "$name.cdl" 2> ncgen.err
  count "ncgen writes $name in CDF-$version" "" "$(cat ncgen.err)"
  count "ncc checks $name in CDF-$version" "ok CDF-$version $3" "$("$ncc" check "$file")"
  shift 3
  for line in "$@"; do
    count "ncc reads $name in CDF-$version, ${line%% *}" "${line#* }" "$(values_of "$file" "${line%% *}")"
  done
}

if has ncgen; then
  for version in 1 2 5; do
    made fixed "$version" "records 0 variables 7" "b -128 0 127" "c 97 98 99" "s -32768 0 32767" \
      "i -2147483648 0 2147483647" "f 0x3fc00000 0xc0000000 0x00000000" \
      "d 0x3fe0000000000000 0xbfd0000000000000 0x4008000000000000" "alone 7"
    made one "$version" "records 3 variables 1" "b 1 2 3 4 5 6 7 8 9"
    made several "$version" "records 2 variables 5" "b 1 2 3 4 5 6" "c 97 98 99 100 101 102" "fixed 10 20 30" \
      "s 201 202 -32767 204 205 206" "d 0x3fe0000000000000 0x3ff0000000000000"
  done
  made wide 5 "records 2 variables 5" "ub 0 255" "us 0 65535" "ui 0 4294967295" "l -7 7" "ul 0 18446744073709551615"
  for version in 1 2 5; do
    ncgen -k "${kinds[version]}" -o again.nc grid.cdl
    count "ncgen writes the bytes of the grid in CDF-$version" "" "$(cmp again.nc "v$version/grid.nc" 2>&1)"
  done
fi

# ---- files of ncgen and of SciPy that are converted: what is said of them before and after

cat > attributes.cdl <<'END'
netcdf attributes {
dimensions: time = UNLIMITED ; x = 3 ; y = 2 ;
variables:
  double time(time) ; time:units = "days since 2000-01-01" ;
  byte mask(y, x) ; mask:flags = 1b, -1b ; mask:_FillValue = -9b ;
  short packed(time, y, x) ; packed:scale_factor = 0.01 ; packed:_FillValue = -999s ; packed:range = -32768s, 32767s ;
  int scalar ; scalar:least = -2147483648 ; scalar:empty = "" ;
  char name(time, x) ; name:note = "two\nlines" ;
  float level(x) ; level:range = 0.f, 1e30f ;
  :title = "attributes of each type" ; :version = 3 ;
data:
  time = 0.5, 1.5, 2.5 ; mask = 1, 0, -1, 127, -128, _ ; scalar = 7 ; name = "abcdefghi" ; level = 1.5, -2, 0 ;
  packed = 1, 2, 3, 4, 5, 6, _, _, _, -32768, 32767, 0, 7, 8, 9, 10, 11, 12 ;
}
END
cat > empty.cdl <<'END'
netcdf empty {
dimensions: time = UNLIMITED ; x = 3 ;
variables: int fixed(x) ; short s(time, x) ; s:units = "m" ; byte b(time) ;
data: fixed = 1, 2, 3 ;
}
END
# A lone record variable of each type.
lone=(byte char short int float double)
for type in "${lone[@]}"; do
  values='1, 2, 3, 4, 5, 6, 7, 8, 9'
  if [ "$type" = char ]; then values='"abcdefghi"'; fi
  cat > "lone_$type.cdl" <<END
netcdf lone_$type {
dimensions: time = UNLIMITED ; x = 3 ;
variables: $type v(time, x) ; int fixed ;
data: v = $values ; fixed = 7 ;
}
END
done

# Files that SciPy writes: of several record variables, without records, of fixed variables, and of a lone record
# variable of each type. A scalar beside record variables, or two of these without records, SciPy 1.10.1 puts wrongly.
cat > write.py <<'END'
import numpy
from scipy.io import netcdf_file

TYPES = {"b": "byte", "c": "char", "h": "short", "i": "int", "f": "float", "d": "double"}


def values(code, *shape):
    count = int(numpy.prod(shape))
    if code == "c":
        return numpy.frombuffer(bytes(97 + i for i in range(count)), "S1").reshape(shape)
    return (numpy.arange(count) * 3 - 7).astype(code).reshape(shape)


def write(name, version, records, fixed, kept):
    with netcdf_file(f"v{version}/{name}.nc", "w", version=version) as file:
        file.title = "from SciPy"
        file.numbers = numpy.array([1, -2, 3], "i2")
        file.createDimension("time", None)
        file.createDimension("x", 3)
        for code in fixed:
            variable = file.createVariable("fixed_" + TYPES[code], code, ("x",))
            variable[:] = values(code, 3)
            variable.scale = numpy.float32(0.5)
        if not kept:
            file.createVariable("scalar", "i", ()).assignValue(7)
        for code in kept:
            variable = file.createVariable("record_" + TYPES[code], code, ("time", "x"))
            variable.units = "m"
            if records:
                variable[:] = values(code, records, 3)


for version in (1, 2):
    write("scipy_several", version, 3, "bchifd", "bchifd")
    write("scipy_empty", version, 0, "ic", "d")
    write("scipy_fixed", version, 0, "bchifd", "")
    for code, kind in TYPES.items():
        write("scipy_lone_" + kind, version, 3, "b", code)
END
# Reads lines of a case and two files, and has for each file what SciPy says of it.
cat > seen.py <<'END'
import sys
from scipy.io import netcdf_file


def shown(attributes):
    for name, value in attributes.items():
        yield name, str(getattr(value, "dtype", "text")), value.tolist() if hasattr(value, "tolist") else value


def seen(path):
    try:
        with netcdf_file(path, mmap=False) as file:
            parts = [dict(file.dimensions), *shown(file._attributes)]
            for name, variable in file.variables.items():
                parts += [name, variable.dimensions, variable.typecode(), variable[...].tolist()]
                parts += shown(variable._attributes)
            return repr(parts)
    except Exception as error:
        return f"{path}: {error!r}"


for line in sys.stdin:
    case, before, after = line.rstrip("\n").split("|")
    print(case, seen(before), seen(after), sep="|")
END

# What ncdump says of a file, but for its name.
dumped() {
  ncdump "$1" 2>&1 | tail -n +2
}

# The cases of a file NAME of a VERSION that is converted to each of the versions that follow. What SciPy is to read is
# noted; in the place of a file in CDF-5, which it doesn't read, it reads that of the same text in CDF-1.
converted() {
  local name=$1 from=$2 file=v$2/$1.nc checked dumped= to new case
  shift 2
  checked=$("$ncc" check "$file" | sed -n '1s/^ok CDF-.//p')
  if command -v ncdump > /dev/null; then dumped=$(dumped "$file"); fi
  for to in "$@"; do
    new=new/${name}_${from}_$to.nc
    case="$name from CDF-$from to CDF-$to"
    count "ncc converts $case" "ok CDF-$to" "$("$ncc" convert --to "$to" "$file" "$new" 2>&1)"
    count "ncc checks $case" "ok CDF-$to$checked" "$("$ncc" check "$new")"
    if command -v ncdump > /dev/null; then
      count "ncdump names $case" "${kinds[to]}" "$(ncdump -k "$new")"
      count "ncdump reads $case" "$dumped" "$(dumped "$new")"
    fi
    if command -v ncvalidator > /dev/null; then
      count "ncvalidator passes $case" 0 "$(ncvalidator -q "$new" > /dev/null 2>&1; echo $?)"
    fi
    if [ "$to" != 5 ]; then echo "$case|v${from/5/1}/$name.nc|$new" >> pairs; fi
  done
}

mkdir new
: > pairs
if command -v ncgen > /dev/null; then
  for name in grid fixed one several attributes empty "${lone[@]/#/lone_}"; do
    for version in 1 2 5; do ncgen -k "${kinds[version]}" -o "v$version/$name.nc" "$name.cdl"; done
    for version in 1 2 5; do
      converted "$name" "$version" 1 2 5
      for to in 1 2 5; do
        count "$name from CDF-$version to CDF-$to has the bytes of ncgen" "" \
          "$(cmp "new/${name}_${version}_$to.nc" "v$to/$name.nc" 2>&1)"
      done
    done
  done
  converted wide 5 5
  for to in 1 2; do
    count "ncc refuses wide from CDF-5 to CDF-$to" "refused TypeForVersion 1 absent" \
      "$("$ncc" convert --to "$to" v5/wide.nc new/wide.nc 2>&1) $? $([ -e new/wide.nc ] || echo absent)"
  done
fi
if [ -n "$python" ]; then
  "$python" write.py
  for file in v1/scipy_*.nc; do
    for version in 1 2; do converted "$(basename "$file" .nc)" "$version" 1 2 5; done
  done
  while IFS='|' read -r case before after; do
    count "SciPy reads $case" "$before" "$after"
  done < <("$python" seen.py < pairs)
fi

echo "$passed passed, $failed failed"
[ "$failed" = 0 ]
