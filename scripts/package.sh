#!/usr/bin/env bash
# Makes the packages of ncc, from what is proved and built in this tree: `scripts/package.sh [--unproved] [OUT]`.
#
# Into the folder OUT (target/packages if left out) go the Debian packages ncc (the program, which is linked statically
# and needs no library), libncc0, libncc-dev and python3-ncc, the wheel, ncc-VERSION-x86_64-linux.tar.gz with all of it
# for other systems, MANIFEST.txt, which says of which commit, kit and logic they are, and SHA256SUMS.
#
# It takes the program that `rt run` (scripts/install.sh) left in crates/ncc_cli/out, and the library that `rt lib` left in
# crates/ncc_c/out. They have to be of this commit, and the gate has to have passed over it: scripts/test.sh notes that in
# target/gate.txt. With --unproved the gate need not have passed, and every name has the word `unproved` in it. Two runs
# over one commit make the same bytes. Needs a C compiler, dpkg-deb, git, and a python3 with setuptools and wheel.
set -euo pipefail
top=$(cd "$(dirname "$0")/.." && pwd)
unproved=
if [ "${1:-}" = --unproved ]; then
  unproved=yes
  shift
fi
out=$(mkdir -p "${1:-$top/target/packages}" && cd "${1:-$top/target/packages}" && pwd)
python=${PYTHON:-/usr/bin/python3}
arch=x86_64-linux-gnu

fail() {
  echo "package.sh: $1" >&2
  exit 1
}

# The word after the word $1 in the line that begins with it, in the file $2.
noted() {
  sed -n "s/^$1 //p" "$2" 2> /dev/null
}

# Whether the gate passed over this very tree, with this kit.
require_gate() {
  local mark=$top/target/gate.txt
  [ -z "$unproved" ] || return 0
  [ "$(noted tree "$mark")" = "$tree" ] || fail "the gate (scripts/test.sh) has not passed over this commit; --unproved names the packages so"
  [ "$(noted kit "$mark")" = "$kit" ] || fail "the gate passed with another kit: $(noted kit "$mark")"
}

# The version, which stands in three places.
version_of() {
  local own own_in_python project
  own=$(sed -n 's/^    "\([0-9.]*\) (built from source.*/\1/p' "$top/crates/ncc_commands/src/version.rt")
  own_in_python=$(sed -n 's/^__version__ = "\(.*\)"/\1/p' "$top/python/ncc/__init__.py")
  project=$(sed -n 's/^version = "\(.*\)"/\1/p' "$top/python/pyproject.toml")
  [ -n "$own" ] && [ "$own" = "$own_in_python" ] && [ "$own" = "$project" ] \
    || fail "the versions differ: $own, $own_in_python, $project"
  echo "$own"
}

# The program, linked statically, with its commit and logic in the text of --version.
link_program() {
  cc -static-pie -Wl,-z,relro,-z,now -o "$1" "$object" "$rattle/c/libos_c.a" "$rattle/c/liblibc_c.a" || fail "the program could not be linked"
  strip "$1"
  "$top/scripts/stamp.py" "$1" "$commit" "$logic" ${unproved:+unproved}
}

# The libraries in the folder $1.
link_libraries() {
  local archive=$top/crates/ncc_c/out/libncc_c.a
  printf '%s\n' "create $1/libncc.a" "addlib $archive" "addlib $rattle/c/liblibc_c.a" save end | ar -M
  strip --strip-debug --remove-section=.comment --enable-deterministic-archives "$1/libncc.a"
  cc -shared -Wl,-soname,libncc.so.0 -Wl,-z,relro,-z,now -o "$1/libncc.so.0.$version" \
    -Wl,--whole-archive "$archive" -Wl,--no-whole-archive "$rattle/c/liblibc_c.a" || fail "the library could not be linked"
  strip --strip-unneeded "$1/libncc.so.0.$version"
  chmod 644 "$1/libncc.so.0.$version"
  ln -s "libncc.so.0.$version" "$1/libncc.so.0"
  ln -s libncc.so.0 "$1/libncc.so"
}

# What pkg-config is told, of an installation below the prefix $1 with the libraries in $2.
pkg_config() {
  printf '%s\n' "prefix=$1" "libdir=$2" 'includedir=${prefix}/include' '' 'Name: ncc' \
    'Description: Proved checker, reader and writer of netCDF classic files' "Version: $version" \
    'Libs: -L${libdir} -lncc' 'Cflags: -I${includedir}'
}

# Pages, completions and documents below the folder $1, as they lie below /usr.
put_pages() {
  "$top/packaging/man.py" "$program" "$1/share/man/man1" "$day"
  gzip -9n "$1"/share/man/man1/*.1
  "$top/packaging/completions.py" "$program" "$room/completions"
  install -Dm644 "$room/completions/ncc.bash" "$1/share/bash-completion/completions/ncc"
  install -Dm644 "$room/completions/_ncc" "$1/share/zsh/vendor-completions/_ncc"
  install -Dm644 "$room/completions/ncc.fish" "$1/share/fish/vendor_completions.d/ncc.fish"
  mkdir -p "$1/share/doc/ncc/docs" "$1/share/doc/ncc/examples"
  install -m644 "$top/README.md" "$top/CHANGELOG.md" "$1/share/doc/ncc/"
  install -m644 "$top"/docs/*.md "$1/share/doc/ncc/docs/"
  install -m644 "$top"/examples/*.nc "$top/examples/README.md" "$1/share/doc/ncc/examples/"
}

# The changes as Debian has them, of the newest version.
debian_changes() {
  printf 'ncc (%s) unstable; urgency=medium\n\n  * See CHANGELOG.md in the package ncc.\n\n -- %s  %s\n' \
    "$debian_version" "$maintainer" "$(date -u -R -d "@$SOURCE_DATE_EPOCH")"
}

# Documents that every package has: the changes, the terms, and of which commit it is.
put_terms() {
  local folder=$room/deb/$1/usr/share/doc/$1
  mkdir -p "$folder"
  debian_changes | gzip -9n > "$folder/changelog.gz"
  install -m644 "$top/packaging/copyright" "$folder/copyright"
  install -m644 "$room/MANIFEST.txt" "$folder/MANIFEST.txt"
}

# The package $1, of the section $2, that needs $3, with the words $4 and a longer text, each line after a space, from
# standard input.
put_control() {
  local folder=$room/deb/$1 size
  put_terms "$1"
  mkdir -p "$folder/DEBIAN"
  size=$(du -sk --apparent-size --exclude=DEBIAN "$folder" | cut -f1)
  {
    printf '%s\n' "Package: $1" 'Source: ncc' "Version: $debian_version" 'Architecture: amd64' "Maintainer: $maintainer" \
      "Installed-Size: $size" "Section: $2" 'Priority: optional'
    if [ -n "$3" ]; then echo "Depends: $3"; fi
    printf '%s\n' "Description: $4${unproved:+ (unproved)}"
    cat
    if [ -n "$unproved" ]; then echo ' .'; echo ' The gate did not pass over the tree of this package.'; fi
  } > "$folder/DEBIAN/control"
  if [ -f "$top/packaging/$1.lintian-overrides" ]; then
    install -Dm644 "$top/packaging/$1.lintian-overrides" "$folder/usr/share/lintian/overrides/$1"
  fi
}

# Makes the package $1 of the folder deb/$1, with the sums of its files.
close_package() {
  local folder=$room/deb/$1
  (cd "$folder" && find usr -type f -print0 | sort -z | xargs -0 md5sum > DEBIAN/md5sums)
  find "$folder" -print0 | xargs -0 touch -h -d "@$SOURCE_DATE_EPOCH"
  dpkg-deb --root-owner-group -Zxz --build "$folder" "$out/$1_${debian_version}_amd64.deb" > "$room/log" || fail "$(cat "$room/log")"
  echo "$out/$1_${debian_version}_amd64.deb"
}

package_program() {
  local folder=$room/deb/ncc
  install -Dm755 "$program" "$folder/usr/bin/ncc"
  put_pages "$folder/usr"
  put_control ncc science '' 'proved checker and reader of netCDF classic files' < "$top/packaging/ncc.description"
  close_package ncc
}

package_libraries() {
  local base=$room/deb/libncc0/usr/lib/$arch dev=$room/deb/libncc-dev/usr
  mkdir -p "$base" "$dev/lib/$arch/pkgconfig" "$dev/share/doc/libncc-dev/examples"
  cp -a "$room/lib/libncc.so.0" "$room/lib/libncc.so.0.$version" "$base/"
  put_control libncc0 libs 'libc6 (>= 2.34)' 'proved library for netCDF classic files' < "$top/packaging/libncc0.description"
  echo "libncc 0 libncc0 (>= $debian_version)" > "$room/deb/libncc0/DEBIAN/shlibs"
  echo 'activate-noawait ldconfig' > "$room/deb/libncc0/DEBIAN/triggers"
  close_package libncc0
  cp -a "$room/lib/libncc.a" "$room/lib/libncc.so" "$dev/lib/$arch/"
  install -Dm644 "$top/crates/ncc_c/include/ncc.h" "$dev/include/ncc.h"
  pkg_config /usr "\${prefix}/lib/$arch" > "$dev/lib/$arch/pkgconfig/ncc.pc"
  install -m644 "$top"/examples/c/*.c "$top/docs/C.md" "$dev/share/doc/libncc-dev/examples/"
  put_control libncc-dev libdevel "libncc0 (= $debian_version)" 'proved library for netCDF classic files, to build with' < "$top/packaging/libncc-dev.description"
  close_package libncc-dev
}

package_python() {
  local base=$room/deb/python3-ncc/usr/lib/python3/dist-packages
  mkdir -p "$base"
  (cd "$base" && "$python" -m zipfile -e "$wheel" . && rm -f ncc-*.dist-info/RECORD && echo dpkg > "$(echo ncc-*.dist-info)/INSTALLER")
  chmod -R u=rwX,go=rX "$base"
  chmod 644 "$base/ncc/libncc.so"
  put_control python3-ncc python 'python3 (>= 3.11), python3-numpy, libc6 (>= 2.34)' 'netCDF classic files in Python, by a proved library' < "$top/packaging/python3-ncc.description"
  close_package python3-ncc
}

# One archive of everything, as it lies below a prefix like /usr/local or ~/.local.
archive_all() {
  local name=ncc-$version${unproved:+-unproved}-x86_64-linux
  local folder=$room/$name
  install -Dm755 "$program" "$folder/bin/ncc"
  put_pages "$folder"
  cp -a "$room/lib" "$folder/lib"
  mkdir -p "$folder/lib/pkgconfig"
  pkg_config '${pcfiledir}/../..' '${prefix}/lib' > "$folder/lib/pkgconfig/ncc.pc"
  install -Dm644 "$top/crates/ncc_c/include/ncc.h" "$folder/include/ncc.h"
  install -Dm644 "$wheel" "$folder/python/$(basename "$wheel")"
  install -m644 "$room/MANIFEST.txt" "$top/packaging/copyright" "$folder/"
  tar -C "$room" --sort=name --mtime="@$SOURCE_DATE_EPOCH" --owner=0 --group=0 --numeric-owner -cf - "$name" | gzip -9n > "$out/$name.tar.gz"
  echo "$out/$name.tar.gz"
}

# What the packages are of.
manifest() {
  local gate='passed over this tree: every proof from nothing, every must-fail edit, every test'
  if [ -n "$unproved" ]; then gate='has not passed over this tree'; fi
  printf '%s\n' "ncc $version" "commit $commit" "tree $tree" "kit $kit" "gate $gate" \
    "crates $(grep -cE '^[a-z]' "$top/crates.txt")" "edits $(find "$top/crates" -name '*.edit' -not -path '*/out/*' | wc -l)" '' \
    'What is proved, what is only tested, and what is neither stands in docs/PROVED.md. Beside it this is trusted: that' \
    'the C compiler links what the kit compiled, and that strip and scripts/stamp.py (which writes the commit and the' \
    'logic into the text of --version) change nothing else.'
}

commit=$(git -C "$top" rev-parse HEAD) || fail "this is no repository of git"
tree=$(git -C "$top" rev-parse 'HEAD^{tree}')
[ -z "$(git -C "$top" status --porcelain)" ] || fail "the tree has changes that are not committed"
command -v rt > /dev/null || fail "there is no rt: the kit has what is linked"
for needed in cc ar strip dpkg-deb gzip tar; do command -v "$needed" > /dev/null || fail "there is no $needed"; done
kit=$(rt version)
logic=${kit##* }
rattle=$(dirname "$(dirname "$(realpath "$(command -v rt)")")")
require_gate
version=$(version_of)
debian_version=$version${unproved:+~unproved}
maintainer=${MAINTAINER:-$(git -C "$top" log -1 --format='%an <%ae>')}
SOURCE_DATE_EPOCH=$(git -C "$top" log -1 --format=%ct)
export SOURCE_DATE_EPOCH LC_ALL=C
day=$(date -u -d "@$SOURCE_DATE_EPOCH" +%Y-%m-%d)
umask 022
object=$top/crates/ncc_cli/out/ncc_cli.o
[ -f "$object" ] || fail "there is no $object: scripts/install.sh proves and builds it"
[ -f "$top/crates/ncc_c/out/libncc_c.a" ] || fail "there is no crates/ncc_c/out/libncc_c.a: run rt lib in crates/ncc_c"
room=$(mktemp -d)
trap 'rm -rf "$room"' EXIT
mkdir -p "$room/lib"
program=$room/ncc
manifest > "$room/MANIFEST.txt"
link_program "$program"
link_libraries "$room/lib"
wheel=$("$top/scripts/wheel.sh" "$room/wheel")
rm -f "$out"/*ncc*.deb "$out"/ncc-*.tar.gz "$out"/ncc-*.whl
package_program
package_libraries
package_python
install -m644 "$wheel" "$out/"
archive_all
install -m644 "$room/MANIFEST.txt" "$out/"
(cd "$out" && sha256sum -- *ncc*.deb ncc-*.tar.gz ncc-*.whl MANIFEST.txt > SHA256SUMS)
echo "$out/SHA256SUMS"
