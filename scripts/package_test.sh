#!/usr/bin/env bash
# Tries the packages of the folder PACKAGES (target/packages if left out) as a new user does, in a fresh root of Debian:
# `scripts/package_test.sh [PACKAGES]`. They are installed, each command runs on an example, the pages and completions
# are there, an example in C is built by pkg-config, Python imports the package, and a purge leaves nothing behind.
#
# The root is made by mmdebstrap, over the network, where that is installed and can make one; else the packages are laid
# out in a folder by `dpkg -x`, and what needs a root is skipped, and said so. The last line is `N passed, M failed`.
set -uo pipefail
top=$(cd "$(dirname "$0")/.." && pwd)
packages=$(realpath "${1:-$top/target/packages}") || exit 1
room=$(mktemp -d)
trap 'rm -rf "$room"' EXIT
root=$room/root
passed=0
failed=0

# The case NAME: what is wanted, and what was found.
count() {
  if [ "$2" = "$3" ]; then
    passed=$((passed + 1))
  else
    failed=$((failed + 1))
    printf 'FAILED %s\n--- wanted\n%s\n--- found\n%s\n' "$1" "$2" "$3"
  fi
}

# Runs a line of shell in the root, or with the folder that stands for it; both outputs, and the status if it isn't 0.
inside() {
  local found status=0
  if [ -n "$is_root" ]; then
    found=$(chroot "$root" /bin/sh -c "cd /tmp && $1" 2>&1) || status=$?
  else
    found=$(cd "$room/work" && PATH=$root/usr/bin:$PATH PYTHONPATH=$root/usr/lib/python3/dist-packages \
      PKG_CONFIG_SYSROOT_DIR=$root PKG_CONFIG_PATH=$root/usr/lib/x86_64-linux-gnu/pkgconfig \
      LD_LIBRARY_PATH=$root/usr/lib/x86_64-linux-gnu sh -c "${1//\/usr\/share/$root/usr/share}" 2>&1) || status=$?
  fi
  [ "$status" = 0 ] || found="$found (status $status)"
  printf '%s' "$found"
}

# All files of the root but those that apt and dpkg write of themselves.
files_of_root() {
  (cd "$root" && find . -xdev \( -path ./proc -o -path ./sys -o -path ./tmp -o -path ./var/lib/dpkg -o -path ./var/lib/apt \
    -o -path ./var/cache -o -path ./var/log -o -path ./etc/ld.so.cache \) -prune -o -print | sort)
}

# A fresh root with what the packages need, and the packages' files in /packages.
make_root() {
  command -v mmdebstrap > /dev/null && [ "$(id -u)" = 0 ] || return 1
  mmdebstrap --quiet --variant=apt --include=python3-numpy,gcc,libc6-dev,pkg-config bookworm "$root" > "$room/log" 2>&1 || return 1
  chroot "$root" /bin/true 2> /dev/null || return 1
  mkdir "$root/packages"
  cp "$packages"/*.deb "$root/packages/"
}

install_packages() {
  if [ -n "$is_root" ]; then
    files_of_root > "$room/before"
    count 'install' '' "$(inside 'dpkg -i /packages/*.deb > /tmp/log || cat /tmp/log')"
  else
    for package in "$packages"/*.deb; do dpkg -x "$package" "$root"; done
    mkdir "$room/work"
  fi
}

try_program() {
  local examples=/usr/share/doc/ncc/examples
  count 'check' 'ok CDF-1 records 2 variables 4' "$(inside "ncc check $examples/ocean.nc")"
  count 'list' 'format CDF-1 records 2' "$(inside "ncc list $examples/ocean.nc" | head -n 2 | xargs)"
  count 'layout' 'file 92' "$(inside "ncc layout $examples/tiny.nc" | head -n 1)"
  count 'csv' 'dim,vx 1,1 3,1' "$(inside "ncc csv $examples/tiny.nc vx --start 1 --stride 2" | xargs)"
  count 'extend' 'records 3' "$(inside "cp $examples/ocean.nc grows.nc && ncc extend grows.nc 1")"
  count 'convert' 'ok CDF-5' "$(inside "ncc convert --to 5 $examples/ocean.nc new.nc")"
  local version commit logic
  version=$(sed -n 's/^ncc //p' "$packages/MANIFEST.txt")
  commit="commit $(sed -n 's/^commit //p' "$packages/MANIFEST.txt")"
  logic=$(sed -n 's/^kit .* //p' "$packages/MANIFEST.txt")
  if compgen -G "$packages/*unproved*" > /dev/null; then commit="unproved, ${commit:0:37}"; fi
  count 'version' "ncc $version ($commit, logic $logic)" "$(inside 'ncc --version')"
}

# The manual pages of all commands, and completions that name them all.
try_pages() {
  local page commands='check convert csv extend layout list'
  for page in ncc $(printf 'ncc-%s ' $commands); do
    count "man page $page" yes "$([ -s "$root/usr/share/man/man1/$page.1.gz" ] && echo yes)"
    if command -v mandoc > /dev/null; then
      count "man page $page is well formed" '' "$(zcat "$root/usr/share/man/man1/$page.1.gz" | mandoc -T lint -W error 2>&1)"
    fi
  done
  count 'completion in bash' '--max-header' "$(bash -c ". '$root/usr/share/bash-completion/completions/ncc'
    compopt() { :; }; COMP_WORDS=(ncc check --ma); COMP_CWORD=2; _ncc; echo \"\${COMPREPLY[*]}\"")"
  count 'commands in bash' "$commands help --help --version" "$(bash -c ". '$root/usr/share/bash-completion/completions/ncc'
    COMP_WORDS=(ncc ''); COMP_CWORD=1; _ncc; echo \"\${COMPREPLY[*]}\"")"
  if command -v zsh > /dev/null; then count 'zsh reads its completion' '' "$(zsh -n "$root/usr/share/zsh/vendor-completions/_ncc" 2>&1)"; fi
  if command -v fish > /dev/null; then
    count 'completion in fish' '--max-header' "$(HOME=$room fish -c "source '$root/usr/share/fish/vendor_completions.d/ncc.fish'; complete -C 'ncc check --ma'" | cut -f1)"
  fi
}

try_libraries() {
  local build='cc -std=c11 -D_POSIX_C_SOURCE=200809L -o column /usr/share/doc/libncc-dev/examples/column.c $(pkg-config --cflags --libs ncc)'
  count 'an example in C, by pkg-config' 'ok CDF-1 records 2 variables 4' \
    "$(inside "$build && ./column /usr/share/doc/ncc/examples/ocean.nc" | head -n 1)"
  count 'the same, linked statically' 'ok CDF-1 records 2 variables 4' \
    "$(inside "${build/cc /cc -static } && ./column /usr/share/doc/ncc/examples/ocean.nc" | head -n 1)"
  count 'Python' '2 [1204, -32768]' \
    "$(inside "python3 -c \"import ncc; f = ncc.open('/usr/share/doc/ncc/examples/ocean.nc'); print(f.dims['time'], f['temperature'].native()[1, 0, ::2].tolist())\"")"
  count 'the commit in Python' "$(sed -n 's/^commit //p' "$packages/MANIFEST.txt")" "$(inside "python3 -c 'import ncc; print(ncc.commit())'")"
}

try_purge() {
  if [ -z "$is_root" ]; then echo 'package_test.sh: without a root nothing was installed, so that nothing is purged'; return; fi
  inside 'rm -rf /tmp/*' > /dev/null
  count 'purge' '' "$(inside 'dpkg --purge ncc libncc-dev libncc0 python3-ncc > /tmp/log 2>&1 || cat /tmp/log')"
  files_of_root > "$room/after"
  count 'nothing is left' '' "$(comm -13 "$room/before" "$room/after")"
}

try_sums() {
  count 'sums' '' "$(cd "$packages" && sha256sum --quiet -c SHA256SUMS 2>&1)"
  if command -v lintian > /dev/null; then
    count 'lintian' '' "$(lintian --fail-on error,warning --allow-root "$packages"/*.deb 2>&1 | grep -E '^[EW]:')"
  else
    echo 'package_test.sh: there is no lintian'
  fi
}

# How long a start takes beside that of `true`, the least of many by turns.
try_start() {
  local ratio
  ratio=$(python3 - "$root/usr/bin/ncc" <<'END'
import subprocess, sys, time
words = [[sys.argv[1], "--version"], ["/bin/true"]]
least = [9.0, 9.0]
for _ in range(400):
    for k, word in enumerate(words):
        begun = time.perf_counter()
        subprocess.run(word, stdout=subprocess.DEVNULL)
        least[k] = min(least[k], time.perf_counter() - begun)
print(f"{least[0] / least[1]:.2f}")
END
)
  echo "a start takes $ratio of the time of true; the program has $(stat -c %s "$root/usr/bin/ncc") bytes"
}

is_root=
if make_root; then
  is_root=yes
else
  rm -rf "$root"
  mkdir "$root"
  echo "package_test.sh: no root can be made here ($(tail -n 1 "$room/log" 2> /dev/null)): the packages are only laid out"
fi
install_packages
try_program
try_pages
try_libraries
try_sums
try_start
try_purge
echo "$passed passed, $failed failed"
[ "$failed" = 0 ]
