#!/usr/bin/env bash
# A first look at `ncc`, in about a minute: builds it without its proofs (`rt try`), and shows what `ncc check` says of
# the files, or of examples/ocean.nc. It installs nothing and leaves nothing; scripts/install.sh proves and installs.
set -euo pipefail
top=$(cd "$(dirname "$0")/.." && pwd)
[ $# -gt 0 ] || set -- "$top/examples/ocean.nc"
copies=()
names=()
for file; do
  [ -f "$file" ] || { echo "look.sh: there is no file $file" >&2; exit 3; }
  path=$(realpath "$file")
  # (it runs in a folder of its own, on copies)
  copies+=(--data "${path#/}=$path")
  names+=("${path#/}")
done
echo "This ncc is not proved yet: it is only built, to be looked at (about a minute). scripts/install.sh proves it."
cd "$top/crates/ncc_cli"
exec rt try "${copies[@]}" -- check "${names[@]}"
