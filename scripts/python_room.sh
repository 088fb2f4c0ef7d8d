#!/usr/bin/env bash
# Builds the wheel of the Python package and installs it into a fresh environment in the folder ROOM, without a network:
# `scripts/python_room.sh ROOM`. Then ROOM/venv/bin/python has the package, and what the system's Python has.
set -euo pipefail
top=$(cd "$(dirname "$0")/.." && pwd)
room=${1:?usage: scripts/python_room.sh ROOM}
python=${PYTHON:-/usr/bin/python3}
wheel=$("$top/scripts/wheel.sh" "$room/wheel")
"$python" -m venv --without-pip --system-site-packages "$room/venv"
"$room/venv/bin/python" -m pip install --quiet --no-index --no-deps --disable-pip-version-check "$wheel"
