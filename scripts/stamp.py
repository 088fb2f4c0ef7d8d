#!/usr/bin/env python3
"""Says in a built program of which commit it is and by which logic it is proved: `stamp.py PROGRAM COMMIT LOGIC [unproved]`.

`ncc --version` prints a text of fixed length. This writes another one of the same length over it, in the file PROGRAM,
and changes nothing else. COMMIT has 40 letters and LOGIC 16; beside `unproved` there is room for 30 of the 40. It ends
badly if the text isn't there exactly once.
"""

import sys
from pathlib import Path

UNSTAMPED = b"built from source: neither its commit nor the kit's logic is told here."


def main() -> int:
    path, commit, logic = Path(sys.argv[1]), sys.argv[2], sys.argv[3]
    begin = f"unproved, commit {commit[:30]}" if sys.argv[4:] == ["unproved"] else f"commit {commit}"
    stamped = f"{begin}, logic {logic}".encode()
    data = path.read_bytes()
    if len(stamped) != len(UNSTAMPED):
        print(f"stamp.py: the text has {len(stamped)} bytes, not {len(UNSTAMPED)}: {stamped!r}", file=sys.stderr)
        return 1
    if data.count(UNSTAMPED) != 1:
        print(f"stamp.py: {path} has the text {data.count(UNSTAMPED)} times, not once", file=sys.stderr)
        return 1
    path.write_bytes(data.replace(UNSTAMPED, stamped))
    return 0


if __name__ == "__main__":
    sys.exit(main())
