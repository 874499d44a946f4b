#!/usr/bin/env bash
# Measures the program: lines a second and peak memory, beside awk and wc on the same file, whether memory grows, and the
# instructions of a mixed session and of days of several shapes. Needs bash, awk and python3, valgrind for the instructions,
# and the Rattle kit where the program is not built yet. Ends with status 0 whatever the speed, and fails where the
# program's memory passes 20 MB.
set -euo pipefail
cd "$(dirname "$0")"
holdbook=$PWD/../crates/holdbook/out/holdbook
if [ ! -x "$holdbook" ]; then
    echo "building holdbook (proves it first)" >&2
    (cd ../crates/holdbook && rt run -- --help) >/dev/null
fi
room=$(mktemp -d)
trap 'rm -rf "$room"' EXIT
python3 session.py 1000000 >"$room/session"
python3 session.py 10000000 11 >"$room/longer"
python3 -c 'import sys; sys.stdout.write("R\t8\t1\t" + "7" * (100_000_000 - 6))' >"$room/long_line"
python3 measure.py "$holdbook" "$room/session" "$room/longer" "$room/long_line"
if command -v valgrind >/dev/null; then
    python3 session.py 40000 >"$room/mixed"
    python3 instructions.py "$holdbook" "$room/mixed"
else
    echo "instructions are not counted: there is no valgrind"
fi
