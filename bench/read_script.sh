#!/usr/bin/env bash
# Times the proved program on scripts of 16, 32 and 64 MiB: long calls padded by spaces, and long comments.
# Run by hand, after `make build`. The times should grow with the bytes.
set -eu
cd "$(dirname "$0")/.."
program=build/calypso
[[ -x $program ]] || { echo "build it first: make build" >&2; exit 1; }
work=$(mktemp -d)
trap 'rm -rf "$work"' EXIT

for mebibytes in 16 32 64; do
  python3 - "$mebibytes" > "$work/script" <<'PY'
import sys

lines = 65_535
width = int(sys.argv[1]) * 1_048_576 // (lines + 1) - 1
print("clients 1")
for line in range(lines):
    print(("c0 stat /d" if line % 64 == 0 else "# comment").ljust(width))
PY
  bytes=$(stat -c %s "$work/script")
  begun=$(date +%s%N)
  "$program" run < "$work/script" > "$work/text"
  ended=$(date +%s%N)
  tail -n 1 "$work/text" | grep -q '^end ' || { echo "the script was refused: $(tail -n 1 "$work/text")" >&2; exit 1; }
  milliseconds=$(( (ended - begun) / 1000000 ))
  printf '%s bytes read and run in %s ms, %s bytes a ms\n' "$bytes" "$milliseconds" $(( bytes / (milliseconds + 1) ))
done
