#!/bin/sh
# docs/READING.md names no file and no theorem that is not there.
set -eu
cd "$(dirname "$0")/.."
wrong=0
files=$(sed -n 's/^| `\(crates\/[^`]*\)` |.*/\1/p' docs/READING.md)
for file in $files; do
  [ -f "$file" ] || { echo "docs/READING.md: there is no $file"; wrong=1; }
done
theorems=$(sed -n 's/^| `\([^`]*\)` | `\(crates\/[^`]*\)` |.*/\1:\2/p' docs/READING.md)
for theorem in $theorems; do
  grep -q "^ *pub ${theorem%%:*} :" "${theorem#*:}" || { echo "docs/READING.md: there is no ${theorem%%:*} in ${theorem#*:}"; wrong=1; }
done
[ -n "$files" ] && [ -n "$theorems" ] && [ "$wrong" -eq 0 ]
