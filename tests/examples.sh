#!/usr/bin/env bash
# The example archives: the program's output on each, that examples/make.py writes the same bytes, and that case a is the printed example.
# Argument: the program.
set -euo pipefail
program=$1
examples=$(cd "$(dirname "$0")/../examples" && pwd)
made=$(mktemp -d)
trap 'rm -rf "$made"' EXIT
python3 "$examples/make.py" "$made"
cmp "$examples/a.archive" "$examples/../crates/sandegmur/stdin"
count=0
for archive in "$examples"/*.archive; do
  cmp "$archive" "$made/$(basename "$archive")"
  "$program" < "$archive" | cmp - "${archive%.archive}.expected" || { echo "differs: $archive" >&2; exit 1; }
  count=$((count + 1))
done
[ "$count" = "$(find "$made" -name '*.archive' | wc -l)" ] || { echo "examples/make.py makes another number of archives" >&2; exit 1; }
echo "$count example archives: no difference"
