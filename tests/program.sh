#!/usr/bin/env bash
# The program against the outside program's output: figures a to k, then generated inputs. Arguments: the program, the folder of the
# outside program's executables, how many inputs.
set -euo pipefail
program=$1 outside=$2 count=$3
python3 "$(dirname "$0")/figures.py" "$program"
inputs=$(mktemp -d)
trap 'rm -rf "$inputs"' EXIT
"$outside/emit" "$inputs" 7 "$count"
for input in "$inputs"/*.bin; do
  "$program" < "$input" | cmp - "${input%.bin}.out" || { echo "differs: $input" >&2; od -A d -t x1 "$input" >&2; exit 1; }
done
echo "$count inputs of the program: no difference"
