#!/usr/bin/env bash
# The man page: without a fault, and with the header's text for each refusal that the program can print. Argument: the page.
set -euo pipefail
page=$1
if command -v mandoc > /dev/null; then
  mandoc -T lint -W style "$page"
else
  echo "man page: no mandoc here, not tried"
fi
# 4 and 5 are not printed, 13 cannot occur, and 14 to 17 are other calls'.
diff <(sed -n '/^\.Ss Refusals/,/^\.El/p' "$page" | sed -n 's/^\.It \([0-9]*\)$/\1/; T; N; s/\n/ /; p') - << TEXTS
$(awk '
  /^    SANDEGMUR_[A-Z_]* = / { number[$1] = $3 + 0 }
  /default:/ { exit }
  /case SANDEGMUR_/ { name = $2; sub(/:/, "", name) }
  /return "/ { match($0, /".*"/); print number[name], substr($0, RSTART + 1, RLENGTH - 2) }' include/sandegmur.h |
  grep -E '^([1236789]|10|11|12|18) ')
TEXTS
echo "man page: the refusals are the header's"
