#!/usr/bin/env bash
# Programs that read or write wrongly, each of which tests/streams.py has to refuse, at the check that is meant for it. Arguments: the
# outside program, the program.
set -euo pipefail
outside=$1 program=$(realpath "$2")
tests=$(dirname "$0")
input=$(mktemp)
trap 'rm -f "$input"' EXIT
count=0

# What the refusal says, then the words of the wrong program.
refused() {
  local says=$1 said
  shift
  if said=$("$tests/streams.py" "$outside" "$@" 2>&1); then
    echo "not refused: $*" >&2
    exit 1
  fi
  grep -qF "$says" <<< "$said" || { echo "refused for another reason: $*: $said" >&2; exit 1; }
  count=$((count + 1))
}

refused "65,536 bytes: 65536 bytes of output" sh -c "'$program' | head -c 65536"
refused "65,536 bytes and 1 more" sh -c "head -c 65536 | '$program'"
refused "65,536 bytes: 8 bytes of output" sh -c "head -c 32768 | '$program'"
refused "65,536 bytes: " sh -c "'$program' | awk 'NR == 1 { print > \"/dev/stderr\"; next } { print }'"
refused "no byte: 0 bytes of output" sh -c "'$program' | awk '/^E 0/ { print > \"/dev/stderr\"; next } { print }'"
refused "in parts: the input is not read to its end" python3 -c "
import os, subprocess, sys
sys.exit(subprocess.run(['$program'], input=os.read(0, 65537)).returncode)"
refused "on standard error b'read" sh -c "'$program'; echo read >&2"
refused "65,536 bytes: status 1" sh -c "'$program'; exit 1"
refused "closed input" sh -c "[ -e /dev/fd/0 ] && exec '$program'"
refused "directory" sh -c "if [ -d /dev/fd/0 ]; then echo E >&2; fi; exec '$program'"
refused "read that fails behind an archive of 3,200 bytes: " sh -c "if cat > '$input' 2> /dev/null; then '$program' < '$input'; else
  '$program' < /dev/null; echo 'sandegmur: the input could not be read' >&2; exit 1; fi"
refused "read that fails behind an archive of 65,536 bytes: " sh -c "if cat > '$input' 2> /dev/null || [ \$(stat -c %s '$input') = 65536 ]; then
  '$program' < '$input'; else '$program' < '$input'; echo 'sandegmur: the input could not be read' >&2; exit 1; fi"
refused "reader gone, SIGPIPE by default" env --ignore-signal=PIPE "$program"
refused "reader gone, SIGPIPE ignored" env --default-signal=PIPE "$program"
refused "limited file: " env --default-signal=XFSZ "$program"
refused "full device: " sh -c "if [ -c /dev/fd/1 ]; then '$program'; exit 0; fi; exec '$program'"
refused "full device: " sh -c "if [ -c /dev/fd/1 ]; then '$program' 2> /dev/null; exit 1; fi; exec '$program'"
echo "streams: $count wrong programs refused"
