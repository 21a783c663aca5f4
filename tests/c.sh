#!/usr/bin/env bash
# The library from C and C++: the examples and tests/host.c by every compiler there is, plain and with the sanitizers where the compiler
# can link them, then under valgrind; the stack; a host with its own settle; what the shared library gives; the pkg-config file where it
# lies. Arguments: the folder of libraries and header, the compiler flags, the folder of the texts that the examples must print.
set -euo pipefail
lib=$1 flags=$2 printed=$3
sanitizers="-fsanitize=address,undefined -fno-sanitize-recover=all"
sources="examples/host.c examples/dated.c examples/takeback.c examples/correction.c examples/preview.c examples/settle.c tests/host.c"
long=$lib/long.archive

# Compiler, language, its standard, name of the build, further flags.
build_and_run() {
  # Flags are words of a command.
  # shellcheck disable=SC2086
  for source in $sources; do
    built=$lib/$(basename $source .c)-$(dirname $source)-$4
    "$1" ${flags/-std=c99/$3} -g $5 -I"$lib" -x "$2" $source -x none "$lib/libsandegmur.a" -o "$built"
  done
  "$lib/host-examples-$4" | cmp - "$printed/host"
  "$lib/dated-examples-$4" | cmp - "$printed/dated"
  "$lib/takeback-examples-$4" | cmp - "$printed/takeback"
  "$lib/correction-examples-$4" | cmp - "$printed/correction"
  "$lib/preview-examples-$4" | cmp - "$printed/preview"
  "$lib/host-tests-$4"
  for archive in $(find examples -name '*.archive' -size -65537c); do
    "$lib/settle-examples-$4" "$archive" | cmp - "${archive%.archive}.expected"
  done
  "$lib/settle-examples-$4" "$long" | cmp - "$long.expected"
}

# An archive that is too long for the program, with the lines that its rule gives.
python3 tests/long.py "$long" > "$long.expected"

for compiler in gcc clang g++; do
  command -v $compiler > /dev/null || { echo "no $compiler here, not tried"; continue; }
  case $compiler in g++) language=c++ standard=-std=c++11 ;; *) language=c standard=-std=c99 ;; esac
  build_and_run $compiler $language $standard $compiler ""
  # shellcheck disable=SC2086
  if $compiler $sanitizers -x $language - -o "$lib/sanitized" <<< 'int main(void) { return 0; }' 2> /dev/null && "$lib/sanitized"; then
    build_and_run $compiler $language $standard $compiler-sanitized "$sanitizers"
  else
    echo "$compiler links no sanitizers here, not tried"
  fi
done
if command -v valgrind > /dev/null; then
  valgrind -q --error-exitcode=1 --leak-check=full "$lib/host-tests-gcc"
else
  echo "no valgrind here, not tried"
fi

# shellcheck disable=SC2086
gcc $flags -I"$lib" tests/stack.c "$lib/libsandegmur.a" -o "$lib/stack"
"$lib/stack"

# shellcheck disable=SC2086
gcc $flags -I"$lib" tests/own_settle.c "$lib/libsandegmur.a" -o "$lib/own-settle"
"$lib/own-settle"
# shellcheck disable=SC2086
gcc $flags -I"$lib" tests/own_settle.c -L"$lib" -lsandegmur -o "$lib/own-settle-shared"
LD_LIBRARY_PATH=$lib "$lib/own-settle-shared"
echo "a host's own settle: static and shared"

# The shared library gives the calls that the header declares, and nothing else.
diff <(sed -n 's/^uint[0-9]*_t \([a-z_]*\)(.*/\1/p' "$lib/sandegmur.h" | sort) \
  <(nm -D --defined-only "$lib/libsandegmur.so" | sed 's/.* //' | sort)

# examples/settle.c on the longest archive and on one byte more, and its status where it can't read or write.
settle=$lib/settle-examples-gcc
truncate -s 2097120 "$long"
"$settle" "$long" | cmp - "$long.expected"
truncate -s 2097121 "$long"
"$settle" "$long" | cmp - <(echo "E 0 0 1")
ends_with() {
  local expected=$1 status=0
  shift
  "$@" > /dev/full 2> "$lib/said" || status=$?
  if [ "$status" != "$expected" ] || [ ! -s "$lib/said" ]; then
    echo "status $status, not $expected, or nothing said: $*" >&2
    exit 1
  fi
}
ends_with 1 "$settle" examples/wind.archive
ends_with 1 "$settle" examples
ends_with 1 "$settle" "$lib/no.archive"
ends_with 2 "$settle"

# The example by pkg-config, from where its file lies and from a folder with another name.
moved=$(mktemp -d)
trap 'rm -rf "$moved"' EXIT
cp -P "$lib"/sandegmur.h "$lib"/sandegmur.pc "$lib"/libsandegmur.* "$moved"
for folder in "$lib" "$moved"; do
  export PKG_CONFIG_PATH=$folder
  # shellcheck disable=SC2046,SC2086
  gcc $flags examples/host.c $(pkg-config --cflags --libs sandegmur) -o "$folder/host-shared"
  grep -q 'NEEDED.*libsandegmur\.so\.' <<< "$(readelf -d "$folder/host-shared")"
  LD_LIBRARY_PATH=$(pkg-config --variable=libdir sandegmur) "$folder/host-shared" | cmp - "$printed/host"
  # shellcheck disable=SC2046,SC2086
  gcc $flags -static examples/host.c $(pkg-config --static --cflags --libs sandegmur) -o "$folder/host-static"
  "$folder/host-static" | cmp - "$printed/host"
done
echo "pkg-config where its file lies: shared and static"
