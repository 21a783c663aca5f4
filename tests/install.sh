#!/usr/bin/env bash
# What `make install` puts below a prefix, and that it proves nothing again: here rt is a program that fails. The installed program is
# run, and the example built by what pkg-config says of the installed copy and nothing else. Arguments: the header's version, the compiler
# with its flags, the folder of document 01's printed example.
set -euo pipefail
version=$1 compiler=$2 printed=$3
work=$(mktemp -d)
prefix=$work/installed
trap 'rm -rf "$work"' EXIT
printf '#!/bin/sh\nexit 1\n' > "$work/rt"
chmod +x "$work/rt"
PATH=$work:$PATH MAKEFLAGS='' make -s install PREFIX="$prefix"
PATH=$work:$PATH MAKEFLAGS='' make -s install PREFIX=/usr DESTDIR="$work/package"

# For a package the same files, and a pkg-config file that says where they will be.
diff <(cd "$prefix" && find . | sort) <(cd "$work/package/usr" && find . | sort)
grep -qx 'prefix=/usr' "$work/package/usr/lib/pkgconfig/sandegmur.pc"

"$prefix/bin/sandegmur" < "$printed/archive" | cmp - "$printed/program"
cmp docs/sandegmur.1 "$prefix/share/man/man1/sandegmur.1"
for page in FORMAT.md RULES.md; do
  cmp "docs/$page" "$prefix/share/doc/sandegmur/$page"
done
for example in examples/*.*; do
  cmp "$example" "$prefix/share/doc/sandegmur/$example"
done

export PKG_CONFIG_PATH=$prefix/lib/pkgconfig
found=$(pkg-config --modversion sandegmur)
[ "$found" = "$version" ] || { echo "pkg-config has version $found, the header $version" >&2; exit 1; }
# Compiler and flags are words of a command.
# shellcheck disable=SC2046,SC2086
$compiler examples/host.c $(pkg-config --cflags --libs sandegmur) -Wl,-rpath,"$prefix/lib" -o "$work/shared"
grep -qF "$prefix/lib/libsandegmur.so.${version%.*}" <<< "$(ldd "$work/shared")"
"$work/shared" | cmp - "$printed/host"
# shellcheck disable=SC2046,SC2086
$compiler -static examples/host.c $(pkg-config --static --cflags --libs sandegmur) -o "$work/static"
"$work/static" | cmp - "$printed/host"
echo "installed: program, man page and pages; pkg-config builds the example, shared and static, version $version"
