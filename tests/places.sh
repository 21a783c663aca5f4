#!/bin/sh
# tests/places.sh CHECKOUT FOLDER: the library of a checkout that has been built, as shared objects 0.so to 7.so of FOLDER with its code
# 16 bytes further on from one to the next, and its program: what `make bench` and `make count` take.
set -eu
mkdir -p "$2"
for place in 0 1 2 3 4 5 6 7; do
    printf '.text\n.balign 128\n.skip %d\n.section .note.GNU-stack,"",@progbits\n' $((16 * place + 16)) |
        cc -c -x assembler - -o "$2/skip.o"
    cc -shared -nostartfiles -Wl,-z,defs,-z,now "$2/skip.o" -Wl,--whole-archive "$1/target/lib/libsandegmur.a" \
        -Wl,--no-whole-archive -o "$2/$place.so"
done
rm "$2/skip.o"
cp "$1/target/sandegmur" "$2/program"
