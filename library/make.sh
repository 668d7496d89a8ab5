#!/bin/sh
# Leaves libmenglazou.a, libmenglazou.so and menglazou.h in out/: make.sh
set -e
cd "$(dirname "$0")/.."
kit=$(dirname "$(rt doc)")
(cd crates/line_c && rt lib)
mkdir -p out
made=$(mktemp -d)
trap 'rm -rf "$made"' EXIT
gcc -Wall -Wextra -O2 -fPIC -c -o "$made/door.o" library/menglazou.c
# One object with all that the door needs, whose only names are those of the header.
ld -r -o "$made/menglazou.o" "$made/door.o" --start-group crates/line_c/out/libline_c.a "$kit/c/liblibc_c.a" --end-group
objcopy --wildcard --keep-global-symbol='menglazou_*' "$made/menglazou.o"
rm -f out/libmenglazou.a
ar rcs out/libmenglazou.a "$made/menglazou.o"
gcc -shared -Wl,-z,defs -o out/libmenglazou.so "$made/menglazou.o"
cp library/menglazou.h out/
ls -l out/libmenglazou.a out/libmenglazou.so out/menglazou.h
