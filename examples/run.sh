#!/bin/sh
# Each example works the guide's line, three by `signalbox serve` and three by the library, and has to print its journal,
# byte for byte: run.sh SIGNALBOX LIBRARY
set -e
signalbox=$(realpath "$1")
library=$(realpath "$2")
cd "$(dirname "$0")"
line=../crates/worked_cases/data/people/json_guide_line
made=$(mktemp -d)
trap 'rm -rf "$made"' EXIT
gcc -Wall -Wextra -O1 -o "$made/c" c/serve.c
rustc -O -o "$made/rust" rust/serve.rs
"$made/c" "$signalbox" $line/valley.plan $line/day.journal | cmp - $line/day.journal
"$made/rust" "$signalbox" $line/valley.plan $line/day.journal | cmp - $line/day.journal
python3 python/serve.py "$signalbox" $line/valley.plan $line/day.journal | cmp - $line/day.journal
echo "three examples print the journal of the guide's line by signalbox serve"
gcc -Wall -Wextra -O1 -I"$library" -o "$made/c_library" c/library.c "$library/libmenglazou.a"
g++ -Wall -Wextra -O1 -I"$library" -x c++ -o "$made/cpp_library" c/library.c -x none "$library/libmenglazou.so"
rustc -O -L"$library" -lstatic=menglazou -o "$made/rust_library" rust/library.rs
"$made/c_library" $line/valley.plan $line/day.journal | cmp - $line/day.journal
LD_LIBRARY_PATH="$library" "$made/cpp_library" $line/valley.plan $line/day.journal | cmp - $line/day.journal
"$made/rust_library" $line/valley.plan $line/day.journal | cmp - $line/day.journal
python3 python/library.py "$library/libmenglazou.so" $line/valley.plan $line/day.journal | cmp - $line/day.journal
echo "four print it by the library, in C, C++, Rust and Python"
