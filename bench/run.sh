#!/bin/sh
# Builds the static library, and the benchmark into target/, and runs it. Needs rt and rustc on the path.
set -eu
cd "$(dirname "$0")/.."

crate=crates/bench_calls
library=$crate/out/libbench_calls.a
program=target/bench/vurkesh_bench
mkdir -p target/bench

if [ ! -f "$library" ] || [ -n "$(find crates crates.txt -name out -prune -o -type f -newer "$library" -print | head -n 1)" ]; then
    echo "bench: proving and building the library (a few minutes the first time)" >&2
    if ! (cd "$crate" && rt lib) < /dev/null > target/bench/library.log 2>&1; then
        tail -n 20 target/bench/library.log >&2
        echo "bench: the library was not built; target/bench/library.log has the whole report" >&2
        exit 1
    fi
    touch "$library"
fi
rustc --edition 2024 -O bench/main.rs -o "$program" -L native="$crate/out" -l static=bench_calls
exec "$program"
