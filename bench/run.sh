#!/bin/sh
# run.sh NAME: proves and builds the static library crates/bench_kernel, builds the program of bench/NAME beside it, and prints
# the times of one run and their ratios.
set -e
cd "$(dirname "$0")/.."
name=$1
mkdir -p "bench/$name/out"
log="$PWD/bench/$name/out/prove.log"
python3 tools/prove.py bench_kernel >"$log" 2>&1 || { cat "$log"; exit 1; }
BENCH_LIBRARIES="$PWD/crates/bench_kernel/out:$(dirname "$(rt doc)")/c"
export BENCH_LIBRARIES
# The C library keeps the memory that it is given back, so that no run measures the pages that the system hands out anew.
export MALLOC_MMAP_THRESHOLD_=1000000000 MALLOC_TRIM_THRESHOLD_=1000000000
cd "bench/$name"
CARGO_TARGET_DIR=out/target cargo run --release --quiet
