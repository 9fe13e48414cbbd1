#!/bin/sh
# Decisions on random tables of eight ports, for each arbiter and several densities, against plain nested loops in Rust over arrays of
# bool: prints decisions a second and how many times as fast.
. "$(dirname "$0")/common.sh"
times=${1:-5000000}
build bench_arbiters arbiters
python3 bench/arbiters.py "$times" crates/bench_arbiters/out/bench_arbiters "$work/arbiters"
