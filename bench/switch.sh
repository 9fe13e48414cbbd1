#!/bin/sh
# A switch of eight ports in memory, a cell at each input in each slot, against a plain Rust switch with a VecDeque for each queue: prints
# the ratio of the times.
. "$(dirname "$0")/common.sh"
slots=${1:-2000000}
build bench_switch switch
python3 bench/ratio.py "switch, $slots slots" - 3 -- crates/bench_switch/out/bench_switch "$slots" -- "$work/switch" "$slots"
