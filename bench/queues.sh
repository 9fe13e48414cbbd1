#!/bin/sh
# Joins and takes of queue memory against a plain Rust VecDeque for each queue: prints the ratio of the times.
. "$(dirname "$0")/common.sh"
calls=${1:-100000000}
build bench_queues queues
python3 bench/ratio.py "queues, $calls joins and takes" - 3 -- crates/bench_queues/out/bench_queues "$calls" -- "$work/queues" "$calls"
