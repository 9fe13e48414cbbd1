#!/bin/sh
# Finding routes, 32 at each of 8 inputs, against a plain Rust loop over the same array: prints the ratio of the times.
. "$(dirname "$0")/common.sh"
build bench_routes routes
python3 bench/ratio.py 'routes, 50 million found' - 5 -- crates/bench_routes/out/bench_routes 50000000 -- "$work/routes" 50000000
