#!/bin/sh
# `frames` on 50 MB of traffic against a plain Rust program that lists the same: prints the ratio of the times.
. "$(dirname "$0")/common.sh"
build frames frames
python3 bench/recording.py 50000000 1 > "$work/recording"
python3 bench/ratio.py 'frames, 50 MB' "$work/recording" 5 -- crates/frames/out/frames -- "$work/frames"
