#!/bin/sh
# `slots` on 50 MB of traffic at eight ports, for both arbiters, against a plain Rust program that plays the same: prints the ratios of
# the times.
. "$(dirname "$0")/common.sh"
build slots slots
for arbiter in '1 diagonal' '2 ripple'; do
    python3 bench/recording.py 50000000 "${arbiter%% *}" > "$work/recording"
    python3 bench/ratio.py "slots, 50 MB, ${arbiter#* }" "$work/recording" 5 -- crates/slots/out/slots -- "$work/slots"
done
