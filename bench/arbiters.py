#!/usr/bin/env python3
"""Times two programs that decide on the same random tables, one run of each, and prints decisions a second and the ratio.

usage: arbiters.py DECISIONS OURS PLAIN
Both take the arbiter, the number of random words that make a table, the number of decisions, and dense or sparse; both must write
the same sum.
"""
import subprocess, sys, time

times, ours, plain = int(sys.argv[1]), sys.argv[2], sys.argv[3]
densities = (('1/8', '3', 'sparse'), ('1/4', '2', 'sparse'), ('1/2', '1', 'sparse'), ('3/4', '2', 'dense'), ('7/8', '3', 'dense'))


def run(program, arbiter, words, kind):
    start = time.perf_counter()
    out = subprocess.run([program, arbiter, words, str(times), kind], stdout=subprocess.PIPE, check=True).stdout
    return time.perf_counter() - start, out


for arbiter in ('diagonal', 'ripple', 'reservation'):
    for density, words, kind in densities:
        fast, ours_wrote = run(ours, arbiter, words, kind)
        slow, plain_wrote = run(plain, arbiter, words, kind)
        if ours_wrote != plain_wrote:
            sys.exit(f'{arbiter}, density {density}: the two programs wrote different sums')
        print(f'{arbiter}, density {density}: ours {times / fast / 1e6:.1f} million a second, '
              f'plain Rust {times / slow / 1e6:.1f} million a second, {slow / fast:.1f} times as fast')
