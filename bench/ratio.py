#!/usr/bin/env python3
"""Times two commands that do the same work, in turn, and prints their best times and the ratio.

usage: ratio.py LABEL INPUT TIMES -- OURS.. -- PLAIN..
INPUT is a file for standard input, or '-' for none. Both must write the same bytes.
"""
import subprocess, sys, time


def split(words):
    parts, part = [], []
    for w in words:
        if w == '--':
            parts.append(part)
            part = []
        else:
            part.append(w)
    parts.append(part)
    return parts


(label, path, times), ours, plain = split(sys.argv[1:])


def run(command):
    source = open(path, 'rb') if path != '-' else subprocess.DEVNULL
    start = time.perf_counter()
    out = subprocess.run(command, stdin=source, stdout=subprocess.PIPE, check=True).stdout
    return time.perf_counter() - start, out


best = [float('inf'), float('inf')]
for _ in range(int(times)):
    written = []
    for k, command in enumerate((ours, plain)):
        seconds, out = run(command)
        best[k] = min(best[k], seconds)
        written.append(out)
    if written[0] != written[1]:
        sys.exit(f'{label}: the two programs wrote different bytes')
print(f'{label}: ours {best[0]:.3f} s, plain Rust {best[1]:.3f} s, ratio {best[0] / best[1]:.2f}')
