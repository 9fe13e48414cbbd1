#!/usr/bin/env python3
"""Writes a recording of heavy traffic at 8 ports to standard output: recording.py BYTES ARBITER-CODE"""
import random, sys

size, code = int(sys.argv[1]), int(sys.argv[2])
random.seed(53)
write = sys.stdout.write
written = write(f'0008{code:02X}0000000700000001\n')
circuits = []
for i in range(8):
    for k in range(32):
        vci = random.randrange(65536)
        circuits.append((i, vci))
        written += write(f'01{i:02X}{vci:04X}{random.randrange(8):02X}{random.randrange(65536):04X}\n')
payload = [''.join(f'{random.randrange(256):02X}' for _ in range(48)) for _ in range(64)]
while written < size:
    for i in range(8):
        vci = circuits[32 * i + random.randrange(32)][1]
        header = random.randrange(16) << 28 | random.randrange(256) << 20 | vci << 4 | random.randrange(16)
        written += write(f'02{i:02X}{header:08X}00{payload[random.randrange(64)]}\n')
    written += write('03\n')
