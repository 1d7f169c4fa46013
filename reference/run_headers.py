#!/usr/bin/env python3
"""Runs the program headers on recordings that are too long to store, and compares what it writes with the reference.

    python3 reference/run_headers.py PROGRAM        exit 1 where it differs
"""
import random
import sys

import header_code
import header_listing
from runs import Runs

# Around a half, one and two buffers of the program, which have 8,192 octets, and one recording of some megabytes, whose listing is
# far longer than the memory of a run.
LENGTHS = [0, 1, 2, 4095, 4096, 4097, 8191, 8192, 8193, 16383, 16384, 16385, 3_000_000]


def recording(length):
    """Headers in sequence, some with bits turned, and some octets at random. The same at each run."""
    source = random.Random(length)
    octets = bytearray()
    for n in range(length):
        header = header_code.seal(source.randrange(2), n % 8)
        turned = source.choice([0, 0, 0, 1 << source.randrange(8), source.randrange(256)])
        octets.append(header ^ turned)
    return bytes(octets)


def main():
    runs = Runs(sys.argv[1], header_listing.listing)
    for length in LENGTHS:
        runs.at_once(f"{length} octets", recording(length))
    runs.in_pieces("a slow pipe", recording(100))
    runs.failing_streams()
    return runs.report()


if __name__ == "__main__":
    sys.exit(main())
