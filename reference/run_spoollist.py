#!/usr/bin/env python3
"""Runs the program spoollist on spools and on bytes that are none, and compares what it writes with the reference.

    python3 reference/run_spoollist.py PROGRAM        exit 1 where it differs
"""
import itertools
import os
import subprocess
import sys
import tempfile

import spool
import spool_listing
from carriage_cases import sample
from runs import Runs

MOST_RECORDS = 1_310

# Every length up to three records, and those about the longest spool.
LENGTHS = [*range(151), 65_450, 65_500, 65_501, 65_550, 1_000_000]

# The values that one byte of a mark is changed to, where not to all.
SOME = [0x00, 0x01, 0x02, 0xA1, 0xFF]

ALL_STATES = (spool.TAKEN, spool.WAITING, spool.UNUSED)


def spool_of(states):
    """The bytes of records in these states, in any order."""
    return b"".join(spool.MARKS[state] + sample(number) for number, state in enumerate(states))


def large(records):
    """A spool of so many records, about a third in each state."""
    return spool_of([ALL_STATES[3 * number // records] for number in range(records)])


def lengths(runs):
    """Zero bytes of each length; and as many bytes of a spool, which is the longest one at 65,500."""
    for length in LENGTHS:
        content = large(3 if length <= 150 else MOST_RECORDS)
        runs.at_once(f"{length} zero bytes", bytes(length))
        runs.at_once(f"{length} bytes of spools", (content * (length // len(content) + 1))[:length])


def damaged(runs, states, values):
    """A spool of these records, with each byte of each mark changed to each of the values."""
    octets = spool_of(states)
    places = [spool.RECORD * number + byte for number in range(len(states)) for byte in range(spool.MARK)]
    for place, value in itertools.product(places, values):
        changed = octets[:place] + bytes([value]) + octets[place + 1:]
        runs.at_once(f"{' '.join(states)}, byte {place} changed to {value}", changed)


def orders(runs):
    """The three marks in every order, in up to 4 records."""
    for records in range(1, 5):
        for states in itertools.product(ALL_STATES, repeat=records):
            runs.at_once(" ".join(states), spool_of(states))


def no_more_read(runs):
    """Of a file that is too long no more than 65,501 bytes are read."""
    with tempfile.TemporaryFile() as file:
        file.write(bytes(1_000_000))
        file.seek(0)
        run = subprocess.run([runs.program], stdin=file, capture_output=True)
        read = os.lseek(file.fileno(), 0, os.SEEK_CUR)
    runs.note(run.returncode == 0 and run.stdout == b"refused 7 0\n" and read <= 65_501, f"{read} bytes of a long file are read")


def main():
    runs = Runs(sys.argv[1], spool_listing.listing)
    lengths(runs)
    for states in itertools.combinations_with_replacement(ALL_STATES, 3):
        damaged(runs, states, range(256) if states == ALL_STATES else SOME)
    orders(runs)
    no_more_read(runs)
    runs.in_pieces("a slow pipe", large(5))
    runs.failing_streams()
    return runs.report()


if __name__ == "__main__":
    sys.exit(main())
