#!/usr/bin/env python3
"""Makes every expected output again and compares it with the one that is stored.

    python3 reference/check.py            compare; exit 1 where a stored output differs
    python3 reference/check.py --write    store what the reference computes
"""
import pathlib
import sys

import carriage_cases
import cases
import header_code
import header_listing
import ring_cases
import spool
import spool_listing
from carriage import LOST, Queue, arrivals
from line import Line, fates_ahead
from ring import Ring

ROOT = pathlib.Path(__file__).resolve().parent.parent
CRATES = ROOT / "crates"

# The sixteen headers as docs/rules/header-code.md lists them.
HEADERS = [
    bytes.fromhex("00 17 2D 3A 4E 59 63 74"),
    bytes.fromhex("8B 9C A6 B1 C5 D2 E8 FF"),
]

# The example of docs/rules/spool-listing.md.
SPOOL_LISTING = """\
0 taken 8B
1 waiting 17
2 waiting 07
3 unused --
4 unused --
records 5 taken 1 waiting 2 unused 2
"""


def outputs():
    """Each output that a program has to write, with its text."""
    return {
        CRATES / "headers/stdout": header_listing.listing((CRATES / "headers/stdin").read_bytes()),
        CRATES / "header_cases/stdout": cases.header_cases(),
        CRATES / "spoollist/stdout": spool_listing.listing((CRATES / "spoollist/stdin").read_bytes()),
        CRATES / "ring_cases/stdout": ring_cases.ring_cases(),
        CRATES / "carriage_cases/stdout": carriage_cases.carriage_cases(),
    }


def check_headers():
    """The examples of header-code.md and header-listing.md."""
    for csi, row in enumerate(HEADERS):
        assert [header_code.seal(csi, count) for count in range(8)] == list(row), csi
    assert header_code.read("correction", 0x07) == (0, 1, True, "detection")
    assert header_code.read("detection", 0x07) == (0, 0, False, "detection")
    assert header_code.read("correction", 0x0F) == (0, 0, False, "detection")
    assert header_code.read("detection", 0x0F) == (0, 0, False, "detection")
    assert header_code.read("correction", 0x01) == (0, 0, True, "detection")
    assert header_listing.listing(b"\x07").startswith("07 0 1 valid detection\n")
    assert header_listing.listing(b"") == "read 0 corrected 0 invalid 0\n"


def check_ring():
    """The example of ring.md."""
    ring = Ring(["a", "b", "c"])
    assert ring.push(1) is None and ring.push(2) is None and ring.slots == [1, 2, "c"]
    assert ring.pop() == 1 and ring.slots == [1, 2, "c"]
    assert ring.push(3) is None and ring.push(4) is None and ring.slots == [4, 2, 3]
    assert ring.push(5) == (3, "ring", 0) and ring.slots == [4, 2, 3]


def check_line(own, below):
    """A line over a line: each cell that is put meets the first of the fates ahead, and uses it up."""
    line = Line(Line(Queue([None] * 8), below), own)
    ahead, expected = fates_ahead(own, below), []
    for cell in map(carriage_cases.sample, range(8)):
        assert line.fates() == ahead, (own, below)
        expected += arrivals(ahead[0] if ahead else 0, cell)
        assert line.put(cell) is None
        ahead = ahead[1:]
    assert line.below.below.ring.entries == expected, (own, below)


def check_lines():
    """The example of line.md; and that its table and the calls of a line say the same, for plans of up to three fates."""
    assert fates_ahead([1, 256, 2], [256, 4, 8]) == [256, 256, 6, 8]
    plans = list(carriage_cases.lists([0, 5, LOST], 3))
    for own in plans:
        for below in plans:
            check_line(own, below)


def check_spools():
    """The examples of spool-listing.md."""
    states = [spool.TAKEN, spool.WAITING, spool.WAITING, spool.UNUSED, spool.UNUSED]
    records = [spool.MARKS[state] + bytes([header] * 48) for state, header in zip(states, bytes.fromhex("8B 17 07 FF FF"))]
    assert spool_listing.listing(b"".join(records)) == SPOOL_LISTING
    assert spool_listing.listing(b"".join(records[:3] + records[:1])) == "refused 8 3\n"
    assert spool_listing.listing(b"") == "refused 7 0\n"


def check_self():
    """The reference against the examples of the rules."""
    check_headers()
    check_ring()
    check_lines()
    check_spools()


def first_difference(stored, made):
    for n, (a, b) in enumerate(zip(stored.split("\n"), made.split("\n")), 1):
        if a != b:
            return f"line {n}: stored {a!r}, computed {b!r}"
    return "the end: one is longer than the other"


def compare(path, made):
    """What is wrong with a stored output, or None."""
    if not path.is_file():
        return "is not stored"
    if path.read_text() != made:
        return f"differs at {first_difference(path.read_text(), made)}"
    return None


def main():
    check_self()
    expected = outputs()
    if "--write" in sys.argv[1:]:
        for path, made in expected.items():
            path.write_text(made)
            print(f"reference: wrote {path.relative_to(ROOT)}")
        return 0
    wrong = {path: compare(path, made) for path, made in expected.items()}
    wrong.update({path: "is stored, but the reference does not compute it" for path in CRATES.glob("*/stdout") if path not in expected})
    for path, what in wrong.items():
        print(f"reference: {path.relative_to(ROOT)} {what or 'is as computed'}")
    return 1 if any(wrong.values()) else 0


if __name__ == "__main__":
    sys.exit(main())
