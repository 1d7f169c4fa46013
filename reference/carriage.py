"""Fates, the queue and the link, from docs/rules/carriage.md and own-carriage.md alone. A cell is 48 octets, as bytes.

Every carriage has the calls put, look, drop_first, room and waiting, and its fates ahead as a list of numbers.
"""
from refusal import Refusal, refused
from ring import Ring

LOST = 256


def turn(cell, mask):
    return bytes([cell[0] ^ mask]) + cell[1:]


def arrivals(fate, cell):
    """What arrives of a cell: a list of one cell or of none."""
    return [] if fate == LOST else [turn(cell, fate)]


class Queue:
    """A ring of cells. It has no fates."""

    def __init__(self, slots):
        self.ring = Ring(slots)

    def put(self, cell):
        return self.ring.push(cell)

    def look(self):
        return self.ring.first()

    def drop_first(self):
        answer = self.ring.pop()
        return answer if refused(answer) else None

    def room(self):
        return self.ring.free()

    def waiting(self):
        return self.ring.len()

    def fates(self):
        return []


class Link:
    """A carriage of somebody else: it loses its first cells, and then holds one cell at a time."""

    FULL, EMPTY = Refusal(3, "carriage"), Refusal(4, "carriage")

    def __init__(self, losses):
        self.losses, self.held = losses, []

    def put(self, cell):
        if self.room() == 0:
            return self.FULL
        fate, *_ = self.fates() + [0]
        self.losses -= fate == LOST
        self.held += arrivals(fate, cell)
        return None

    def look(self):
        return self.held[0] if self.held else self.EMPTY

    def drop_first(self):
        if not self.held:
            return self.EMPTY
        self.held = []
        return None

    def room(self):
        return 1 - len(self.held)

    def waiting(self):
        return len(self.held)

    def fates(self):
        return [LOST] * self.losses
