"""The ring buffer, from docs/rules/ring.md alone."""
from refusal import Refusal

FULL, EMPTY = Refusal(3, "ring"), Refusal(4, "ring")


class Ring:
    """The entries as a list, the oldest first; beside them the slots, and how many pushes there were."""

    def __init__(self, slots):
        self.slots, self.entries, self.pushes = slots, [], 0

    def len(self):
        return len(self.entries)

    def free(self):
        return len(self.slots) - len(self.entries)

    def push(self, entry):
        if self.free() == 0:
            return FULL
        self.slots[self.pushes % len(self.slots)] = entry
        self.pushes += 1
        self.entries.append(entry)
        return None

    def pop(self):
        return self.entries.pop(0) if self.entries else EMPTY

    def first(self):
        return self.entries[0] if self.entries else EMPTY
