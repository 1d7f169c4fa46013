"""The spool, from docs/rules/spool.md alone."""
from refusal import Refusal, refused

RECORD, MARK, LONGEST = 50, 2, 65_500
TAKEN, WAITING, UNUSED = "taken", "waiting", "unused"
MARKS = {TAKEN: b"\xA1\x02", WAITING: b"\xA1\x01", UNUSED: b"\x00\x00"}
ORDER = list(MARKS)
STATES = {mark: state for state, mark in MARKS.items()}

LENGTH = Refusal(7, "spool")


def record(data, number):
    """The state of a record, None where the mark is another, and its 48 octets."""
    octets = bytes(data[RECORD * number:RECORD * (number + 1)])
    return STATES.get(octets[:MARK]), octets[MARK:]


def states(data):
    """The state of each record, or the refusal."""
    if len(data) == 0 or len(data) % RECORD != 0 or len(data) > LONGEST:
        return LENGTH
    found = []
    for number in range(len(data) // RECORD):
        state, _ = record(data, number)
        if state is None or any(ORDER.index(state) < ORDER.index(before) for before in set(found)):
            return Refusal(8, "spool", number)
        found.append(state)
    return found


class Spool:
    """A carriage over a bytearray. It keeps nothing else but whether it is open."""

    FULL, EMPTY = Refusal(3, "spool"), Refusal(4, "spool")

    def __init__(self, data):
        self.data, self.opened = data, False

    def open(self):
        found = states(self.data)
        if refused(found):
            return found
        self.opened = True
        return None

    def places(self, state):
        """The bytes at which the records of a state begin; none if the spool is not open."""
        if not self.opened:
            return []
        return [RECORD * number for number, found in enumerate(states(self.data)) if found == state]

    def mark(self, start, state):
        self.data[start:start + MARK] = MARKS[state]

    def put(self, cell):
        if self.room() == 0:
            return self.FULL
        start = self.places(UNUSED)[0]
        self.mark(start, WAITING)
        self.data[start + MARK:start + RECORD] = cell
        return None

    def look(self):
        if self.waiting() == 0:
            return self.EMPTY
        start = self.places(WAITING)[0]
        return bytes(self.data[start + MARK:start + RECORD])

    def drop_first(self):
        if self.waiting() == 0:
            return self.EMPTY
        self.mark(self.places(WAITING)[0], TAKEN)
        return None

    def room(self):
        return len(self.places(UNUSED))

    def waiting(self):
        return len(self.places(WAITING))

    def fates(self):
        return []
