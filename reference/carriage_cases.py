"""Cases of the carriages, in the form in which the program carriage_cases writes them."""
import spool
from carriage import LOST, Link, Queue
from line import MOST_FATES, Draft, Line
from refusal import refused
from ring_cases import done, scripts
from spool import Spool

PUT = True


def sample(number):
    """A cell that differs from that of every other number, in its header and in every octet of its payload."""
    return bytes([17 * number % 256] + [(53 * number + place) % 256 for place in range(1, 48)])


def checksum(octets):
    return sum(place * octet for place, octet in enumerate(octets, 1)) % 2**32


def shown(answer):
    """A cell by its header and the checksum of its payload; a refusal as it is."""
    return answer if refused(answer) else f"{answer[0]:02X}:{checksum(answer[1:])}"


def lists(items, most):
    """All lists of up to so many items, each before those that go on from it."""
    yield []
    if most > 0:
        for item in items:
            for rest in lists(items, most - 1):
                yield [item] + rest


# Calls of any carriage.


def state(carriage):
    return f" look {shown(carriage.look())} room {carriage.room()} waiting {carriage.waiting()};"


def put(carriage, number):
    return f" put {number} {done(carriage.put(sample(number)))};"


def drop(carriage):
    return f" drop {done(carriage.drop_first())};"


def take(carriage):
    return f" took {shown(carriage.look())}{drop(carriage)}"


def run(carriage, script):
    text = state(carriage)
    for number, call in enumerate(script, 1):
        text += put(carriage, number) if call == PUT else drop(carriage)
        text += state(carriage)
    return text


# Queues.


def queue_case(count, script):
    slots = [sample(101 + slot) for slot in range(count)]
    text = f"queue of {count}:{run(Queue(slots), script)}"
    return " ".join([text, "slots"] + [shown(cell) for cell in slots]) + "\n"


def queues():
    return [queue_case(count, script) for count in range(4) for script in scripts(5)]


# Spools.

MARKS = {"t": b"\xA1\x02", "w": b"\xA1\x01", "u": b"\x00\x00", "x": b"\xA1\x00"}


def records(letters):
    """The bytes of records with these marks. Unused ones hold octets too."""
    return bytearray().join(MARKS[letter] + sample(201 + number) for number, letter in enumerate(letters))


def left(data):
    """The mark and the header octet of each record, and the checksum of all bytes."""
    each = "".join(f" {data[i:i + 2].hex().upper()}/{data[i + 2]:02X}" for i in range(0, len(data), spool.RECORD))
    return f" bytes{each} sum {checksum(data)};"


def survey(data):
    states = spool.states(data)
    counts = states if refused(states) else " ".join(str(states.count(state)) for state in spool.ORDER)
    return f" survey {counts};"


def record(data, number):
    if spool.RECORD * (number + 1) > len(data):
        return " none"
    state, octets = spool.record(data, number)
    return f" {state or 'unknown'} {shown(octets)}"


def opened(carriage):
    return f" open {done(carriage.open())};"


def before_and_after(data):
    carriage = Spool(data)
    return state(carriage) + put(carriage, 1) + drop(carriage) + opened(carriage) + state(carriage)


def opening_case(letters):
    data = records(letters)
    found = survey(data) + " records" + "".join(record(data, number) for number in range(4)) + ";"
    return f"opening {''.join(letters)}:{found}{before_and_after(data)}{left(data)}\n"


def spool_case(letters, script):
    data = records(letters)
    first, again = Spool(data), Spool(data)
    text = f"spool {''.join(letters)}:{opened(first)}{run(first, script)}{left(data)}"
    return text + opened(again) + state(again) + "\n"


def spools():
    for letters in lists("twux", 3):
        yield opening_case(letters)
        if not refused(spool.states(records(letters))):
            yield from (spool_case(letters, script) for script in scripts(4))
    for length in [1, 49, 51, 99, 100, 65_500, 65_501, 65_550]:
        yield f"length {length}:{before_and_after(bytearray(length))}\n"


# Lines.


def pass_cells(carriage):
    """Puts five cells. Where one is refused, the first that waits is taken, and the cell is put once more. At the end takes all."""
    text = ""
    for number in range(1, 6):
        full = carriage.room() == 0
        text += put(carriage, number)
        if full:
            text += take(carriage) + put(carriage, number)
    while carriage.waiting() > 0:
        text += take(carriage)
    return text + state(carriage)


def name(plan):
    return " ".join(["line"] + [str(fate) for fate in plan]) + " over "


def link_cases(own):
    return [f"{name(own)}link {losses}:{pass_cells(Line(Link(losses), own))}\n" for losses in range(3)]


def pair_cases(own, below):
    lower, upper = name(below), name(own)
    queue = Queue([sample(101)])
    yield f"{upper}{lower}queue:{pass_cells(Line(Line(queue, below), own))}\n"
    data = records("tuuu")
    carriage = Spool(data)
    yield f"{upper}{lower}spool:{opened(carriage)}{pass_cells(Line(Line(carriage, below), own))}{left(data)}\n"


def lines():
    plans = list(lists([0, 5, LOST], 2))
    for own in plans:
        yield from link_cases(own)
        for below in plans:
            yield from pair_cases(own, below)


# Fates and drafts.


def fate_case(number):
    if number > LOST:
        return f"fate {number}: none\n"
    return f"fate {number}: lost {number}\n" if number == LOST else f"fate {number}: turn {number} {number}\n"


def draft_of(written):
    draft = Draft()
    for number in range(1, written + 1):
        assert draft.add(number) is None
    return draft


def met(plan, written):
    """What arrives of two cells more than there are fates."""
    line = Line(Queue([sample(101)] * 66), plan)
    for number in range(written + 2):
        line.put(sample(number))
    text = " arrived"
    while line.waiting() > 0:
        text += f" {shown(line.look())}"
        line.drop_first()
    return text + "\n"


def add_case(written, number):
    draft = draft_of(written)
    return f"draft of {written}: add {number} {done(draft.add(number))};{met(draft.start(), written)}"


def amend_case(written, place, number):
    draft = draft_of(written)
    return f"draft of {written}: amend {place} {number} {done(draft.amend(place, number))};{met(draft.start(), written)}"


def memory_case(capacity):
    return f"memory for {capacity}:{' no draft' + chr(10) if capacity < MOST_FATES else met([], 0)}"


def drafts():
    for number in [0, 5, 255, 256, 257, 65_535]:
        yield fate_case(number)
        yield from (add_case(written, number) for written in [0, 1, 63, 64])
        yield from (amend_case(written, place, number) for written in [0, 1, 2, 64] for place in [0, 1, 63, 64, 2**64 - 1])
    yield from (memory_case(capacity) for capacity in [1, 63, 64, 100])


def carriage_cases():
    return "".join([*queues(), *spools(), *lines(), *drafts()])
