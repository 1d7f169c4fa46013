"""Every case of the ring, in the form in which the program ring_cases writes them."""
import itertools

from refusal import refused
from ring import Ring

PUSH, POP = True, False

OCTETS = ["1", "2", "3", "4", "5", "6", "7"]
ITEMS = ["1+", "2-", "3+", "4+", "5-"]


def scripts(calls):
    """All lists of so many choices. The first call changes fastest."""
    return [script[::-1] for script in itertools.product((False, True), repeat=calls)]


def done(answer):
    return answer if refused(answer) else "ok"


def state(ring):
    return f" first {ring.first()} len {ring.len()} free {ring.free()};"


def case(kind, slots, entries, script):
    ring = Ring(slots)
    text = f"{kind}, {len(slots)} slots:{state(ring)}"
    for call, entry in zip(script, entries):
        text += f" push {entry} {done(ring.push(entry))}" if call == PUSH else f" pop {ring.pop()}"
        text += state(ring)
    return " ".join([text, "slots"] + ring.slots) + "\n"


def ring_cases():
    kinds = [("octets", ["101", "102", "103", "104"], OCTETS), ("items", ["101-", "102-", "103-", "104-"], ITEMS)]
    return "".join(
        case(kind, slots[:count], entries, script)
        for kind, slots, entries in kinds
        for count in range(5)
        for script in scripts(len(entries))
    )
