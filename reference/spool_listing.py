"""The listing of a spool, from docs/rules/spool-listing.md alone."""
import spool
from refusal import refused


def line(data, number):
    state, octets = spool.record(data, number)
    header = "--" if state == spool.UNUSED else f"{octets[0]:02X}"
    return f"{number} {state} {header}\n"


def listing(data):
    """The whole text: the lines of the records and the last one, or the line of the refusal."""
    states = spool.states(data)
    if refused(states):
        return f"refused {states.number} {states.place}\n"
    taken, waiting, unused = map(states.count, spool.ORDER)
    lines = [line(data, number) for number in range(len(states))]
    return "".join(lines) + f"records {len(states)} taken {taken} waiting {waiting} unused {unused}\n"
