"""The header code, from docs/rules/header-code.md alone. Bits are lists, the most significant first."""
import functools

from refusal import Refusal

CORRECTION, DETECTION = "correction", "detection"

REFUSED = Refusal(6, "header code")


def to_bits(number, width):
    return [number >> (width - 1 - i) & 1 for i in range(width)]


def to_number(bits):
    return int("".join(map(str, bits)), 2)


def remainder(dividend, divisor):
    """Long division of polynomials modulo 2: what is left, one coefficient shorter than the divisor."""
    left = list(dividend)
    for i in range(len(left) - len(divisor) + 1):
        if left[i]:
            for j, coefficient in enumerate(divisor):
                left[i + j] ^= coefficient
    return left[len(left) - len(divisor) + 1:]


def crc(leading):
    """Four bits times x^3, divided by x^3 + x + 1."""
    return remainder(leading + [0, 0, 0], [1, 0, 1, 1])


@functools.cache
def seal(csi, count):
    """The header octet, or the refusal."""
    if csi > 1 or count > 7:
        return REFUSED
    leading = [csi] + to_bits(count, 3)
    seven = leading + crc(leading)
    return to_number(seven + [sum(seven) % 2])


def syndrome(octet):
    bits = to_bits(octet, 8)
    return [a ^ b for a, b in zip(crc(bits[:4]), bits[4:7])]


def named_bit(wanted):
    """The one bit which alone in an octet has the syndrome that is wanted."""
    found = [1 << i for i in range(8) if syndrome(1 << i) == wanted]
    assert len(found) == 1, wanted
    return found[0]


def fields(octet):
    bits = to_bits(octet, 8)
    return bits[0], to_number(bits[1:4])


@functools.cache
def read(mode, octet):
    """CSI, count, validity and the mode that follows."""
    violation = sum(to_bits(octet, 8)) % 2 == 1
    if syndrome(octet) == [0, 0, 0] and not violation:
        return *fields(octet), True, CORRECTION
    if mode == CORRECTION and violation:
        return *fields(octet ^ named_bit(syndrome(octet))), True, DETECTION
    return *fields(octet), False, DETECTION
