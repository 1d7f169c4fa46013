"""Every case of the header code, in the form in which the program header_cases writes them."""
import header_code
from refusal import refused


def sealed(csi, count):
    answer = header_code.seal(csi, count)
    return f"seal {csi} {count} {answer if refused(answer) else f'{answer:02X}'}\n"


def read(mode, octet):
    csi, count, valid, after = header_code.read(mode, octet)
    return f"read {mode} {octet:02X} {csi} {count} {str(valid).lower()} {after}\n"


def header_cases():
    seals = [sealed(csi, count) for csi in range(4) for count in range(10)]
    reads = [read(mode, octet) for mode in (header_code.CORRECTION, header_code.DETECTION) for octet in range(256)]
    return "".join(seals + reads)
