"""The listing of headers, from docs/rules/header-listing.md alone."""
import header_code


def listing(recording):
    mode, corrected, invalid, lines = header_code.CORRECTION, 0, 0, []
    for octet in recording:
        csi, count, valid, mode = header_code.read(mode, octet)
        if not valid:
            invalid += 1
        elif header_code.seal(csi, count) != octet:
            corrected += 1
        lines.append(f"{octet:02X} {csi} {count} {'valid' if valid else 'invalid'} {mode}\n")
    lines.append(f"read {len(recording)} corrected {corrected} invalid {invalid}\n")
    return "".join(lines)
