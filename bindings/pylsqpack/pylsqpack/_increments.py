"""Insert Count Increments (RFC 9204, section 4.4.3): integers whose first byte has six bits of them (section 4.1.1)."""

MOST = 0x3F


def sum_increments(instructions: bytes) -> int:
    """Returns how many insertions some increments report. There are no other instructions among them."""
    total, rest = 0, iter(instructions)
    for first in rest:
        total += first
        if first == MOST:
            shift, byte = 0, 0x80
            while byte & 0x80:
                byte = next(rest)
                total += (byte & 0x7F) << shift
                shift += 7
    return total


def write_increment(number: int) -> bytes:
    """Returns the increment that reports that many insertions, at least one."""
    if number < MOST:
        return bytes([number])
    written, number = bytearray([MOST]), number - MOST
    while number > 0x7F:
        written.append(0x80 | number & 0x7F)
        number >>= 7
    return bytes([*written, number])
