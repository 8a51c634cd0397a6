"""A frame on the wire: its identifier, and how many bits it has."""
from .words import CLASSES, FORMATS

# The longest frame with an error frame and the intermission: no slot with a frame is longer.
SLOT_BITS = 180
# From the end of a frame to that of the error frame in it: a flag of 6 bits and a delimiter of 8.
ERROR_FRAME_BITS = 14
# Behind the CRC: its delimiter, the acknowledgement and its delimiter, the end of frame. No bits are stuffed there.
TAIL_BITS = 10
CRC_POLYNOMIAL, CRC_BITS = 0x4599, 15


def identifier(version, frame):
    """The 29 bits of a frame of this format."""
    return CLASSES.index(frame.kind) << 25 | frame.number << FORMATS[version].number_shift | frame.node << 4 | frame.incarnation


def bits_of(number, count):
    """The lowest bits of a number, the most significant first."""
    return [number >> place & 1 for place in reversed(range(count))]


def crc(bits):
    rest = 0
    for bit in bits:
        rest = rest << 1 ^ (CRC_POLYNOMIAL if bit ^ rest >> CRC_BITS - 1 & 1 else 0)
        rest &= (1 << CRC_BITS) - 1
    return rest


def stuffed(bits):
    """How many bits are stuffed: one behind each five that are equal, where a stuffed bit counts as the first of the next."""
    count, equal, last = 0, 0, None
    for bit in bits:
        equal = equal + 1 if bit == last else 1
        last = bit
        if equal == 5:
            count, equal, last = count + 1, 1, 1 - bit
    return count


def length(number, payload):
    """The bits of an extended frame from its start to its end, with stuff bits; of a remote frame the payload is None."""
    data = payload or b""
    # start of frame, base identifier, SRR, IDE, extension, RTR, two reserved bits, length
    bits = [0, *bits_of(number >> 18, 11), 1, 1, *bits_of(number, 18), int(payload is None), 0, 0, *bits_of(len(data), 4)]
    bits += [bit for byte in data for bit in bits_of(byte, 8)]
    bits += bits_of(crc(bits), CRC_BITS)
    return len(bits) + stuffed(bits) + TAIL_BITS
