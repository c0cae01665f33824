"""Frames of CAN bit by bit, after ISO 11898-1: their text, arbitration field and time on the wire."""

FD_LENGTHS = [0, 1, 2, 3, 4, 5, 6, 7, 8, 12, 16, 20, 24, 32, 48, 64]
LOWER_HEX = b"0123456789abcdef"
TAIL = 10  # CRC delimiter, ACK slot, ACK delimiter, end of frame


class Frame:
    """A frame: its identifier, what kind it is, and its bytes."""

    def __init__(self, identifier, extended):
        self.identifier = identifier
        self.extended = extended
        self.remote = False
        self.fd = False
        self.rate_switch = 0
        self.error_state = 0
        self.data = b""


def is_hex(text):
    return all(byte in LOWER_HEX for byte in text)


def read_frame(text):
    """The frame of a text, or None."""
    digits = text.find(b"#")
    if digits not in (3, 8) or not is_hex(text[:digits]):
        return None
    frame = Frame(int(text[:digits], 16), digits == 8)
    if frame.identifier >= (2 ** 29 if frame.extended else 2 ** 11):
        return None
    content = text[digits + 1:]
    if content == b"R":
        frame.remote = True
        return frame
    if content[:1] == b"#":
        if content[1:2] not in (b"0", b"1", b"2", b"3"):
            return None
        frame.fd = True
        frame.rate_switch = int(content[1:2]) & 1
        frame.error_state = int(content[1:2]) >> 1
        content = content[2:]
    if not is_hex(content) or len(content) % 2:
        return None
    frame.data = bytes.fromhex(content.decode())
    possible = len(frame.data) in FD_LENGTHS if frame.fd else len(frame.data) <= 8
    return frame if possible else None


def bits(number, count):
    """The lowest bits of a number, the highest of them first."""
    return [(number >> (count - 1 - place)) & 1 for place in range(count)]


def bits_to_data_end(frame):
    """The bits from start of frame to the end of the data, and the place of the bit rate switch."""
    data = [bit for byte in frame.data for bit in bits(byte, 8)]
    length = len(frame.data)
    code = bits(FD_LENGTHS.index(length) if frame.fd else length, 4)
    remote = 1 if frame.remote else 0
    if frame.extended:
        head = [0] + bits(frame.identifier >> 18, 11) + [1, 1] + bits(frame.identifier, 18)
    else:
        head = [0] + bits(frame.identifier, 11)
    if frame.fd:
        head += [0] if frame.extended else [0, 0]
        return head + [1, 0, frame.rate_switch, frame.error_state] + code + data, len(head) + 2
    return head + [remote, 0, 0] + code + data, None


def checksum_15(sequence):
    register = 0
    for bit in sequence:
        differs = (register >> 14) ^ bit
        register = (register << 1) & 0x7FFF
        if differs:
            register ^= 0x4599
    return register


def stuffed(sequence, to_the_end):
    """The places of the bits, None for a stuff bit; behind the last bit only where `to_the_end`."""
    places, run, last = [], 0, None
    for place, bit in enumerate(sequence):
        places.append(place)
        run = run + 1 if bit == last else 1
        last = bit
        if run == 5 and (to_the_end or place != len(sequence) - 1):
            places.append(None)
            last, run = 1 - bit, 1
    return places


def bit_times(frame, nominal, fast):
    """The ticks of each bit on the wire; `fast` is the data bit time."""
    sequence, switch = bits_to_data_end(frame)
    if not frame.fd:
        sequence = sequence + bits(checksum_15(sequence), 15)
        return [nominal] * (len(stuffed(sequence, True)) + TAIL)
    places = stuffed(sequence, False)
    to_tail = len(places) + (27 if len(frame.data) <= 16 else 32)
    slow = places.index(switch) + 1 if frame.rate_switch else to_tail
    return [nominal] * slow + [fast] * (to_tail - slow) + [nominal] * TAIL


def arbitration_bits(frame):
    """The bits of the arbitration field, and IDE: 0 is dominant and wins."""
    remote = 1 if frame.remote else 0
    if frame.extended:
        return bits(frame.identifier >> 18, 11) + [1, 1] + bits(frame.identifier, 18) + [remote]
    return bits(frame.identifier, 11) + [remote, 0]
