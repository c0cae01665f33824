"""What a bus keeps of a node, the frames that nodes send, and an entry of the error script."""
import itertools

import operations
import wire

ACTIVE, PASSIVE, OFF = b"active", b"passive", b"off"
NO_ACKNOWLEDGEMENT = 5


class Sent:
    """A frame on a bus: its text, its bytes, its place in arbitration, and the end of each of its bits."""

    def __init__(self, text, nominal, fast):
        frame = wire.read_frame(text)
        if frame is None or (frame.fd and fast is None):
            raise ValueError
        self.text = text
        self.spelled = operations.transmit(text)
        self.identifier = frame.identifier
        self.key = wire.arbitration_bits(frame)
        self.ends = list(itertools.accumulate(wire.bit_times(frame, nominal, fast)))


class Error:
    """An entry of the error script: attempts, kind, node (None for the sender) and bit."""

    def __init__(self, first, count, kind, by, bit):
        self.first = first
        self.last = first + count - 1
        self.kind = kind
        self.by = by
        self.bit = bit


class Member:
    """A node on the bus. Its requests stand by arbitration, the earlier of equals first."""

    def __init__(self, live):
        self.live = live
        self.awake = True
        self.discards = False
        self.tec = 0
        self.rec = 0
        self.occurrences = 0
        self.requests = []
        self.notices = {}  # by name: when it falls due, its text and its bytes
        self.mail = b""

    def state(self):
        if self.tec > 255:
            return OFF
        return PASSIVE if max(self.tec, self.rec) > 127 else ACTIVE

    def takes_part(self):
        return self.live and self.awake and self.state() != OFF

    def sent(self):
        self.tec = max(self.tec - 1, 0)

    def received(self):
        self.rec = 119 if self.rec > 127 else max(self.rec - 1, 0)

    def failed_to_send(self, kind):
        if kind != NO_ACKNOWLEDGEMENT or self.state() == ACTIVE:
            self.tec += 8

    def saw_error(self, itself):
        """An error as a receiver: one that it detected itself, or another's."""
        self.rec = min(self.rec + (8 if itself else 1), 255)

    def put(self, mail):
        """Mail comes where the node is live."""
        if self.live:
            self.mail = mail

    def leave(self):
        """The node is down or over. A frame of its own goes on."""
        self.live = False
        self.requests.clear()
        self.notices.clear()
        self.mail = b""
