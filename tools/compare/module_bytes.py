"""The bytes of a WebAssembly module, taken item by item, and how the first one that can't be read is told."""


class Fault(Exception):
    """What can't be read: the name of the fault, and the offset of the item."""

    def __init__(self, why, place):
        super().__init__(why, place)
        self.why = why
        self.place = place


class Bytes:
    """Bytes up to an end; `at` is the offset of the next one."""

    def __init__(self, data, at, end):
        self.data = data
        self.at = at
        self.end = end

    def ends(self):
        return self.at == self.end

    def byte(self):
        if self.at >= self.end:
            raise Fault("Short", self.end)
        self.at += 1
        return self.data[self.at - 1]

    def take(self, count):
        if count > self.end - self.at:
            raise Fault("Short", self.end)
        self.at += count
        return self.data[self.at - count:self.at]

    def groups(self, most):
        """The groups of seven bits of a number, the lowest first."""
        start, groups = self.at, []
        while True:
            byte = self.byte()
            groups.append(byte & 0x7F)
            if byte < 0x80:
                return groups
            if len(groups) == most:
                raise Fault("Number", start)

    def unsigned(self):
        """A u32."""
        start = self.at
        value = sum(group << 7 * place for place, group in enumerate(self.groups(5)))
        if value >= 2 ** 32:
            raise Fault("Number", start)
        return value

    def signed(self, bits):
        """An i32 or i64, as the unsigned number of the same bits."""
        start = self.at
        groups = self.groups(-(-bits // 7))
        value = sum(group << 7 * place for place, group in enumerate(groups))
        if groups[-1] & 0x40:
            value -= 1 << 7 * len(groups)
        if not -(1 << bits - 1) <= value < 1 << bits - 1:
            raise Fault("Number", start)
        return value % (1 << bits)

    def vector(self, item):
        return [item() for _ in range(self.unsigned())]

    def one_of(self, why, allowed):
        """A byte, which is one of these."""
        place = self.at
        byte = self.byte()
        if byte not in allowed:
            raise Fault(why, place)
        return byte

    def value_type(self):
        place = self.at
        byte = self.byte()
        if byte in (0x7D, 0x7C):
            raise Fault("Float", place)
        if byte not in (0x7F, 0x7E):
            raise Fault("Form", place)
        return "i32" if byte == 0x7F else "i64"

    def name(self):
        """A name in UTF-8; where it isn't, its place is that of its length."""
        place = self.at
        name = self.take(self.unsigned())
        try:
            name.decode()
        except UnicodeDecodeError:
            raise Fault("Utf8", place) from None
        return name

    def inner(self, end):
        return Bytes(self.data, self.at, end)
