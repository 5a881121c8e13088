"""Integers of the binary format (LEB128), and a reader that takes the parts of a text one after another."""


class Malformed(Exception):
    """The bytes are no text of the grammar: it stops at a place."""

    def __init__(self, at):
        super().__init__(at)
        self.at = at


class NoSuchType(Exception):
    """An index of a type that there is not, and the place where it begins, if that is known."""

    def __init__(self, index, at=None):
        super().__init__(index, at)
        self.index, self.at = index, at


def unsigned(number, width=0):
    """The text of a number with at least this many bytes."""
    text = bytearray()
    while number >= 0x80 or len(text) + 1 < width:
        text.append(0x80 | number & 0x7F)
        number >>= 7
    text.append(number)
    return bytes(text)


def signed(number, width=0):
    """The same as a signed integer. The number is not negative."""
    text = bytearray()
    while number >= 0x40 or len(text) + 1 < width:
        text.append(0x80 | number & 0x7F)
        number >>= 7
    text.append(number)
    return bytes(text)


class Reader:
    """Takes parts of data from at on, up to end."""

    def __init__(self, data, at, end):
        self.data, self.at, self.end = data, at, end

    def byte(self):
        if self.at == self.end:
            raise Malformed(self.at)
        self.at += 1
        return self.data[self.at - 1]

    def peek(self):
        if self.at == self.end:
            raise Malformed(self.at)
        return self.data[self.at]

    def skip(self, count):
        if count > self.end - self.at:
            raise Malformed(self.end)
        self.at += count

    def u(self, bits):
        """An unsigned integer of this many bits."""
        number, shift = 0, 0
        while True:
            byte = self.byte()
            number |= (byte & 0x7F) << shift
            shift += 7
            # The last byte that there may be has no bit above the highest.
            if number >> bits or byte >= 0x80 and shift >= bits:
                raise Malformed(self.at - 1)
            if byte < 0x80:
                return number

    def s(self, bits):
        """A signed integer of this many bits."""
        number, shift = 0, 0
        while True:
            byte = self.byte()
            number |= (byte & 0x7F) << shift
            shift += 7
            if byte < 0x80:
                number -= (byte & 0x40) >> 6 << shift
                if not -1 << bits - 1 <= number < 1 << bits - 1:
                    raise Malformed(self.at - 1)
                return number
            if shift >= bits:
                raise Malformed(self.at - 1)

    def name(self):
        """A count and as many bytes."""
        count = self.u(32)
        begin = self.at
        self.skip(count)
        return self.data[begin:self.at]

    def finish(self):
        if self.at != self.end:
            raise Malformed(self.at)
