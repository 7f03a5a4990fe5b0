"""Takes bytes from the front."""


class Left:
    """The bytes that are left, and the order of the numbers in them."""

    def __init__(self, bytes_, order):
        self.bytes, self.order = bytes(bytes_), order

    def __len__(self):
        return len(self.bytes)

    def take(self, count):
        taken, self.bytes = self.bytes[:count], self.bytes[count:]
        assert len(taken) == count
        return taken

    def number(self, width, signed=False):
        return int.from_bytes(self.take(width), self.order, signed=signed)

    def time(self):
        """Takes a timestamp: its high half, and then its low half."""
        high = self.number(4)
        return high << 32 | self.number(4)

    def rest(self):
        return self.take(len(self))


def padding(length):
    """Returns how many bytes follow a value of this length, up to the next multiple of 4."""
    return -length % 4
