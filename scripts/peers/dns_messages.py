"""DNS messages: a header, questions, and records of each type, with compressed and other names.
Many are then changed in a few bytes, or truncated."""
import struct

SIGNS = b"abcXYZ-09.\\\" \0\xff"
KINDS = (1, 2, 5, 6, 12, 15, 16, 28, 33, 10, 41, 65535)
# The bytes that changes insert: first bytes of lengths and pointers, and others.
ODD = (0, 1, 12, 63, 64, 128, 191, 192, 193, 255)


class Writer:
    """A writer of a message, with the offsets of its names by labels."""

    def __init__(self, rng):
        self.rng, self.known = rng, {}
        counts = [rng.choice((0, 1, 1, 2, 3)) for _ in range(4)]
        self.message = struct.pack(">6H", rng.randrange(65536), rng.randrange(65536), *counts)
        for _ in range(counts[0]):
            self.name()
            self.message += struct.pack(">HH", rng.choice((1, 2, 28, 255)), rng.choice((1, 3, 255)))
        for _ in range(sum(counts[1:])):
            self.record()
        self.message += rng.choice((b"", b"", b"rest"))

    def label(self):
        size = self.rng.choice((1, 1, 2, 3, 7, 20, 62, 63))
        return bytes(self.rng.choices(SIGNS, k=size))

    def name(self):
        """Writes a name, which may end with a pointer."""
        name = tuple(self.label() for _ in range(self.rng.choice((0, 1, 2, 3, 4, 5))))
        if self.known and self.rng.randrange(3):
            name = name[:2] + self.rng.choice(list(self.known))
        compress = self.rng.randrange(4)
        while name and not (compress and name in self.known):
            if len(self.message) < 16384:
                self.known.setdefault(name, len(self.message))
            self.message += bytes([len(name[0])]) + name[0]
            name = name[1:]
        self.message += struct.pack(">H", 0xC000 | self.known[name]) if name else b"\0"

    def some(self, size):
        self.message += self.rng.randbytes(size)

    def data(self, kind):
        """Writes the data of a type."""
        if kind in (1, 28):
            self.some(4 if kind == 1 else 16)
        elif kind in (2, 5, 12):
            self.name()
        elif kind == 6:
            self.name()
            self.name()
            self.some(20)
        elif kind == 16:
            for _ in range(self.rng.choice((1, 1, 2, 3))):
                size = self.rng.choice((0, 1, 5, 255))
                self.message += bytes([size])
                self.some(size)
        elif kind in (15, 33):
            self.some(2 if kind == 15 else 6)
            self.name()
        else:
            self.some(self.rng.choice((0, 1, 2, 4, 16)))

    def record(self):
        """Writes a record, whose length may be one too small or too large."""
        kind, kind_class = self.rng.choice(KINDS), self.rng.choice((1, 1, 1, 1, 3, 254, 255))
        self.name()
        self.message += struct.pack(">HHI", kind, kind_class, self.rng.choice((0, 3600, 2**32 - 1)))
        start = len(self.message)
        self.message += b"\0\0"
        if kind_class < 254 or self.rng.randrange(2):
            self.data(kind)
        size = max(0, len(self.message) - start - 2 + self.rng.choice((0,) * 20 + (-1, 1)))
        self.message = self.message[:start] + struct.pack(">H", size) + self.message[start + 2 :]


def broken(rng, message):
    """Returns the message, changed in a few bytes, or truncated."""
    made = bytearray(message)
    for _ in range(rng.choice((0, 0, 1, 1, 2))):
        made[rng.randrange(len(made))] = rng.choice((*ODD, rng.randrange(256)))
    if not rng.randrange(5):
        del made[rng.randrange(len(made)) :]
    return bytes(made)


def messages(rng, count):
    for _ in range(count):
        yield broken(rng, Writer(rng).message)
