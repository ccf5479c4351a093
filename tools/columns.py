"""Columns of numbers and of bytes for a page: packed as they come, so that a long log needs no memory but for what is packed."""

import base64
import sys
import zlib
from array import array

from expressions import worth

HELD = 1 << 14  # numbers that wait until they are packed together
LEVEL, GZIP = 6, 31  # how hard zlib tries, and the form of what it writes
SAFE = 1 << 53  # the numbers below it are numbers of JavaScript too


class Bytes:
    """Bytes that are packed."""

    def __init__(self):
        self.packer, self.packed = zlib.compressobj(LEVEL, zlib.DEFLATED, GZIP), bytearray()

    def add(self, piece):
        self.packed += self.packer.compress(piece)

    def text(self):
        """All of it, as text in which no character means anything to a browser."""
        self.packed += self.packer.flush()
        packed, self.packed = self.packed, b""
        return base64.b64encode(packed)


class Column:
    """Numbers of one type of the module `array`, the least significant byte first."""

    def __init__(self, kind):
        self.held, self.bytes = array(kind), Bytes()

    def add(self, number):
        self.held.append(number)
        if len(self.held) >= HELD:
            self._pack()

    def _pack(self):
        if sys.byteorder == "big":
            self.held.byteswap()
        self.bytes.add(self.held.tobytes())
        del self.held[:]

    def text(self):
        self._pack()
        return self.bytes.text()


class Rising(Column):
    """Numbers that rise, or stay: each is kept as what it is more than the one before."""

    def __init__(self):
        super().__init__("I")
        self.last = 0

    def add(self, number):
        super().add(number - self.last)
        self.last = number


class Numbers(Column):
    """Numbers of any size, and None. Those that JavaScript has none for are places from -1 on down in a list of texts."""

    def __init__(self, great):
        super().__init__("d")
        self.great = great

    def add(self, number):
        if number is None or number >= SAFE:
            number = -1 - self.great.setdefault(number, len(self.great))
        super().add(number)


def great_numbers():
    """The numbers that are texts in a page, by their places, and None at place 0."""
    return {None: 0}


def texts_of(great):
    """These texts, as the specification spells them."""
    return [None if number is None else worth(number) for number in great]
