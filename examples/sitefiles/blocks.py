"""What plans, books and dumps have in common: blocks of 512 bytes with a check, rows in blocks, and connector codes."""
import math
import struct
from dataclasses import dataclass

BLOCK = 512
CHECK = 508

# Codes 1 to 5, as people write them.
CONNECTORS = ["CCS1", "CCS2", "CHAdeMO", "GB/T", "NACS"]


class Damaged(Exception):
    """A file that is not what it should be: what is wrong, and where."""


def check_of(body, place):
    """The check of a block's first 508 bytes at a place of its file, the first place being 1."""
    return (place + sum(struct.unpack("<127I", body))) % 2**32


def sealed(body, place):
    """The block with this body at this place: zero bytes up to the check, and the check."""
    body = body.ljust(CHECK, b"\0")
    return body + struct.pack("<I", check_of(body, place))


def joined(bodies):
    """A file's bytes from the bodies of its blocks."""
    return b"".join(sealed(body, place) for place, body in enumerate(bodies, 1))


def split(data):
    """The whole blocks of a file; bytes left over at the end are not among them."""
    return [data[at : at + BLOCK] for at in range(0, len(data) - BLOCK + 1, BLOCK)]


def passes(block, place):
    """Whether a block has the check of its place."""
    return block[CHECK:] == struct.pack("<I", check_of(block[:CHECK], place))


# ---- rows: sessions and events


@dataclass(frozen=True)
class Rows:
    """Rows of one length, so many a block; a row does not reach into the next block."""

    what: str
    length: int
    a_block: int

    def blocks(self, count):
        """How many blocks so many rows take."""
        return math.ceil(count / self.a_block)

    def start(self, first, k):
        """The first byte of row k, which is the first row for 0, where the rows begin with this block."""
        return BLOCK * (first - 1 + k // self.a_block) + self.length * (k % self.a_block)

    def where(self, first, k):
        start = self.start(first, k)
        return f"{self.what} {k + 1} (block {start // BLOCK + 1}, bytes {start} to {start + self.length - 1})"

    def test_behind(self, data, first, count):
        """In each block, bytes behind its last row are zero."""
        for place in range(first, first + self.blocks(count)):
            rows = min(self.a_block, count - self.a_block * (place - first))
            start = BLOCK * (place - 1)
            test_zero(data, start + self.length * rows, start + CHECK, f"block {place}, behind its last {self.what}")


# ---- tests of a file that is read


def test_file(data, letters):
    """The letters that the file begins with, its length, and the checks of its blocks."""
    if not data.startswith(letters):
        raise Damaged(f"the file does not begin with the letters {letters.decode()}")
    if len(data) % BLOCK:
        raise Damaged(f"the file has {len(data)} bytes, which is no multiple of {BLOCK}: it is cut off, or something was added")
    for place, block in enumerate(split(data), 1):
        if not passes(block, place):
            raise Damaged(f"block {place} (bytes {BLOCK * (place - 1)} to {BLOCK * place - 1}): its check does not agree with its bytes")


def test_count(at, count, most, what, file):
    """A count of the header, of 16 bits."""
    if count > most:
        raise Damaged(f"bytes {at} and {at + 1}: {count} {what}; {file} has at most {most}")


def test_blocks(data, wanted, counts):
    """The file has just the blocks that the header's counts ask for."""
    if len(data) != BLOCK * wanted:
        raise Damaged(f"the header counts {counts}, which take {BLOCK * wanted} bytes, and the file has {len(data)}")


def test_zero(data, start, end, where):
    for at in range(start, end):
        if data[at]:
            raise Damaged(f"byte {at} ({where}): it is {data[at]}, and must be zero")
