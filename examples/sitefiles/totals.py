"""What a book comes to, as the program totals says it in a line."""
import re
import struct
from dataclasses import dataclass

from sitefiles.blocks import Damaged
from sitefiles.refusal import Refusal

LINE = re.compile(rb"\d{1,20}(?: \d{1,20})*\n")
REFUSED = ([15, 0, 0], [16, 0, 0])


@dataclass(frozen=True)
class Totals:
    """How many sessions have each outcome, from open to balked, the energy of the charged ones, and the longest wait in seconds."""

    by_outcome: tuple
    energy_kwh: float
    longest_wait: int

    @property
    def sessions(self):
        return sum(self.by_outcome)


def read(line):
    """The totals or the refusal that the program wrote."""
    numbers = [int(word) for word in line.split()] if LINE.fullmatch(line) else []
    if numbers in REFUSED:
        return Refusal(numbers[0], ())
    if numbers[:1] != [0] or len(numbers) != 7 or max(numbers) >= 2**64:
        raise Damaged(f"it wrote {line[:60]!r}, which is neither totals nor a refusal of a book")
    _, *by_outcome, energy, wait = numbers
    return Totals(tuple(by_outcome), float_of(energy), wait)


def float_of(bits):
    return struct.unpack("<d", struct.pack("<Q", bits))[0]


def summed(books):
    """The totals of several books together."""
    return Totals(
        tuple(map(sum, zip(*(each.by_outcome for each in books)))),
        sum(each.energy_kwh for each in books),
        max(each.longest_wait for each in books),
    )
