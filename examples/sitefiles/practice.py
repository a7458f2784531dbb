"""A practice day: what the program practice_day reads, and what it writes."""
import struct

from sitefiles import blocks, refusal
from sitefiles.blocks import Damaged

REFUSED = [*range(4, 13), 19]


def asked(seed, count, plan):
    """A seed, a count, and the plan whose one vehicle is copied."""
    return struct.pack("<II", seed, count) + plan


def read(output):
    """The plan or the refusal that the program wrote."""
    try:
        if output.startswith(b"PLAN"):
            blocks.test_file(output, b"PLAN")
            return output
        answer = refusal.read(output)
    except Damaged:
        answer = None
    if answer is None or answer.number not in REFUSED:
        raise Damaged(f"it wrote {output[:60]!r}, which is neither a plan nor a refusal of a practice day")
    return answer
