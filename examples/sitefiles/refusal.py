"""A refusal's line, its number and two places, in words."""
import re
from dataclasses import dataclass

from sitefiles.blocks import Damaged

LINE = re.compile(rb"(\d{1,2}) (\d{1,3}) (\d{1,3})\n?")

RULES = {
    1: "the engine is neither 0 (events) nor 1 (steps), or it is steps and a dump was asked for",
    2: "the allowance is above 10,000,000 units",
    3: "the buffer for the book is shorter than 7,168 bytes",
    4: "the plan is empty, or not made of whole blocks of 512 bytes, or longer than 113 blocks, or a late car's block is not of 512 bytes",
    5: "the block's check does not agree with its bytes: the plan is damaged",
    6: "the header's letters are not PLAN, or its counts are too large or disagree with the plan's length",
    7: "a field is out of its range, or a byte that must be zero is not",
    8: "the profile has no points",
    9: "two points of the profile have the same SOC",
    10: "the id is used by an earlier block of the same kind",
    11: "no profile has the id that the vehicle names",
    12: "the vehicle fits the charger, and charging it there would take longer than 604,800 s (a week)",
    13: "the buffer for the dump is shorter than 16,384 bytes",
    14: "the dump is not that of this plan after the number of handled events that it names",
    15: "the book's length is 0, not a multiple of 512 bytes or above 14 blocks, or a block's check is wrong",
    16: "a header or session field, a zero byte, or the block count for the session count is against the book's rules",
    17: "the plan has 64 vehicles already, so no late car can be booked",
    18: "the late car's arrival is not later than the last handled event",
    19: "a practice day's seed is 0, its count is not from 1 to 64, the buffer for it is shorter than 57,856 bytes, or its plan has not just one vehicle",
}


@dataclass(frozen=True)
class Refusal:
    """The number of a refusal, and up to two blocks that it names; 0 is none."""

    number: int
    places: tuple


def read(data):
    """The refusal that the program's output is."""
    match = LINE.fullmatch(data)
    number, *places = map(int, match.groups()) if match else (0,)
    if number not in RULES:
        raise Damaged(f"neither a book (it does not begin with the letters BOOK) nor a refusal (a number from 1 to {max(RULES)} and two places)")
    return Refusal(number, tuple(place for place in places if place))


def in_words(refusal, plan=None):
    """Lines that say which rule is broken, and where."""
    return [f"refused by {refusal.number}: {RULES[refusal.number]}"] + [f"  {where(place, plan)}" for place in refusal.places]


def where(place, plan):
    """A block in words; with a plan also its kind, its id, and the line that it came from."""
    if plan is None:
        return f"block {place} of the plan"
    part = plan.part_at(place)
    if part is None:
        raise Damaged(f"the refusal names block {place}, and {plan.name} has {len(plan.parts)} blocks: it is of another plan")
    what = f"block {place} of {plan.name}"
    if part.kind != "block":
        what += f", the {part.kind}" if part.id is None else f", {part.kind} {part.id}"
    return what + (f", line {part.line}: {part.text}" if part.line else "")
