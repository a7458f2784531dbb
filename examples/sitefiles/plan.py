"""A plan as the blocks that it is made of, each with what it describes."""
import struct
from dataclasses import dataclass

from sitefiles import blocks

KINDS = ["profile", "charger", "vehicle"]
MOST = {"profile": 16, "charger": 32, "vehicle": 64}
FLEETS = 64
MOST_QUEUE_PLACES = 64
SCALED, SHARED_EVENLY = 1, 2


@dataclass(frozen=True)
class Limit:
    """What the whole site may draw, and how cars that ask for more together are held to it; the mode is the header's byte 12."""

    kw: float
    mode: int

    def in_words(self):
        return f"{self.kw:g} kW" + (", shared evenly" if self.mode == SHARED_EVENLY else "")


@dataclass(frozen=True)
class Part:
    """A block of a plan. A part that was read from a text has the line that it stood on."""

    kind: str
    id: int | None
    body: bytes
    line: int | None = None
    text: str = ""

    def fleet(self):
        """The fleet that a vehicle's block names, or None."""
        return struct.unpack_from("<H", self.body, 60)[0] or None


@dataclass(frozen=True)
class Plan:
    """A plan's parts in the order of its blocks, the header first; the site limit, if there is one."""

    name: str
    limit: Limit | None
    parts: list

    def data(self):
        return blocks.joined(part.body for part in self.parts)

    def car(self):
        """The block of the last vehicle, with the check of its place; None if there is no vehicle."""
        return self.data()[-blocks.BLOCK :] if self.parts[-1].kind == "vehicle" else None

    def part_at(self, place):
        """The part of a block, the first being 1; None past the last."""
        return self.parts[place - 1] if 1 <= place <= len(self.parts) else None

    def ids(self, kind):
        return [part.id for part in self.parts if part.kind == kind]


def planned(name, limit, queue_places, parts):
    """The plan of these queue places by fleet and these profiles, chargers and vehicles, which may come in any order."""
    ordered = [part for kind in KINDS for part in parts if part.kind == kind]
    counts = [sum(part.kind == kind for part in parts) for kind in KINDS]
    return Plan(name, limit, [Part("header", None, header_body(limit, queue_places, counts))] + ordered)


def header_body(limit, queue_places, counts):
    mode, kw = (0, 0.0) if limit is None else (limit.mode, limit.kw)
    by_fleet = bytes(queue_places.get(fleet, 0) for fleet in range(1, FLEETS + 1))
    return b"PLAN" + struct.pack("<HHHxxBxxxd", *counts, mode, kw) + by_fleet


def from_bytes(name, data):
    """A plan's parts from its bytes. The plan may be one that was refused, so nothing here is taken for right."""
    bodies = [block[: blocks.CHECK] for block in blocks.split(data)]
    kinds = kinds_of(bodies)
    ids = [None if kind in ("header", "block") else id_of(body) for kind, body in zip(kinds, bodies)]
    return Plan(name, limit_of(bodies), [Part(*part) for part in zip(kinds, ids, bodies)])


def kinds_of(bodies):
    """What each block describes by the header's counts; just "block" where these disagree with the length."""
    counts = struct.unpack("<HHH", bodies[0][4:10]) if bodies else (0, 0, 0)
    kinds = ["header"] + [kind for kind, count in zip(KINDS, counts) for _ in range(count)]
    return kinds if len(kinds) == len(bodies) else ["header"] + ["block"] * (len(bodies) - 1)


def id_of(body):
    return struct.unpack("<I", body[:4])[0]


def limit_of(bodies):
    mode, kw = struct.unpack_from("<Bxxxd", bodies[0], 12) if bodies else (0, 0.0)
    return Limit(kw, mode) if mode else None
