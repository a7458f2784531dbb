"""A dump's bytes, tested, read and put into words: the state of a run by events after the last event that it handled."""
import struct
from dataclasses import dataclass

from sitefiles import blocks, sessions, tables
from sitefiles.blocks import CHECK, Damaged, Rows, test_zero
from sitefiles.book import Book
from sitefiles.clock import spelled
from sitefiles.plan import MOST
from sitefiles.sessions import MOST_SESSIONS, SESSIONS, of_fleet
from sitefiles.tables import counted

EVENTS = Rows("event", 16, 31)
EVENT_KINDS = ["arrival", "renege", "unplug"]
MOST_EVENTS = 3 * MOST["vehicle"]
LAST_BLOCK = 1 + sum(MOST.values())
QUEUE, BUSY = 24, 152


@dataclass(frozen=True)
class Place:
    """A vehicle or a charger by its block in the plan's file, the header's being 1."""

    kind: str
    block: int


@dataclass(frozen=True)
class Event:
    """A pending event: a charger's if it is an unplug, else a vehicle's."""

    time: int
    kind: str
    of: Place


@dataclass(frozen=True)
class Dump:
    """The events handled, the queue in order, each busy charger with its vehicle, the pending events in pop order, the sessions."""

    used: int
    queue: list
    busy: list
    events: list
    sessions: list

    def book(self):
        """The book of the run at this point. It has ended if no event is left."""
        return Book("events", not self.events, self.used, self.sessions)

    def places(self):
        """Every vehicle and charger that the dump names by its block."""
        return self.queue + [each for pair in self.busy for each in pair] + [event.of for event in self.events]


# ---- reading


def read(data, plan=None):
    """The dump that these bytes are, of this plan if one is given; Damaged says what is wrong with them, and where."""
    blocks.test_file(data, b"DUMP")
    queued, busy, events, session_count = test_counts(data)
    test_header(data, queued, busy)
    EVENTS.test_behind(data, 2, events)
    dump = Dump(
        struct.unpack_from("<Q", data, 16)[0],
        [place_at(data, QUEUE + 2 * k, "vehicle") for k in range(queued)],
        [busy_at(data, BUSY + 4 * k) for k in range(busy)],
        [event_at(data, EVENTS.start(2, k), EVENTS.where(2, k)) for k in range(events)],
        sessions.read(data, 2 + EVENTS.blocks(events), session_count),
    )
    if plan is not None:
        test_against(dump, plan)
    return dump


def test_counts(data):
    """The header's counts, once each is small enough and the file has the blocks for them."""
    counts = struct.unpack_from("<4H", data, 4)
    mosts = [("queued", MOST["vehicle"]), ("busy", MOST["charger"]), ("events", MOST_EVENTS), ("sessions", MOST_SESSIONS)]
    for k, (what, most) in enumerate(mosts):
        blocks.test_count(4 + 2 * k, counts[k], most, what, "a dump")
    *_, events, session_count = counts
    wanted = 1 + EVENTS.blocks(events) + SESSIONS.blocks(session_count)
    blocks.test_blocks(data, wanted, f"{counted(events, 'event')} and {counted(session_count, 'session')}")
    return counts


def test_header(data, queued, busy):
    """Bytes of the header that nothing takes are zero."""
    test_zero(data, 12, 16, "the header")
    test_zero(data, QUEUE + 2 * queued, BUSY, "the header, behind the queue")
    test_zero(data, BUSY + 4 * busy, CHECK, "the header, behind the busy chargers")


def place_at(data, at, kind):
    """The vehicle or charger whose block is named at this byte."""
    (block,) = struct.unpack_from("<H", data, at)
    if not 2 <= block <= LAST_BLOCK:
        raise Damaged(f"bytes {at} and {at + 1}: a {kind} in block {block} of the plan; it can be in blocks 2 to {LAST_BLOCK}")
    return Place(kind, block)


def busy_at(data, at):
    return place_at(data, at, "charger"), place_at(data, at + 2, "vehicle")


def event_at(data, start, where):
    """The event that begins with this byte."""
    time, kind = struct.unpack_from("<QB", data, start)
    if kind >= len(EVENT_KINDS):
        raise Damaged(f"{where}: kind {kind}; it can be 0 to {len(EVENT_KINDS) - 1}")
    test_zero(data, start + 9, start + 10, where)
    test_zero(data, start + 12, start + 16, where)
    kind = EVENT_KINDS[kind]
    return Event(time, kind, place_at(data, start + 10, "charger" if kind == "unplug" else "vehicle"))


def test_against(dump, plan):
    """A dump that is shown with a plan is of that plan."""
    for place in dump.places():
        part = plan.part_at(place.block)
        if part is None or part.kind != place.kind:
            raise Damaged(f"block {place.block} of {plan.name} is no {place.kind}: the dump is of another plan")
    sessions.test_against(dump.sessions, plan, "dump")


# ---- words


def in_words(dump, plan=None):
    """A dump's lines. Without a plan its vehicles and chargers are shown by their blocks; sessions have ids and fleets in any case."""

    def name(place):
        return f"{place.kind} of block {place.block}" if plan is None else f"{place.kind} {plan.part_at(place.block).id}"

    def with_fleet(vehicle):
        return name(vehicle) + ("" if plan is None else of_fleet(plan.part_at(vehicle.block).fleet()))

    return [
        f"dump after {counted(dump.used, 'handled event')}",
        *section("queued, in this order", map(with_fleet, dump.queue)),
        *section("busy", (f"{name(charger)} with {name(vehicle)}" for charger, vehicle in dump.busy)),
        *section("pending, in this order", tables.aligned([[spelled(event.time), event.kind, name(event.of)] for event in dump.events])),
        *tables.show(dump.book(), plan),
    ]


def section(title, lines):
    lines = [f"  {line}" for line in lines]
    return [f"{title}:", *lines] if lines else [f"{title}: none"]
