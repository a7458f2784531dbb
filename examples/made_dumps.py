"""Dumps made for the tests, and the plans that they are of."""
import struct

from made_books import BALKED, CHARGED, in_blocks, session_blocks
from sitefiles import text
from sitefiles.blocks import joined
from sitefiles.dump import BUSY, EVENTS

ARRIVAL, RENEGE, UNPLUG = 0, 1, 2

# Blocks: the header's is 1, the profile's 2, the chargers' 3 and 4, the vehicles' 5 to 9, a late car's 10.
TEXT = (
    b"profile 1 battery 50 points 0.5:50\n"
    b"charger 3 power 50 current 1200 voltage 400 connectors\n"
    b"charger 4 power 50 current 1200 voltage 400 connectors CCS1\n"
    + b"".join(b"vehicle %d profile 1 connectors soc 0.25 0.75 idle 120 arrival 100 wait 1800 queue 2\n" % id for id in range(7, 12))
)
LONGER_TEXT = TEXT + b"vehicle 12 profile 1 connectors soc 0.25 0.75 idle 120 arrival 550 wait 1600 queue 2\n"
FLEET_TEXT = TEXT.replace(b"vehicle 9 ", b"vehicle 9 fleet 3 ").replace(b"vehicle 10 ", b"vehicle 10 fleet 3 ") + b"fleet 3 places 1\n"
PLAN = text.read_plan("day.txt", TEXT)
LONGER_PLAN = text.read_plan("longer.txt", LONGER_TEXT)
FLEET_PLAN = text.read_plan("day.txt", FLEET_TEXT)

# Vehicle 7 is plugged in, 9 and 8 wait, 10 has driven on, and 11 is yet to arrive.
WAITING = dict(
    used=6,
    queue=[7, 6],
    busy=[(3, 5)],
    events=[(500, RENEGE, 7), (600, ARRIVAL, 9), (2080, UNPLUG, 3), (2400, RENEGE, 9)],
    sessions=[CHARGED, BALKED],
)
# Vehicle 9 has the one place of its fleet, so 10 has driven on.
OF_FLEETS = WAITING | dict(sessions=[CHARGED, BALKED | {"fleet": 3}])
# Vehicle 12 was booked late: its arrival is pending between the others' events, and so is its renege.
BOOKED_LATE = WAITING | dict(
    events=[(500, RENEGE, 7), (550, ARRIVAL, 10), (600, ARRIVAL, 9), (2080, UNPLUG, 3), (2150, RENEGE, 10), (2400, RENEGE, 9)],
)
ENDED = dict(used=15, queue=[], busy=[], events=[], sessions=[CHARGED, BALKED])


def event_bytes(event):
    return struct.pack("<QBxH4x", *event)


def dump_bytes(used, queue, busy, events, sessions):
    header = b"DUMP" + struct.pack("<4H4xQ", len(queue), len(busy), len(events), len(sessions), used)
    header += struct.pack(f"<{len(queue)}H", *queue)
    header = header.ljust(BUSY, b"\0") + b"".join(struct.pack("<HH", *pair) for pair in busy)
    return joined([header] + in_blocks(EVENTS, list(map(event_bytes, events))) + session_blocks(sessions))
