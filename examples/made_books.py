"""Books made for the tests, whole and damaged."""
import struct

from sitefiles.blocks import BLOCK, CHECK, joined
from sitefiles.sessions import FIELDS, SESSIONS

CHARGED = dict(vehicle=7, profile=1, charger=3, connector=5, outcome=1, arrival=100, plugin=160, unplug=2080, wait=60)
CHARGED |= dict(charge_duration=1800.0, idle=120.0, peak_kw=50.0, energy_kwh=25.0, soc_start=0.25, soc_end=0.75)
OPEN = CHARGED | dict(vehicle=8, outcome=0, unplug=0, charge_duration=0.0, peak_kw=0.0, energy_kwh=0.0)
RENEGED = dict(vehicle=9, profile=1, outcome=2, arrival=200, wait=300, soc_start=0.5)
BALKED = dict(vehicle=10, profile=1, outcome=3, arrival=250, wait=0, soc_start=0.5)
EACH = [CHARGED, OPEN, RENEGED, BALKED]
OF_FLEETS = [session | {"fleet": fleet} for session, fleet in zip(EACH, [1, 64, 0, 1])]


def session_bytes(session):
    data = bytearray(SESSIONS.length)
    for field in FIELDS:
        struct.pack_into(field.form, data, field.at, session.get(field.name, 0))
    return bytes(data)


def book_bytes(sessions, engine=1, ended=1, used=3000):
    header = b"BOOK" + struct.pack("<HBBQ", len(sessions), engine, ended, used)
    return joined([header] + session_blocks(sessions))


def session_blocks(sessions):
    return in_blocks(SESSIONS, list(map(session_bytes, sessions)))


def in_blocks(rows, each):
    """The bodies of the blocks that these rows take."""
    return [b"".join(each[k : k + rows.a_block]) for k in range(0, len(each), rows.a_block)]


def altered(data, at, new):
    """The file with other bytes from a place on, and with the checks of its blocks right again."""
    data = data[:at] + new + data[at + len(new) :]
    return joined(data[start : start + CHECK] for start in range(0, len(data), BLOCK))
