"""Sessions as books and dumps have them, tested and read."""
import math
import struct
from dataclasses import dataclass

from sitefiles.blocks import CONNECTORS, Damaged, Rows, test_zero
from sitefiles.plan import FLEETS

MOST_SESSIONS = 64
SESSIONS = Rows("session", 96, 5)
OUTCOMES = ["open", "charged", "reneged", "balked"]


@dataclass(frozen=True)
class Session:
    """One vehicle's session. A field that its outcome does not have is None; so is the fleet, if it has none. Times and durations are in seconds."""

    vehicle: int
    profile: int
    charger: int | None
    connector: str | None
    outcome: str
    fleet: int | None
    arrival: int
    plugin: int | None
    unplug: int | None
    wait: int
    charge_duration: float | None
    idle: float | None
    peak_kw: float | None
    energy_kwh: float | None
    soc_start: float
    soc_end: float | None


@dataclass(frozen=True)
class Field:
    """A field of a session: its first byte, how it is packed, and the outcomes that have it."""

    name: str
    at: int
    form: str
    outcomes: tuple = (0, 1, 2, 3)


PLUGGED = (0, 1)
CHARGED = (1,)
FIELDS = [
    Field("vehicle", 0, "<I"),
    Field("profile", 4, "<I"),
    Field("charger", 8, "<I", PLUGGED),
    Field("connector", 12, "<B", PLUGGED),
    Field("outcome", 13, "<B"),
    Field("fleet", 14, "<H"),
    Field("arrival", 16, "<Q"),
    Field("plugin", 24, "<Q", PLUGGED),
    Field("unplug", 32, "<Q", CHARGED),
    Field("wait", 40, "<Q"),
    Field("charge_duration", 48, "<d", CHARGED),
    Field("idle", 56, "<d", PLUGGED),
    Field("peak_kw", 64, "<d", CHARGED),
    Field("energy_kwh", 72, "<d", CHARGED),
    Field("soc_start", 80, "<d"),
    Field("soc_end", 88, "<d", PLUGGED),
]


def read(data, first, count):
    """So many sessions, which begin with this block of a file; Damaged says what is wrong with them, and where."""
    SESSIONS.test_behind(data, first, count)
    sessions = [session_at(data, SESSIONS.start(first, k), SESSIONS.where(first, k)) for k in range(count)]
    test_vehicles(sessions)
    return sessions


def session_at(data, start, where):
    """The session that begins with this byte."""
    outcome = data[start + 13]
    if outcome >= len(OUTCOMES):
        raise Damaged(f"{where}: outcome {outcome}; it can be 0 to {len(OUTCOMES) - 1}")
    return Session(**{field.name: field_of(data, start, field, outcome, where) for field in FIELDS})


def field_of(data, start, field, outcome, where):
    """The value of a session's field, or None where its outcome has no such field; then its bytes are zero."""
    at = start + field.at
    if outcome not in field.outcomes:
        test_zero(data, at, at + struct.calcsize(field.form), f"{where}, which is {OUTCOMES[outcome]} and has no {field.name}")
        return None
    (value,) = struct.unpack_from(field.form, data, at)
    return checked(field.name, value, where)


def checked(name, value, where):
    """A field's value as it is shown: codes become words, and a float must be a number that can stand there."""
    if name == "outcome":
        return OUTCOMES[value]
    if name == "connector":
        if not 1 <= value <= len(CONNECTORS):
            raise Damaged(f"{where}: connector {value}; it can be 1 to {len(CONNECTORS)}")
        return CONNECTORS[value - 1]
    if name == "fleet":
        if value > FLEETS:
            raise Damaged(f"{where}: fleet {value}; it can be 0 (none) to {FLEETS}")
        return value or None
    if isinstance(value, float) and not 0 <= value < math.inf:
        raise Damaged(f"{where}: {name} is {value}, which is no amount")
    return value


def test_vehicles(sessions):
    """A vehicle is in one session at most."""
    first = {}
    for k, session in enumerate(sessions, 1):
        if first.setdefault(session.vehicle, k) != k:
            raise Damaged(f"session {k}: vehicle {session.vehicle} has a session already, session {first[session.vehicle]}")


def test_against(sessions, plan, file):
    """Sessions that are shown with a plan have that plan's vehicles, profiles and chargers only, and its vehicles' fleets."""
    for kind in ("vehicle", "profile", "charger"):
        known = plan.ids(kind)
        for session in sessions:
            id = getattr(session, kind)
            if id is not None and id not in known:
                raise Damaged(f"{kind} {id} is not in {plan.name}: the {file} is of another plan")
    test_fleets(sessions, plan, file)


def test_fleets(sessions, plan, file):
    """A session has the fleet that the plan gives its vehicle."""
    fleets = {part.id: part.fleet() for part in plan.parts if part.kind == "vehicle"}
    for session in sessions:
        fleet = fleets[session.vehicle]
        if session.fleet != fleet:
            of_vehicle = f"vehicle {session.vehicle} has {fleet_name(session.fleet)} in the {file} and {fleet_name(fleet)} in {plan.name}"
            raise Damaged(f"{of_vehicle}: the {file} is of another plan")


def fleet_name(fleet):
    return "no fleet" if fleet is None else f"fleet {fleet}"


def of_fleet(fleet):
    """What stands behind a vehicle's name if it has a fleet."""
    return "" if fleet is None else f" of fleet {fleet}"


def energy(sessions):
    """What those that have charged took, in kWh."""
    return math.fsum(session.energy_kwh for session in sessions if session.energy_kwh is not None)
