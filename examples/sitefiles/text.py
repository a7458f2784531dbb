"""A plan from its description in text. day.txt shows the form: a kind, an id, and then fields with their values. fleets.txt has fleets too,
even_shares.txt a limit that is shared evenly."""
import math
import re
import struct
from dataclasses import dataclass

from sitefiles import clock
from sitefiles.blocks import CONNECTORS
from sitefiles.plan import FLEETS, KINDS, MOST, MOST_QUEUE_PLACES, SCALED, SHARED_EVENLY, Limit, Part, planned

NUMBER = re.compile(r"(-?(?:\d+\.?\d*|\.\d+)(?:[eE][+-]?\d+)?)([a-zA-Z%/]*)", re.ASCII)
WHOLE = re.compile(r"-?\d+", re.ASCII)
MOST_POINTS = 30
MOST_CONNECTORS = 5
EVENLY = ["shared", "evenly"]


class Fault(Exception):
    """A word that cannot be read, and what to do about it."""

    def __init__(self, word, message):
        super().__init__(f'"{word}": {message}')


class Unreadable(Exception):
    """A description with faults: a message for each, with the file's name and the line's number."""


@dataclass(frozen=True)
class Measure:
    """What a number may be: its range, its unit, and whether it is whole."""

    low: float
    high: float
    unit: str = ""
    whole: bool = False

    def range(self):
        return f"from {plain(self.low)} to {plain(self.high)} {self.unit}".rstrip()


def plain(number):
    """A number without needless digits: 1024 and 0.125."""
    return str(int(number)) if number == int(number) else repr(number)


ID = Measure(0, 2**32 - 1, whole=True)
LIMIT = Measure(0.125, 65536, "kW")
BATTERY = Measure(1, 1024, "kWh")
POWER = Measure(0.125, 1024, "kW")
CURRENT = Measure(1, 4096, "A")
VOLTAGE = Measure(1, 4096, "V")
SOC = Measure(0, 1)
IDLE = Measure(0, 604800, "s")
TIME = Measure(0, 1000000, "s", whole=True)
QUEUE = Measure(0, 2**32 - 1, whole=True)
FLEET = Measure(1, FLEETS, whole=True)
QUEUE_PLACES = Measure(0, MOST_QUEUE_PLACES, whole=True)


# ---- numbers


def number(name, word, measure):
    """The number that a word is, and the unit behind it."""
    match = NUMBER.fullmatch(word)
    if match is None:
        raise Fault(word, f"{name} is a number, with a point before decimals and nothing between thousands")
    digits, unit = match.groups()
    if unit not in ("", measure.unit):
        raise Fault(word, f"{name} is in {measure.unit}" if measure.unit else f"{name} has no unit: it is a number {measure.range()}")
    if measure.whole and not WHOLE.fullmatch(digits):
        raise Fault(word, f"{name} is a whole number")
    value = in_range(name, word, float(digits), measure)
    return (int(value) if measure.whole else value), unit


def in_range(name, word, value, measure):
    """The value, if it is within its range. Minus zero is not."""
    if not measure.low <= value <= measure.high or math.copysign(1, value) < 0:
        raise Fault(word, f"{name} is out of its range, {measure.range()}")
    return value


def take_number(name, words, measure):
    """The first word's number, and the words behind it and its unit."""
    value, unit = number(name, words[0], measure)
    given_apart = not unit and measure.unit and words[1:2] == [measure.unit]
    return value, words[2 if given_apart else 1 :]


# ---- fields: each reads the words behind its name


def numbers(measure, count):
    """So many numbers."""

    def read(name, words):
        values = []
        for _ in range(count):
            need(name, words, count)
            value, words = take_number(name, words, measure)
            values.append(value)
        no_more(name, words, measure)
        return values

    return read


def one(measure):
    """One number."""

    def read(name, words):
        return numbers(measure, 1)(name, words)[0]

    return read


def time(measure, form, shown):
    """A number of seconds, or a time of this form."""

    def read(name, words):
        need(name, words, 1)
        if ":" not in words[0]:
            return one(measure)(name, words)
        value = clock.seconds(form, words[0])
        if value is None:
            raise Fault(words[0], f"{name} is in seconds or written {shown}")
        no_more(name, words[1:], measure)
        value = in_range(name, words[0], value, measure)
        return int(value) if measure.whole else value

    return read


def points(name, words):
    """Points of SOC and power, each with an SOC of its own."""
    read = []
    need(name, words, 1)
    while words:
        soc, colon, power = words[0].partition(":")
        if not (soc and colon and power):
            raise Fault(words[0], "a point is SOC:power, as 0.5:80")
        soc, _ = number("the SOC of a point", soc, SOC)
        power, rest = take_number("the power of a point", [power, *words[1:]], POWER)
        if any(soc == known for known, _ in read):
            raise Fault(words[0], "there is a point with this SOC already")
        if len(read) == MOST_POINTS:
            raise Fault(words[0], f"a profile has at most {MOST_POINTS} points, and this is one more")
        read.append((soc, power))
        words = rest
    return read


def connectors(name, words):
    """The codes of the connectors named, in order. None at all is allowed, and means NACS alone."""
    names = re.split(r"[,\s]\s*", " ".join(words)) if words else []
    if "" in names:
        raise Fault(" ".join(words), "there is a comma without a connector")
    if len(names) > MOST_CONNECTORS:
        raise Fault(names[MOST_CONNECTORS], f"at most {MOST_CONNECTORS} connectors can be named, and this is one more")
    return [code_of(name) for name in names]


def code_of(name):
    """A connector's code; large and small letters are the same, and GB/T may be written Gbt."""
    known = [connector.upper().replace("/", "") for connector in CONNECTORS]
    plain_name = name.upper().replace("/", "")
    if plain_name not in known:
        raise Fault(name, f"no connector; known are {', '.join(CONNECTORS)}")
    return known.index(plain_name) + 1


def leads(name, words):
    """What some leads carry at most, by the code of their connector; 0 for those that are not named."""
    caps = [0.0] * len(CONNECTORS)
    need(name, words, 1)
    while words:
        connector, colon, cap = words[0].partition(":")
        if not (connector and colon and cap):
            raise Fault(words[0], "a lead is connector:current, as CCS2:125")
        place = code_of(connector) - 1
        if caps[place]:
            raise Fault(words[0], "this lead is named already")
        caps[place], words = take_number("the current of a lead", [cap, *words[1:]], CURRENT)
    return caps


def need(name, words, count):
    if not words:
        raise Fault(name, "its value is missing" if count == 1 else f"it needs {count} values")


def no_more(name, words, measure):
    if not words:
        return
    if NUMBER.fullmatch(words[0]):
        raise Fault(words[0], f"one value too many for {name}")
    raise Fault(words[0], f"neither a field of this line nor {measure.unit}, the unit of {name}" if measure.unit else "no field of this line")


FIELDS = {
    "fleet": {"places": one(QUEUE_PLACES)},
    "profile": {"battery": one(BATTERY), "points": points},
    "charger": {"power": one(POWER), "current": one(CURRENT), "voltage": one(VOLTAGE), "connectors": connectors, "leads": leads},
    "vehicle": {
        "profile": one(ID),
        "connectors": connectors,
        "soc": numbers(SOC, 2),
        "idle": time(IDLE, clock.DURATION, "h:mm:ss"),
        "arrival": time(TIME, clock.CLOCK, "hh:mm or hh:mm:ss"),
        "wait": time(TIME, clock.DURATION, "h:mm:ss"),
        "queue": one(QUEUE),
        "fleet": one(FLEET),
    },
}

# Fields that a line may leave out, with what they are then.
DEFAULTS = {"charger": {"leads": [0.0] * len(CONNECTORS)}, "vehicle": {"fleet": 0}}


# ---- the limit


def site_limit(words):
    """A limit, and behind it the words that have it shared evenly, if they are there."""
    at = next((k for k, word in enumerate(words) if word in EVENLY), len(words))
    kw, behind = one(LIMIT)("limit", words[:at]), words[at:]
    if behind not in ([], EVENLY):
        raise Fault(" ".join(behind), f"behind a limit can stand {' '.join(EVENLY)}, and nothing else")
    return Limit(kw, SHARED_EVENLY if behind else SCALED)


# ---- the bodies of the blocks


def code_bytes(codes):
    return bytes([len(codes), *codes]).ljust(6, b"\0")


def profile_body(id, battery, points):
    return struct.pack("<IHxxd", id, len(points), battery) + b"".join(struct.pack("<dd", *point) for point in points)


def charger_body(id, power, current, voltage, connectors, leads):
    return struct.pack("<I6s6xddd5d", id, code_bytes(connectors), power, current, voltage, *leads)


def vehicle_body(id, profile, connectors, soc, idle, arrival, wait, queue, fleet):
    return struct.pack("<II6s2xdddQQIH", id, profile, code_bytes(connectors), *soc, idle, arrival, wait, queue, fleet)


BODIES = {"profile": profile_body, "charger": charger_body, "vehicle": vehicle_body}


# ---- lines


class Reader:
    """Reads a description line by line. A line that cannot be read leaves a fault, and the reading goes on."""

    def __init__(self, name):
        self.name = name
        self.limit = None
        self.limit_line = None
        self.queue_places = {}  # by fleet
        self.parts = []
        self.lines = {kind: {} for kind in FIELDS}  # of each kind the ids, each with its line
        self.counts = dict.fromkeys(KINDS, 0)
        self.profiles_named = []  # by vehicles: line and id
        self.fleets_named = []  # by vehicles: line and id
        self.faults = []  # line and message

    def read(self, line, text):
        text = text.split("#")[0].strip()
        kind, *words = text.split() or [""]
        try:
            if kind == "limit":
                self.read_limit(line, words)
            elif kind == "fleet":
                self.read_fleet(line, words)
            elif kind in KINDS:
                self.read_part(line, text, kind, words)
            elif kind:
                raise Fault(kind, f"unknown kind; a line begins with limit, {', '.join(FIELDS)}")
        except Fault as fault:
            self.faults.append((line, str(fault)))

    def read_limit(self, line, words):
        if self.limit_line is not None:
            raise Fault("limit", f"a site has one limit, and it is given on line {self.limit_line}")
        self.limit_line = line
        self.limit = site_limit(words)

    def read_fleet(self, line, words):
        id = self.new_id(line, "fleet", words)
        self.queue_places[id] = field_values("fleet", id, words[1:])["places"]

    def read_part(self, line, text, kind, words):
        self.count(kind)
        id = self.new_id(line, kind, words)
        values = field_values(kind, id, words[1:])
        if kind == "vehicle":
            self.profiles_named.append((line, values["profile"]))
            self.fleets_named.append((line, values["fleet"]))
        self.parts.append(Part(kind, id, BODIES[kind](id, **values), line, text))

    def count(self, kind):
        self.counts[kind] += 1
        if self.counts[kind] > MOST[kind]:
            raise Fault(kind, f"a plan has at most {MOST[kind]} {kind}s, and this is number {self.counts[kind]}")

    def new_id(self, line, kind, words):
        if not words:
            raise Fault(kind, "its id is missing")
        id, _ = number(f"the id of a {kind}", words[0], FLEET if kind == "fleet" else ID)
        first = self.lines[kind].setdefault(id, line)
        if first != line:
            raise Fault(words[0], f"this id has a {kind} already, on line {first}")
        return id

    def find_profiles(self):
        """Every vehicle's profile must be there; also one whose own line has a fault counts."""
        for line, id in self.profiles_named:
            if id not in self.lines["profile"]:
                self.faults.append((line, str(Fault(f"profile {id}", "there is no such profile"))))

    def find_fleets(self):
        """Every vehicle's fleet must have its line. Without one it would have no queue places, so its vehicles would never wait."""
        for line, id in self.fleets_named:
            if id and id not in self.lines["fleet"]:
                self.faults.append((line, str(Fault(f"fleet {id}", f"no line gives its queue places, as fleet {id} places 4"))))

    def plan(self):
        self.find_profiles()
        self.find_fleets()
        if self.faults:
            raise Unreadable("\n".join(f"{self.name}:{line}: {message}" for line, message in sorted(self.faults)))
        return planned(self.name, self.limit, self.queue_places, self.parts)


def field_values(kind, id, words):
    """The values of a line's fields, by name."""
    given = words_of_fields(kind, words)
    read = {name: FIELDS[kind][name](name, field_words) for name, field_words in given.items()}
    values = DEFAULTS.get(kind, {}) | read
    missing = [name for name in FIELDS[kind] if name not in values]
    if missing:
        raise Fault(f"{kind} {id}", f"missing: {', '.join(missing)}")
    return values


def words_of_fields(kind, words):
    """The words behind each field's name."""
    given, name = {}, None
    for word in words:
        if word in given:
            raise Fault(word, "this field is given twice")
        if word in FIELDS[kind]:
            name = word
            given[name] = []
        elif name is None:
            raise Fault(word, f"unknown field; a {kind} has {', '.join(FIELDS[kind])}")
        else:
            given[name].append(word)
    return given


def decoded(name, data):
    """The text of a file; a byte-order mark at its beginning is no part of it."""
    at = first_odd_byte(data)
    if at is not None:
        line = data[:at].count(b"\n") + 1
        raise Unreadable(f'{name}:{line}: "\\x{data[at]:02x}": this byte is no text; a description is a text file in UTF-8')
    return data.decode("utf-8-sig")


def first_odd_byte(data):
    """Where the bytes stop being a text in UTF-8. A text has no zero bytes; a plan's blocks have many."""
    zero = data.find(b"\0")
    try:
        data.decode("utf-8")
    except UnicodeDecodeError as error:
        return error.start if zero < 0 else min(zero, error.start)
    return None if zero < 0 else zero


def read_plan(name, data):
    """The plan that a description's bytes describe."""
    reader = Reader(name)
    for line, text in enumerate(decoded(name, data).split("\n"), 1):
        reader.read(line, text)
    return reader.plan()
