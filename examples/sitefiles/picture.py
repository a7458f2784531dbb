"""A book's day as a picture in SVG: a lane for each charger, the queue below, and who left without charging."""
import math
from collections import Counter
from dataclasses import dataclass
from itertools import accumulate
from xml.sax.saxutils import escape

from sitefiles.clock import minute, spelled
from sitefiles.sessions import energy, of_fleet
from sitefiles.tables import counted, outcome_count, warnings

# Lengths in pixels, times in seconds.
WIDTH = 1120
LEFT = 150
RIGHT = 30
LANE = 30
GAP = 8
QUEUE = 84
ROW = 18
LETTER = 6.4  # a letter's width at most, at the size of most texts
HOUR, DAY = 3600, 86400
STEPS = [60, 120, 300, 600, 900, 1800, HOUR, 2 * HOUR, 3 * HOUR, 6 * HOUR, 12 * HOUR, DAY, 2 * DAY, 5 * DAY, 10 * DAY]
MOST_TICKS = 12

INK, GREY, GRID, GROUND = "#1f2a33", "#66727c", "#dde3e8", "#f3f5f7"
CHARGING, IDLE, OPEN, WAITING, BALKED = "#2c6fbb", "#f2b84b", "url(#open)", "#8a6bbe", "#c0392b"


# ---- elements


def element(name, content="", **attributes):
    """An SVG element. Underscores in an attribute's name stand for hyphens; floats are cut to what shows."""
    start = name
    for key, value in attributes.items():
        start += f' {key.replace("_", "-")}="{round(value, 2) if isinstance(value, float) else value}"'
    return f"<{start}>{content}</{name}>" if content else f"<{start}/>"


def rect(x, y, width, height, fill, **more):
    return element("rect", x=float(x), y=float(y), width=float(width), height=float(height), fill=fill, **more)


def line(x1, y1, x2, y2, stroke=GRID, **more):
    return element("line", x1=float(x1), y1=float(y1), x2=float(x2), y2=float(y2), stroke=stroke, **more)


def write(x, y, words, size=11, fill=INK, anchor="start", weight="normal"):
    return element("text", escape(words), x=float(x), y=float(y), font_size=size, fill=fill, text_anchor=anchor, font_weight=weight)


def group(elements, title):
    """Elements that show a title where the pointer rests on them."""
    return element("g", element("title", escape(title)) + "".join(elements))


def triangle(x, y, fill):
    return element("path", d=f"M{x:.1f} {y - 5:.1f}l5 9h-10z", fill=fill)


def cross(x, y, stroke):
    return element("path", d=f"M{x - 4:.1f} {y - 4:.1f}l8 8m0 -8l-8 8", stroke=stroke, stroke_width=2, fill="none")


# ---- times


@dataclass(frozen=True)
class Scale:
    """From times to places: the first and last tick, and the time between two ticks."""

    start: int
    end: int
    step: int

    def x(self, time):
        return LEFT + (WIDTH - LEFT - RIGHT) * (time - self.start) / (self.end - self.start)

    def ticks(self):
        return range(self.start, self.end + 1, self.step)


def scale_of(first, last):
    """The finest scale with few enough ticks whose first and last are not within the times."""
    for step in STEPS:
        start, end = first // step * step, -(-last // step) * step
        if (end - start) // step <= MOST_TICKS:
            break
    return Scale(start, max(end, start + step), step)


def several_days(first, last):
    """Whether times up to the last, which may be a midnight, are of more than one day."""
    return first // DAY < (last - 1) // DAY


def day_and_minute(time):
    return f"day {time // DAY + 1}, {minute(time % DAY)}"


def left_at(session, book):
    """When a session's vehicle left, or where the run stopped while it was there."""
    if session.outcome == "charged":
        return session.unplug
    if session.outcome == "open":
        return max(book.used, session.plugin + 1)
    return session.arrival + session.wait


def span(book):
    """The first and last time that the picture must show."""
    if not book.sessions:
        return 0, HOUR
    return min(session.arrival for session in book.sessions), max(left_at(session, book) for session in book.sessions)


# ---- parts of the picture: each gives its elements and the height that they take


def heading(book, first, last):
    """What the run was, and its sums."""
    counts = f"{outcome_count(book, 'charged')} charged, {outcome_count(book, 'reneged')} reneged, {outcome_count(book, 'balked')} balked"
    if outcome_count(book, "open"):
        counts += f", {outcome_count(book, 'open')} open"
    spell = day_and_minute if several_days(first, last) else minute
    title = f"{counted(len(book.sessions), 'session')} by {book.engine}, {spell(first)} to {spell(last)}"
    below = f"{counts}; {energy(book.sessions):.1f} kWh"
    return [write(LEFT, 30, title, size=18, weight="bold"), write(LEFT, 50, below, size=12, fill=GREY)], 58


def legend(book, top):
    """A sample and a word for each thing drawn."""
    samples = [
        ("charging", lambda x: rect(x, top, 18, 11, CHARGING, rx=2)),
        ("idle at the charger", lambda x: rect(x, top, 18, 11, IDLE, rx=2)),
        ("waiting", lambda x: rect(x, top, 18, 11, WAITING, fill_opacity=0.45)),
        ("reneged: gave up waiting", lambda x: cross(x + 9, top + 6, WAITING)),
        ("balked: drove on", lambda x: triangle(x + 9, top + 6, BALKED)),
    ]
    if outcome_count(book, "open"):
        samples.insert(2, ("open when the run stopped", lambda x: rect(x, top, 18, 11, OPEN, rx=2)))
    elements, x = [], LEFT
    for words, sample in samples:
        elements += [sample(x), write(x + 24, top + 10, words, fill=GREY)]
        x += 24 + LETTER * len(words) + 22
    return elements, 24


def axis(scale, top):
    """The times of the ticks."""
    return [write(scale.x(tick), top + 12, tick_name(scale, tick), anchor="middle", fill=GREY) for tick in scale.ticks()], 20


def tick_name(scale, tick):
    """A tick's time, and its day where a new one begins, if there are several."""
    if scale.step >= DAY:
        return f"day {tick // DAY + 1}"
    begins = tick == scale.start or tick % DAY < scale.step
    return day_and_minute(tick) if begins and several_days(scale.start, scale.end) else minute(tick % DAY)


def lane(scale, top, height, name, more):
    """An empty lane: its ground with the ticks, its name, and a smaller word below the name."""
    middle = top + height / 2
    return [
        rect(LEFT, top, WIDTH - LEFT - RIGHT, height, GROUND),
        *(line(scale.x(tick), top, scale.x(tick), top + height) for tick in scale.ticks()),
        write(LEFT - 12, middle - 1, name, size=12, anchor="end"),
        write(LEFT - 12, middle + 12, more, size=10, fill=GREY, anchor="end"),
    ]


def charger_lanes(book, plan, scale, top):
    """A lane for each charger of the plan; without a plan for each that had a session."""
    elements = []
    chargers = plan.ids("charger") if plan else sorted({session.charger for session in book.sessions if session.charger is not None})
    for k, charger in enumerate(chargers):
        y = top + k * (LANE + GAP)
        there = [session for session in book.sessions if session.charger == charger]
        elements += lane(scale, y, LANE, f"charger {charger}", f"{counted(len(there), 'session')}, {energy(there):.1f} kWh")
        elements += [stay(session, book, scale, y) for session in there]
    return elements, len(chargers) * (LANE + GAP)


def stay(session, book, scale, y):
    """The bars of a session, charging and then idle, or open, and the vehicle's id."""
    end = left_at(session, book)
    if session.outcome == "open":
        words = f"{title_of(session)}: open, from {spelled(session.plugin)}"
        return group([bar(session.plugin, end, OPEN, scale, y), *name_within(session, session.plugin, end, INK, scale, y)], words)
    charged = max(session.plugin, end - math.ceil(session.idle))
    parts = [(session.plugin, charged, CHARGING), (charged, end, IDLE)]
    lasting = [part for part in parts if part[0] < part[1]] or parts[:1]
    bars = [bar(*part, scale, y) for part in lasting]
    words = f"{title_of(session)}: {spelled(session.plugin)} to {spelled(end)}, "
    words += f"{session.energy_kwh:.3f} kWh, peak {session.peak_kw:.2f} kW, {session.connector}"
    return group(bars + name_within(session, session.plugin, charged, "white", scale, y), words)


def title_of(session):
    """The vehicle, with its fleet if it has one."""
    return f"vehicle {session.vehicle}{of_fleet(session.fleet)}"


def bar(start, end, fill, scale, y):
    """A bar is never too thin to be seen."""
    return rect(scale.x(start), y, max(scale.x(end) - scale.x(start), 1.5), LANE, fill, rx=2)


def name_within(session, start, end, fill, scale, y):
    """The vehicle's id with its energy, the id alone, or nothing: what fits between two times."""
    names = [str(session.vehicle)]
    if session.energy_kwh is not None:
        names.insert(0, f"{session.vehicle}: {session.energy_kwh:.1f} kWh")
    room = scale.x(end) - scale.x(start) - 6
    fitting = [name for name in names if LETTER * len(name) <= room]
    return [write((scale.x(start) + scale.x(end)) / 2, y + LANE / 2 + 4, name, anchor="middle", fill=fill) for name in fitting[:1]]


def queue_lengths(book):
    """Times at which the queue changes, each with its length from then on."""
    changes = Counter()
    for session in book.sessions:
        changes[session.arrival] += session.wait > 0
        changes[session.arrival + session.wait] -= session.wait > 0
    times = sorted(time for time in changes if changes[time])
    return list(zip(times, accumulate(changes[time] for time in times)))


def queue_chart(book, scale, top):
    """The queue's length over time."""
    lengths = queue_lengths(book)
    longest = max((length for _, length in lengths), default=0)
    height = QUEUE if longest else LANE
    unit = (height - 6) / max(longest, 1)
    elements = lane(scale, top, height, "waiting", f"at most {longest}")
    path = f"M{LEFT} {top + height:.1f}"
    for time, length in lengths:
        path += f"H{scale.x(time):.1f}V{top + height - unit * length:.1f}"
    path += f"H{WIDTH - RIGHT}"
    elements.append(element("path", d=path, fill=WAITING, fill_opacity=0.45, stroke=WAITING))
    for length in range(0, longest + 1, max(1, longest // 4)):
        y = top + height - unit * length
        elements.append(write(WIDTH - RIGHT + 6, y + 4, str(length), size=10, fill=GREY))
    return elements, height + GAP


def departures(book, outcome, name, scale, top):
    """Vehicles that left without charging, with their ids, in as many rows as it takes."""
    gone = sorted((session for session in book.sessions if session.outcome == outcome), key=lambda session: extent(session, scale))
    rows = rows_of([extent(session, scale) for session in gone])
    height = max(LANE, ROW * (max(rows, default=0) + 1) + 8)
    elements = lane(scale, top, height, name, counted(len(gone), "vehicle"))
    first = top + (height - ROW * max(rows, default=0)) / 2
    elements += [departure(session, scale, first + ROW * row) for session, row in zip(gone, rows)]
    return elements, height + GAP


def rows_of(spans):
    """For each span of places the first row where it meets none before it."""
    ends, rows = [], []
    for start, end in spans:
        row = next((k for k, taken in enumerate(ends) if taken <= start), len(ends))
        ends[row : row + 1] = [end]
        rows.append(row)
    return rows


def name_width(session):
    return 9 + LETTER * len(str(session.vehicle))


def name_behind(session, scale):
    """Whether a departed vehicle's id has room behind its mark; else it stands before it."""
    return scale.x(session.arrival + session.wait) + name_width(session) <= WIDTH - RIGHT


def extent(session, scale):
    """The places from which to which a departed vehicle is drawn."""
    start, end = scale.x(session.arrival) - 6, scale.x(session.arrival + session.wait) + 6
    return (start, end + name_width(session)) if name_behind(session, scale) else (start - name_width(session), end)


def departure(session, scale, y):
    """A mark where a vehicle left, with its id, and for one that waited a line from its arrival."""
    start, end, name = scale.x(session.arrival), scale.x(session.arrival + session.wait), str(session.vehicle)
    label = write(end + 9, y + 4, name) if name_behind(session, scale) else write(start - 9, y + 4, name, anchor="end")
    if session.outcome == "balked":
        return group([triangle(end, y, BALKED), label], f"{title_of(session)}: drove on at {spelled(session.arrival)}")
    waited = line(start, y, end, y, WAITING, stroke_width=2)
    return group([waited, cross(end, y, WAITING), label], f"{title_of(session)}: came at {spelled(session.arrival)}, gave up after {session.wait} s")


def footnotes(book, plan, top):
    """What the reader should beware of."""
    notes = list(warnings(book, plan))
    if not book.ended:
        notes.append("vehicles that were waiting or yet to arrive when the run stopped are not in the book, and not drawn")
    return [write(LEFT, top + 14 + ROW * k, note, fill=BALKED) for k, note in enumerate(notes)], ROW * len(notes)


# ---- the whole


def picture(book, plan=None):
    """The SVG of a book. With a plan also chargers that had no session have a lane."""
    first, last = span(book)
    scale = scale_of(first, last)
    elements, top = [], 0

    def add(part):
        nonlocal elements, top
        drawn, height = part
        elements += drawn
        top += height

    add(heading(book, first, last))
    add(legend(book, top + 6))
    add(([], 14))
    add(axis(scale, top))
    add(charger_lanes(book, plan, scale, top))
    add(queue_chart(book, scale, top))
    add(departures(book, "reneged", "gave up", scale, top))
    add(departures(book, "balked", "drove on", scale, top))
    add(axis(scale, top - 4))
    add(footnotes(book, plan, top))
    return page(top + 16, elements)


def page(height, elements):
    hatch = element(
        "pattern",
        element("rect", width=8, height=8, fill="#e3edf8") + element("path", d="M0 8l8 -8", stroke="#a9c8ea", stroke_width=1.5),
        id="open",
        width=8,
        height=8,
        patternUnits="userSpaceOnUse",
    )
    content = "\n".join([element("defs", hatch), element("rect", width="100%", height="100%", fill="white"), *elements])
    size = {"width": WIDTH, "height": round(height), "viewBox": f"0 0 {WIDTH} {round(height)}"}
    return element("svg", f"\n{content}\n", xmlns="http://www.w3.org/2000/svg", font_family="Helvetica, Arial, sans-serif", **size)
