"""Books as text: one book as a table, its sessions as CSV, and sums over many books."""
import csv
from dataclasses import astuple, dataclass, fields

from sitefiles.clock import spelled
from sitefiles.sessions import OUTCOMES, Session, energy
from sitefiles.totals import Totals, summed

CSV_HEADER = {
    "arrival": "arrival_s",
    "plugin": "plugin_s",
    "unplug": "unplug_s",
    "wait": "wait_s",
    "charge_duration": "charge_duration_s",
    "idle": "idle_s",
}


def counted(count, what):
    """1 session, 2 sessions."""
    return f"{count} {what}" if count == 1 else f"{count} {what}s"


def aligned(rows):
    """Rows of words as lines, each column as wide as it must be."""
    widths = [max(map(len, column)) for column in zip(*rows)]
    return ["  ".join(word.rjust(width) for word, width in zip(row, widths)).rstrip() for row in rows]


# ---- one book

SHOWN = ["vehicle", "fleet", "charger", "connector", "outcome", "arrival", "plug-in", "unplug", "wait s", "charge s", "idle s", "peak kW", "kWh", "SOC"]


def show(book, plan=None):
    """A book's lines: what kind of run it was, its sessions, and what the reader should beware of."""
    lines = [headline(book)] + aligned(session_rows(book.sessions))
    return lines + [f"warning: {warning}" for warning in warnings(book, plan)]


def headline(book):
    engine = "events (the site limit is ignored)" if book.engine == "events" else "steps"
    end = "ended" if book.ended else "not ended"
    return f"{counted(len(book.sessions), 'session')} by {engine}, {counted(book.used, 'unit')} used, {end}"


def session_rows(sessions):
    """A title and a row for each session. Fleets have a column only where a session has one."""
    rows = [SHOWN] + [shown(session) for session in sessions]
    if has_fleets(sessions):
        return rows
    at = SHOWN.index("fleet")
    return [row[:at] + row[at + 1 :] for row in rows]


def has_fleets(sessions):
    return any(session.fleet is not None for session in sessions)


def shown(session):
    return [
        str(session.vehicle),
        or_empty(session.fleet, str),
        or_empty(session.charger, str),
        or_empty(session.connector, str),
        session.outcome,
        spelled(session.arrival),
        or_empty(session.plugin, spelled),
        or_empty(session.unplug, spelled),
        str(session.wait),
        or_empty(session.charge_duration, "{:.1f}".format),
        or_empty(session.idle, "{:.1f}".format),
        or_empty(session.peak_kw, "{:.2f}".format),
        or_empty(session.energy_kwh, "{:.3f}".format),
        "-".join(f"{soc:.2f}" for soc in (session.soc_start, session.soc_end) if soc is not None),
    ]


def or_empty(value, spell):
    return "" if value is None else spell(value)


def warnings(book, plan=None):
    """What a reader of this book could take for more than it is."""
    if book.engine == "events" and plan is not None and plan.limit is not None:
        yield f"the plan limits the site to {plan.limit.in_words()}, which a run by events ignores; run it by steps to obey the limit"
    if not book.ended:
        yield f"the run has not ended: its allowance of {counted(book.used, 'unit')} is used up; {', '.join(unfinished(book, plan))}"


def unfinished(book, plan):
    yield f"{counted(outcome_count(book, 'open'), 'session')} open"
    if plan is not None:
        yield f"{counted(len(plan.ids('vehicle')) - len(book.sessions), 'vehicle')} without a session"


def outcome_count(book, outcome):
    return sum(session.outcome == outcome for session in book.sessions)


# ---- CSV


def write_csv(book, out):
    """All fields of all sessions. Floats have all their digits; a field that a session has not is empty."""
    writer = csv.writer(out, lineterminator="\n")
    writer.writerow(CSV_HEADER.get(field.name, field.name) for field in fields(Session))
    for session in book.sessions:
        writer.writerow(or_empty(value, exact) for value in astuple(session))


def exact(value):
    return repr(value) if isinstance(value, float) else value


# ---- sums over books

SUMMED = ["book", "sessions", *OUTCOMES, "kWh", "longest wait s"]


@dataclass(frozen=True)
class Named:
    """A book's totals by the program, the file that they are of, and the book as this tool shows it, or why it cannot."""

    name: str
    totals: Totals
    book: object = None
    fault: str = ""


def totals(named):
    """Sums over books as lines, with a row for each book, each charger and each fleet."""
    total = summed([each.totals for each in named])
    by_outcome = [f"{count} {outcome}" for count, outcome in zip(total.by_outcome, OUTCOMES)]
    sessions = [session for each in named if each.book for session in each.book.sessions]
    return [
        f"{counted(len(named), 'book')} ({by_engine(named)}), {counted(total.sessions, 'session')}: {', '.join(by_outcome)}",
        f"energy of the charged sessions: {total.energy_kwh:.3f} kWh",
        longest_wait(named),
        *aligned([SUMMED] + [summed_row(each.name, each.totals) for each in named]),
        *aligned([["charger", "sessions", "kWh"]] + by_charger(sessions)),
        *(aligned([["fleet", *SUMMED[1:]]] + by_fleet(sessions)) if has_fleets(sessions) else []),
        *(f"warning: {each.name}: {warning}" for each in named for warning in beware(each)),
    ]


def by_engine(named):
    books = [each.book for each in named if each.book]
    return ", ".join(f"{sum(book.engine == engine for book in books)} by {engine}" for engine in ("events", "steps"))


def longest_wait(named):
    waits = [each for each in named if each.totals.sessions]
    if not waits:
        return "longest wait: none"
    longest = max(waits, key=lambda each: each.totals.longest_wait)
    return f"longest wait: {longest.totals.longest_wait} s, {waited(longest)}in {longest.name}"


def waited(named):
    """Whose wait it was, where the book can be shown."""
    sessions = named.book.sessions if named.book else []
    return next((f"vehicle {each.vehicle} ({each.outcome}) " for each in sessions if each.wait == named.totals.longest_wait), "")


def summed_row(name, of_it):
    return [name, *map(str, (of_it.sessions, *of_it.by_outcome)), f"{of_it.energy_kwh:.3f}", str(of_it.longest_wait)]


def by_charger(sessions):
    """A row for each charger that had a session, by its id. A session that is open counts, and has no energy yet."""
    rows = []
    for charger in sorted({session.charger for session in sessions if session.charger is not None}):
        there = [session for session in sessions if session.charger == charger]
        rows.append([str(charger), str(len(there)), f"{energy(there):.3f}"])
    return rows


def by_fleet(sessions):
    """A row for each fleet that had a session. Vehicles without a fleet are in none."""
    rows = []
    for fleet in sorted({session.fleet for session in sessions if session.fleet is not None}):
        of_it = [session for session in sessions if session.fleet == fleet]
        counts = tuple(sum(session.outcome == outcome for session in of_it) for outcome in OUTCOMES)
        rows.append(summed_row(str(fleet), Totals(counts, energy(of_it), max(session.wait for session in of_it))))
    return rows


def beware(named):
    if named.book:
        yield from warnings(named.book)
    elif named.fault:
        yield f"it is in the sums, but not among the engines, the chargers and the fleets: {named.fault}"
