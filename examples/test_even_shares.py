"""A limit that is shared evenly, by the program: a small car gets what it asks for, and shares are in whole watts."""
import struct
import subprocess
import unittest
from pathlib import Path

from made_books import altered
from sitefiles import book, text

HERE = Path(__file__).parent
PROGRAM = HERE.parent / "target" / "bin" / "site"
TEXT = (HERE / "even_shares.txt").read_bytes()
SCALED_TEXT = TEXT.replace(b"limit 25 kW shared evenly\n", b"limit 25 kW\n")
EVENTS, STEPS = 0, 1

# 0.3 as a float is a little less, so it is 299 W.
ODD_TEXT = """
profile 1 battery 1 points 0.5:0.3
charger 1 power 50 current 1200 voltage 400 connectors
vehicle 1 profile 1 connectors soc 0.25 0.75 idle 120 arrival 100 wait 1800 queue 10
"""


def plan_bytes(written):
    return text.read_plan("day.txt", written).data()


def output(engine, data):
    return subprocess.run([PROGRAM], input=struct.pack("<BI", engine, 10_000_000) + data, capture_output=True).stdout


def by_steps(written):
    return book.read(output(STEPS, plan_bytes(written)))


@unittest.skipUnless(PROGRAM.exists(), "the program is not built: bash examples/run")
class Shared(unittest.TestCase):
    def test_the_book(self):
        read = by_steps(TEXT)
        self.assertEqual((read.used, read.ended), (34861, True))
        self.assertEqual(
            [(each.vehicle, each.charger, each.charge_duration, each.peak_kw, each.energy_kwh) for each in read.sessions],
            [
                (11, 1, 7859.0, 25.0, 20.000899999999724),
                (12, 2, 8459.0, 12.5, 20.000049999998634),
                (13, 3, 8160.0, 25.0, 20.00599444444248),
                (21, 4, 3599.0, 5.0, 5.000000000000462),
            ],
        )

    def test_scaled_the_small_car_takes_longer(self):
        self.assertEqual({each.vehicle: each.charge_duration for each in by_steps(SCALED_TEXT).sessions}, {11: 7317.0, 12: 7977.0, 13: 7707.0, 21: 9367.0})

    def test_a_limit_that_does_not_bind_leaves_whole_watts(self):
        for limit, peak in [("", 0.3), ("limit 90", 0.3), ("limit 90 shared evenly", 0.299)]:
            [session] = by_steps((limit + ODD_TEXT).encode()).sessions
            self.assertEqual(session.peak_kw, peak)

    def test_by_events_nothing_is_shared(self):
        unlimited = SCALED_TEXT.replace(b"limit 25 kW\n", b"")
        even, scaled, without = (output(EVENTS, plan_bytes(written)) for written in (TEXT, SCALED_TEXT, unlimited))
        self.assertEqual((even, scaled), (without, without))

    def test_what_is_refused_by_7(self):
        data = plan_bytes(TEXT)
        for at, new in [(12, b"\3"), (12, b"\xff"), (12, b"\0"), (13, b"\1"), (16, bytes(8)), (16, struct.pack("<d", 0.12)), (16, struct.pack("<d", 65536.5))]:
            for engine in (EVENTS, STEPS):
                self.assertEqual(output(engine, altered(data, at, new)), b"7 1 0\n")
        for at, new in [(12, b"\1"), (12, b"\2"), (16, struct.pack("<d", 0.125)), (16, struct.pack("<d", 65536))]:
            self.assertTrue(output(EVENTS, altered(data, at, new)).startswith(b"BOOK"))


if __name__ == "__main__":
    unittest.main()
