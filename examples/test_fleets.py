"""Fleets by the programs: one is held to its queue places, vehicles without a fleet wait as before, and a book read back has its fleets."""
import struct
import subprocess
import tempfile
import unittest
from pathlib import Path

from made_books import OF_FLEETS, altered, book_bytes
from sitefiles import book, tables, text

HERE = Path(__file__).parent
PROGRAM = HERE.parent / "target" / "bin" / "site"
BOOK_READER = HERE.parent / "target" / "examples" / "read_book"
TEXT = (HERE / "fleets.txt").read_bytes()
VANS = (11, 12, 13, 14, 15)


def plan_of(places):
    return text.read_plan("fleets.txt", TEXT.replace(b"places 1\n", b"places %d\n" % places))


def output(engine, data):
    return subprocess.run([PROGRAM], input=struct.pack("<BI", engine, 10_000_000) + data, capture_output=True).stdout


@unittest.skipUnless(PROGRAM.exists(), "the program is not built: bash examples/run")
class Example(unittest.TestCase):
    def read(self, engine, places):
        of_plan = plan_of(places)
        return book.read(output(engine, of_plan.data()), of_plan)

    def balked(self, engine, places):
        return [session.vehicle for session in self.read(engine, places).sessions if session.outcome == "balked"]

    def test_the_book(self):
        for engine in (0, 1):
            sessions = self.read(engine, 1).sessions
            self.assertEqual([session.vehicle for session in sessions], [11, 12, 14, 13, 21, 22, 15])
            self.assertEqual([session.outcome for session in sessions], ["charged"] * 2 + ["balked"] + ["charged"] * 4)
            self.assertEqual([session.fleet for session in sessions], [1 if session.vehicle in VANS else None for session in sessions])

    def test_the_waits_by_events(self):
        waits = {session.vehicle: session.wait for session in self.read(0, 1).sessions}
        self.assertEqual(waits, {11: 0, 12: 0, 13: 1680, 14: 0, 21: 1560, 22: 3240, 15: 1560})

    def test_other_places(self):
        for engine in (0, 1):
            self.assertEqual(self.balked(engine, 0), [13, 14, 15])
            for places in (2, 64):
                self.assertEqual(self.balked(engine, places), [])

    def test_the_table(self):
        lines = tables.show(self.read(0, 1))
        self.assertEqual([line.split()[:3] for line in lines[3:6]], [["12", "1", "2"], ["14", "1", "balked"], ["13", "1", "1"]])
        self.assertEqual(lines[6].split()[:2], ["21", "2"])

    def test_what_is_refused_by_7(self):
        data = plan_of(1).data()
        for block, at, new in [(1, 24, b"\x41"), (1, 87, b"\x41"), (1, 88, b"\1"), (5, 60, b"\x41"), (5, 60, b"\0\1"), (9, 60, b"\x41"), (9, 62, b"\1")]:
            self.assertEqual(output(0, altered(data, 512 * (block - 1) + at, new)), b"7 %d 0\n" % block)
        for block, at in [(1, 24), (1, 87), (9, 60)]:
            self.assertTrue(output(0, altered(data, 512 * (block - 1) + at, b"\x40")).startswith(b"BOOK"))


@unittest.skipUnless(BOOK_READER.exists(), "the program over site_read_book is not built: bash examples/link")
class ReadBack(unittest.TestCase):
    def lines(self, sessions):
        with tempfile.NamedTemporaryFile() as of_book:
            of_book.write(book_bytes(sessions))
            of_book.flush()
            return subprocess.run([BOOK_READER, of_book.name], capture_output=True).stdout.decode().splitlines()

    def test_the_fleet_of_a_session(self):
        self.assertEqual(self.lines(OF_FLEETS)[0], "vehicle 7 of fleet 1: 25.000 kWh")
        self.assertEqual(self.lines([OF_FLEETS[0] | {"fleet": 65}]), ["refused by 16"])


if __name__ == "__main__":
    unittest.main()
