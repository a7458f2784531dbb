"""The bytes shown in docs/FORMATS.md are those of the plan that it names, of the book and the dump that are written for it, and of a late
booking; the numbers are those of the book."""
import re
import struct
import subprocess
import tempfile
import unittest
from pathlib import Path

from sitefiles import blocks, book, dump, text, totals
from sitefiles.dump import Event, Place
from sitefiles.totals import Totals

HERE = Path(__file__).parent
PAGE = (HERE.parent / "docs" / "FORMATS.md").read_text()
PROGRAM = HERE.parent / "target" / "bin" / "site"
READER = HERE.parent / "target" / "bin" / "totals"
DUMPER = HERE.parent / "target" / "examples" / "dump"
LATE = HERE.parent / "target" / "examples" / "late"
BOOK_READER = HERE.parent / "target" / "examples" / "read_book"
BLOCK = re.compile(r"    Block (\d+): ")
BYTES = re.compile(r" +(\d+)  ((?:[0-9a-f]{2} )+) ")
NUMBER = re.compile(r"^ +(\d+)  0x([0-9a-f]+) ", re.MULTILINE)
CAR = re.compile(r"^    (vehicle .*\n)", re.MULTILINE)
TOTALS = re.compile(r"^    (0(?: \d+){6}\n)", re.MULTILINE)


def shown_files():
    """The files whose bytes the page shows, one after another; each begins with a block 1."""
    files = []
    for line in PAGE.split("\n"):
        if (begun := BLOCK.match(line)) and begun[1] == "1":
            files.append(b"")
        if begun:
            start = blocks.BLOCK * (int(begun[1]) - 1)
            files[-1] = files[-1].ljust(start + blocks.BLOCK, b"\0")
        elif shown := BYTES.match(line):
            at, data = start + int(shown[1]), bytes.fromhex(shown[2])
            files[-1] = files[-1][:at] + data + files[-1][at + len(data) :]
    return files


class Page(unittest.TestCase):
    def setUp(self):
        self.plan, self.book, self.dump, longer, new_dump = shown_files()
        # Blocks that stay as they are above are not shown again.
        self.longer_plan = longer[:512] + self.plan[512:] + longer[len(self.plan) :]
        self.new_dump = new_dump + self.dump[len(new_dump) :]

    def test_the_plan_is_that_of_its_description(self):
        self.assertEqual(self.plan, text.read_plan("bay.txt", (HERE / "bay.txt").read_bytes()).data())

    def test_the_book_is_whole(self):
        read = book.read(self.book)
        self.assertEqual((read.engine, read.ended, read.used, len(read.sessions)), ("events", True, 3, 1))
        self.assertEqual((read.sessions[0].unplug, read.sessions[0].energy_kwh), (2020, 25.0))

    @unittest.skipUnless(PROGRAM.exists(), "the program is not built: bash examples/run")
    def test_the_book_is_what_the_program_writes(self):
        done = subprocess.run([PROGRAM], input=b"\0\x64\0\0\0" + self.plan, capture_output=True)
        self.assertEqual(done.stdout, self.book)

    def test_the_numbers_are_those_of_the_book(self):
        count, engine, ended, used = struct.unpack_from("<HBBQ", self.book, 4)
        self.assertIn(f"the book above has the header {count}, {engine}, {ended}, {used} (", PAGE)
        numbers = struct.unpack_from("<IIIBBH10Q", self.book, blocks.BLOCK)
        self.assertEqual([(int(place), int(number, 16)) for place, number in NUMBER.findall(PAGE)], list(enumerate(numbers)))

    def test_the_totals_are_those_of_the_book(self):
        [line] = TOTALS.findall(PAGE)
        self.assertEqual(totals.read(line.encode()), Totals((0, 1, 0, 0), 25.0, 0))

    @unittest.skipUnless(READER.exists(), "the program is not built: bash examples/run")
    def test_the_totals_are_what_the_program_writes(self):
        done = subprocess.run([READER], input=self.book, capture_output=True)
        self.assertEqual([done.stdout.decode()], TOTALS.findall(PAGE))

    @unittest.skipUnless(BOOK_READER.exists(), "the program over site_read_book is not built: bash examples/link")
    def test_the_book_is_read_by_the_call(self):
        with tempfile.TemporaryDirectory() as folder:
            of_book = Path(folder) / "bay.book"
            of_book.write_bytes(self.book)
            whole = subprocess.run([BOOK_READER, of_book], capture_output=True)
            of_book.write_bytes(self.book + self.book)
            longer = subprocess.run([BOOK_READER, of_book], capture_output=True)
        totals_of_the_book = "0 open, 1 charged, 0 reneged, 0 balked, 25.000 kWh, longest wait 0 s"
        self.assertEqual(whole.stdout.decode().splitlines(), ["vehicle 3: 25.000 kWh", totals_of_the_book])
        self.assertEqual((longer.returncode, longer.stdout), (1, b"refused by 15\n"))

    def test_the_dump_is_whole(self):
        read = dump.read(self.dump, text.read_plan("bay.txt", (HERE / "bay.txt").read_bytes()))
        charger, vehicle = Place("charger", 3), Place("vehicle", 4)
        self.assertEqual((read.used, read.queue, read.busy), (1, [], [(charger, vehicle)]))
        self.assertEqual(read.events, [Event(1900, "renege", vehicle), Event(2020, "unplug", charger)])
        self.assertEqual(read.sessions, book.read(self.book).sessions)

    @unittest.skipUnless(DUMPER.exists(), "the program over site_dump is not built: bash examples/link")
    def test_the_dump_is_what_the_call_writes_and_continues_to_the_book(self):
        with tempfile.TemporaryDirectory() as folder:
            of_plan, of_dump = Path(folder) / "bay.plan", Path(folder) / "bay.dump"
            of_plan.write_bytes(self.plan)
            of_dump.write_bytes(self.dump)
            dumped = subprocess.run([DUMPER, of_plan, "1"], capture_output=True)
            continued = subprocess.run([DUMPER, of_plan, of_dump, "100"], capture_output=True)
        self.assertEqual((dumped.stdout, continued.stdout), (self.dump, self.book))

    def read_longer_plan(self):
        [line] = CAR.findall(PAGE)
        return text.read_plan("longer.txt", (HERE / "bay.txt").read_bytes() + line.encode())

    def test_the_longer_plan_is_that_of_its_description(self):
        self.assertEqual(self.longer_plan, self.read_longer_plan().data())

    def test_the_new_dump_is_the_dump_with_the_events_of_the_car(self):
        before, read = dump.read(self.dump), dump.read(self.new_dump, self.read_longer_plan())
        self.assertEqual((read.used, read.queue, read.busy, read.sessions), (before.used, before.queue, before.busy, before.sessions))
        car = Place("vehicle", 5)
        self.assertEqual(read.events, [Event(200, "arrival", car), *before.events, Event(2100, "renege", car)])

    @unittest.skipUnless(LATE.exists() and DUMPER.exists(), "the program over site_book_late is not built: bash examples/link")
    def test_the_new_dump_is_what_the_call_writes_and_continues_as_planned_in_full(self):
        car = self.longer_plan[-512:]
        early = blocks.sealed(car[:40] + struct.pack("<Q", 100) + car[48 : blocks.CHECK], 5)
        with tempfile.TemporaryDirectory() as folder:
            files = dict(plan=self.plan, dump=self.dump, car=car, early=early, longer=self.longer_plan, new=self.new_dump)
            paths = {name: Path(folder) / name for name in files}
            for name, data in files.items():
                paths[name].write_bytes(data)

            def written(program, *words):
                return subprocess.run([program, *(paths.get(word, word) for word in words)], capture_output=True)

            self.assertEqual(written(LATE, "plan", "dump", "car").stdout, self.new_dump)
            self.assertEqual(written(LATE, "plan", "car").stdout, self.longer_plan)
            continued = written(DUMPER, "longer", "new", "100").stdout
            self.assertEqual(continued, written(DUMPER, "longer").stdout)
            refused = written(LATE, "plan", "dump", "early")
        self.assertEqual((refused.returncode, refused.stdout, refused.stderr), (1, b"", b"18 0 0\n"))
        read = book.read(continued)
        self.assertEqual((read.used, read.ended, [each.unplug for each in read.sessions]), (6, True, [2020, 3940]))


if __name__ == "__main__":
    unittest.main()
