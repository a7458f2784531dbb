"""The command line: what goes to standard output, what to standard error, and the exit status."""
import csv
import io
import struct
import subprocess
import sys
import tempfile
import unittest
from pathlib import Path
from unittest import mock

import sitebook
from made_books import CHARGED, EACH, OF_FLEETS, OPEN, book_bytes
from made_dumps import BOOKED_LATE, LONGER_PLAN, LONGER_TEXT, PLAN, TEXT, WAITING, dump_bytes
from sitefiles import blocks, book, dump
from sitefiles.tables import exact

HERE = Path(__file__).parent
SITE = HERE.parent / "crates" / "site"
RECORDED_INPUT, RECORDED_BOOK = (SITE / "stdin").read_bytes(), (SITE / "stdout").read_bytes()


class Commands(unittest.TestCase):
    def setUp(self):
        folder = tempfile.TemporaryDirectory()
        self.addCleanup(folder.cleanup)
        self.folder = Path(folder.name)

    def file(self, name, data):
        path = self.folder / name
        path.write_bytes(data)
        return str(path)

    def run_tool(self, *words, stdin=b""):
        """The exit status, and what went to standard output and to standard error."""
        given, out, said = io.TextIOWrapper(io.BytesIO(stdin)), io.TextIOWrapper(io.BytesIO()), io.StringIO()
        with mock.patch.multiple(sys, stdin=given, stdout=out, stderr=said):
            try:
                status = sitebook.main([str(word) for word in words])
            except SystemExit as end:
                status = end.code
        out.flush()
        return status, out.buffer.getvalue(), said.getvalue()

    def succeeds(self, *words, stdin=b""):
        status, out, said = self.run_tool(*words, stdin=stdin)
        self.assertEqual((status, said), (0, ""))
        return out

    def fails(self, *words, stdin=b""):
        """What is said on standard error; nothing is written to standard output."""
        status, out, said = self.run_tool(*words, stdin=stdin)
        self.assertEqual((status, out), (1, b""), said)
        self.assertNotIn("Traceback", said)
        return said


class Script(Commands):
    def run_script(self, *words, **more):
        return subprocess.run([sys.executable, HERE / "sitebook.py", *words], cwd=self.folder, capture_output=True, **more)

    def test_it_runs_from_any_folder(self):
        done = self.run_script("show", input=RECORDED_BOOK)
        self.assertEqual((done.returncode, done.stdout), (0, self.succeeds("show", stdin=RECORDED_BOOK)))
        done = self.run_script("show", input=b"5 2 0\n")
        self.assertEqual((done.returncode, done.stderr), (1, b""))

    def test_a_reader_that_goes_away_is_no_trouble(self):
        script = f"'{sys.executable}' '{HERE / 'sitebook.py'}' csv '{self.file('day.book', RECORDED_BOOK)}' | true"
        done = subprocess.run(["sh", "-c", script], capture_output=True)
        self.assertEqual(done.stderr, b"")


class Plans(Commands):
    def test_plan(self):
        self.assertEqual(self.succeeds("plan", HERE / "day.txt"), (HERE / "day.plan").read_bytes())

    def test_a_plan_with_faults_is_not_written(self):
        path = self.file("day.txt", b"limit 90\ncharger 1 power 75MW\nlimit 80\n")
        self.assertEqual(
            self.fails("plan", path).replace(path, "day.txt"),
            'day.txt:2: "75MW": power is in kW\nday.txt:3: "limit": a site has one limit, and it is given on line 1\nno plan is written\n',
        )

    def test_car(self):
        before, longer = self.file("day.txt", TEXT), self.file("longer.txt", LONGER_TEXT)
        car, of_plan, of_longer = self.succeeds("car", longer), self.succeeds("plan", before), self.succeeds("plan", longer)
        self.assertEqual(len(car), blocks.BLOCK)
        header = bytearray(of_plan[: blocks.BLOCK])
        header[8] += 1
        header[blocks.CHECK] += 1
        self.assertEqual(of_longer, header + of_plan[blocks.BLOCK :] + car)
        self.assertEqual(self.succeeds("car", "-", stdin=LONGER_TEXT), car)

    def test_a_car_that_cannot_be_read_is_not_written(self):
        path = self.file("longer.txt", LONGER_TEXT + b"vehicle 12 profile 1\n")
        self.assertEqual(
            self.fails("car", path).replace(path, "longer.txt"),
            'longer.txt:10: "12": this id has a vehicle already, on line 9\nno car is written\n',
        )
        path = self.file("longer.txt", TEXT[: TEXT.index(b"vehicle")])
        self.assertEqual(self.fails("car", path), f"{path}: there is no vehicle; the late car is the last one\nno car is written\n")

    def test_files_that_are_not_there(self):
        for words in [["plan", "none.txt"], ["car", "none.txt"], ["input", "steps", "5", "none.plan"], ["show", "none.book"], ["show", "--plan", "none.txt"]]:
            self.assertIn("none", self.fails(*words))
        self.assertIn("directory", self.fails("csv", str(self.folder)))

    def test_input(self):
        plan = HERE / "day.plan"
        for engine in ["steps", "1"]:
            self.assertEqual(self.succeeds("input", engine, "10000000", plan), RECORDED_INPUT)
        for engine in ["events", "0"]:
            self.assertEqual(self.succeeds("input", engine, "7", plan), b"\0\7\0\0\0" + plan.read_bytes())

    def test_input_of_a_text_is_warned_of(self):
        status, out, said = self.run_tool("input", "steps", "5", HERE / "day.txt")
        self.assertEqual((status, out[:5]), (0, b"\1\5\0\0\0"))
        self.assertIn("does not begin with the letters PLAN", said)

    def test_wrong_usage(self):
        for words in [
            [],
            ["paint"],
            ["plan"],
            ["plan", "a", "b"],
            ["car"],
            ["car", "a", "b"],
            ["input", "steps", "5"],
            ["input", "rounds", "5", "day.plan"],
            ["input", "256", "5", "day.plan"],
            ["input", "steps", "-5", "day.plan"],
            ["input", "steps", "4294967296", "day.plan"],
            ["input", "steps", "1_000", "day.plan"],
            ["show", "--plan"],
            ["totals"],
            ["totals", "--reader", "totals"],
            ["dump", "--plan"],
            ["dump", "a", "b"],
            ["practice", "day.txt"],
            ["practice", "--seed", "7", "day.txt"],
            ["practice", "--count", "7", "day.txt"],
            ["practice", "--seed", "7", "--count", "7"],
            ["practice", "--seed", "seven", "--count", "7", "day.txt"],
            ["practice", "--seed", "4294967296", "--count", "7", "day.txt"],
            ["practice", "--seed", "-1", "--count", "7", "day.txt"],
            ["practice", "--seed", "7", "--count", "7.0", "day.txt"],
            ["practice", "--seed", "7", "--count", "", "day.txt"],
        ]:
            status, out, said = self.run_tool(*words)
            self.assertEqual((status, out), (2, b""), words)
            self.assertIn("usage: sitebook.py", said)


class Books(Commands):
    def test_show(self):
        lines = self.succeeds("show", stdin=RECORDED_BOOK).decode().split("\n")
        self.assertEqual(lines[0], "7 sessions by steps, 30846 units used, ended")
        self.assertEqual(lines[2].split(), "7001 101 CCS2 charged 07:00:00 07:00:00 07:53:46 0 2926.0 300.0 75.00 30.001 0.20-0.80".split())
        self.assertEqual(lines[5].split(), "7006 balked 07:06:40 0 0.55".split())

    def test_show_a_file_with_its_plan(self):
        path = self.file("day.book", RECORDED_BOOK)
        by_text, by_bytes = (self.succeeds("show", "--plan", HERE / name, path) for name in ("day.txt", "day.plan"))
        self.assertEqual(by_text, by_bytes)
        self.assertNotIn(b"warning", by_text)

    def test_fleets_are_shown_where_there_are_some(self):
        _, title, *rows = self.succeeds("show", stdin=book_bytes(OF_FLEETS)).decode().splitlines()
        self.assertEqual(title.split()[:4], ["vehicle", "fleet", "charger", "connector"])
        wanted = [["7", "1", "3"], ["8", "64", "3"], ["9", "reneged", "00:03:20"], ["10", "1", "balked"]]
        self.assertEqual([row.split()[:3] for row in rows], wanted)
        self.assertNotIn(b"fleet", self.succeeds("show", stdin=book_bytes(EACH)))

    def test_a_limit_that_events_ignore_is_warned_of(self):
        data = book_bytes([CHARGED | {"vehicle": 7001, "charger": 101}], engine=0)
        for name in ("day.txt", "day.plan"):
            shown = self.succeeds("show", "--plan", HERE / name, stdin=data).decode()
            self.assertIn("warning: the plan limits the site to 90 kW, which a run by events ignores", shown)
        for command in ["csv", "picture"]:
            status, out, said = self.run_tool(command, "--plan", HERE / "day.txt", stdin=data)
            self.assertIn("warning: the plan limits the site to 90 kW", said)
        self.assertNotIn(b"warning", self.succeeds("show", stdin=data))

    def test_a_limit_shared_evenly_that_events_ignore_is_warned_of(self):
        warning = "warning: the plan limits the site to 25 kW, shared evenly, which a run by events ignores; run it by steps to obey the limit\n"
        of_text = HERE / "even_shares.txt"
        of_plan = self.file("even_shares.plan", self.succeeds("plan", of_text))
        by_events, by_steps = (book_bytes([CHARGED | {"vehicle": 11, "charger": 1}], engine=engine) for engine in (0, 1))
        for name in (of_text, of_plan):
            self.assertIn(warning, self.succeeds("show", "--plan", name, stdin=by_events).decode())
            for command in ["csv", "picture"]:
                self.assertEqual(self.run_tool(command, "--plan", name, stdin=by_events)[2], warning)
            self.assertNotIn(b"warning", self.succeeds("show", "--plan", name, stdin=by_steps))

    def test_a_run_that_has_not_ended_is_warned_of(self):
        data = book_bytes([OPEN | {"vehicle": 7001, "charger": 101}], ended=0)
        self.assertIn(b"warning: the run has not ended: its allowance of 3000 units is used up; 1 session open\n", self.succeeds("show", stdin=data))
        self.assertIn(b"1 session open, 6 vehicles without a session", self.succeeds("show", "--plan", HERE / "day.txt", stdin=data))
        for command in ["csv", "picture"]:
            status, out, said = self.run_tool(command, stdin=data)
            self.assertEqual(status, 0)
            self.assertIn("warning: the run has not ended", said)

    def test_a_book_of_another_plan(self):
        self.assertIn("vehicle 7 is not in", self.fails("show", "--plan", HERE / "day.txt", stdin=book_bytes([CHARGED])))
        stranger = CHARGED | {"vehicle": 7001}
        self.assertIn("charger 3 is not in", self.fails("show", "--plan", HERE / "day.txt", stdin=book_bytes([stranger])))

    def test_a_plan_with_faults_beside_a_book(self):
        self.assertIn("unknown kind", self.fails("show", "--plan", self.file("day.txt", b"plan\n"), stdin=RECORDED_BOOK))

    def test_a_refusal_in_words(self):
        status, out, said = self.run_tool("show", "--plan", HERE / "day.txt", stdin=b"12 7 4\n")
        self.assertEqual((status, said), (1, ""))
        lines = out.decode().split("\n")
        self.assertEqual(lines[0], "refused by 12: the vehicle fits the charger, and charging it there would take longer than 604,800 s (a week)")
        self.assertRegex(lines[1], r"  block 7 of .*day.txt, vehicle 7001, line \d+: vehicle 7001 profile 1 ")
        self.assertRegex(lines[2], r"  block 4 of .*day.txt, charger 101, line \d+: charger 101 power 75 kW ")

    def test_refusals_of_dumps_books_late_cars_and_practice_days_in_words(self):
        for line, saying in [
            (b"13 0 0\n", "the buffer for the dump is shorter than 16,384 bytes"),
            (b"14 0 0\n", "the dump is not that of this plan"),
            (b"15 0 0\n", "the book's length is 0, not a multiple of 512 bytes or above 14 blocks, or a block's check is wrong"),
            (b"16 0 0\n", "the block count for the session count is against the book's rules"),
            (b"17 0 0\n", "the plan has 64 vehicles already, so no late car can be booked"),
            (b"18 0 0\n", "the late car's arrival is not later than the last handled event"),
            (b"19 0 0\n", "a practice day's seed is 0, its count is not from 1 to 64"),
        ]:
            status, out, said = self.run_tool("show", "--plan", HERE / "day.txt", stdin=line)
            self.assertEqual((status, said, out.count(b"\n")), (1, "", 1))
            self.assertIn(saying, out.decode())

    def test_damage_is_refused_by_every_command_that_reads_by_itself(self):
        torn = self.file("torn.book", RECORDED_BOOK[:-1])
        for words in [["show", torn], ["csv", torn], ["picture", torn]]:
            self.assertIn(f"{torn}: the file has 1535 bytes, which is no multiple of 512", self.fails(*words))

    def test_what_is_no_book(self):
        self.assertIn("standard input: it is empty", self.fails("show"))
        self.assertIn("neither a book", self.fails("show", stdin=b"hello\n"))
        for command in ["csv", "picture"]:
            self.assertIn("refused by 5: ", self.fails(command, self.file("refusal", b"5 2 0\n")))

    def test_csv_has_every_field_in_full(self):
        rows = list(csv.DictReader(io.StringIO(self.succeeds("csv", stdin=RECORDED_BOOK).decode())))
        sessions = book.read(RECORDED_BOOK).sessions
        self.assertEqual(len(rows), len(sessions))
        for row, session in zip(rows, sessions):
            for name, value in vars(session).items():
                written = row.get(name, row.get(f"{name}_s"))
                self.assertEqual(written, "" if value is None else str(exact(value)))
                if isinstance(value, float):
                    self.assertEqual(float(written), value)
        self.assertEqual(rows[0]["energy_kwh"], "30.000790290734237")
        self.assertEqual((rows[6]["connector"], rows[3]["outcome"], rows[3]["charger"]), ("CHAdeMO", "balked", ""))

    def test_csv_has_the_fleets(self):
        rows = list(csv.DictReader(io.StringIO(self.succeeds("csv", stdin=book_bytes(OF_FLEETS)).decode())))
        self.assertEqual([row["fleet"] for row in rows], ["1", "64", "", "1"])

    def test_picture(self):
        path = self.file("day.book", RECORDED_BOOK)
        self.assertTrue(self.succeeds("picture", path).startswith(b"<svg "))
        self.assertIn(b"charger 103", self.succeeds("picture", "--plan", HERE / "day.txt", path))


class Dumps(Commands):
    WHOLE = dump_bytes(**WAITING)

    def test_dump(self):
        shown = self.succeeds("dump", stdin=self.WHOLE).decode()
        self.assertEqual(shown.split("\n"), dump.in_words(dump.read(self.WHOLE)) + [""])
        self.assertIn("vehicle of block 7", shown)

    def test_dump_with_its_plan(self):
        path, of_plan = self.file("day.dump", self.WHOLE), self.file("day.plan", PLAN.data())
        self.assertIn(b"charger 3 with vehicle 7\n", self.succeeds("dump", "--plan", of_plan, path))

    def test_dump_of_a_longer_plan(self):
        data, longer = dump_bytes(**BOOKED_LATE), self.file("longer.txt", LONGER_TEXT)
        shown = self.succeeds("dump", "--plan", longer, stdin=data).decode()
        self.assertEqual(shown.split("\n"), dump.in_words(dump.read(data), LONGER_PLAN) + [""])
        self.assertIn("block 10 of ", self.fails("dump", "--plan", self.file("day.txt", TEXT), stdin=data))

    def test_a_limit_that_events_ignore_is_warned_of(self):
        for mode, words in [(1, b"90 kW, which"), (2, b"90 kW, shared evenly, which")]:
            limited = self.file("day.plan", b"".join([PLAN.data()[:12], struct.pack("<Bxxxd", mode, 90), PLAN.data()[24:]]))
            self.assertIn(b"warning: the plan limits the site to " + words, self.succeeds("dump", "--plan", limited, stdin=self.WHOLE))

    def test_what_is_no_dump_of_the_plan(self):
        torn = self.file("torn.dump", self.WHOLE[:-1])
        self.assertEqual(
            self.fails("dump", torn), f"{torn}: the file has 1535 bytes, which is no multiple of 512: it is cut off, or something was added\n"
        )
        self.assertIn("standard input: the file does not begin with the letters DUMP", self.fails("dump", stdin=RECORDED_BOOK))
        self.assertIn("standard input: block 7 of ", self.fails("dump", "--plan", HERE / "bay.txt", stdin=self.WHOLE))
        self.assertIn("none.dump", self.fails("dump", "none.dump"))


if __name__ == "__main__":
    unittest.main()
