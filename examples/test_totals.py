"""Totals: what the tool makes of the program's line, and what the program says of books, whole and damaged."""
import math
import os
import struct
import subprocess
import sys
import unittest
from pathlib import Path

import sitebook
from made_books import BALKED, CHARGED, EACH, OF_FLEETS, OPEN, RENEGED, altered, book_bytes
from sitefiles import blocks, book, tables, totals
from sitefiles.blocks import BLOCK, Damaged
from sitefiles.sessions import FIELDS, OUTCOMES
from sitefiles.tables import Named
from sitefiles.totals import Totals
from test_book import recorded_outputs
from test_sitebook import Commands

PROGRAM = Path(__file__).resolve().parent.parent / "target" / "bin" / "totals"


def bits_of(value):
    return struct.unpack("<Q", struct.pack("<d", value))[0]


def line_of(book):
    """What the program writes of a book with these totals."""
    return " ".join(map(str, [0, *book.by_outcome, bits_of(book.energy_kwh), book.longest_wait])) + "\n"


class Lines(unittest.TestCase):
    def test_totals(self):
        read = totals.read(b"0 1 2 3 4 %d 900\n" % bits_of(25.1))
        self.assertEqual((read, read.sessions), (Totals((1, 2, 3, 4), 25.1, 900), 10))

    def test_refusals(self):
        self.assertEqual([totals.read(b"%d 0 0\n" % number).number for number in (15, 16)], [15, 16])

    def test_what_is_neither(self):
        totals_alike = ["0", "0 0 0 0 0 0", "0 0 0 0 0 0 0 0", "1 0 0 0 0 0 0", "0  0 0 0 0 0 0", f"0 0 0 0 0 {2**64} 0"]
        refusals_alike = ["14 0 0", "17 0 0", "15 1 0", "16 0", "-15 0 0"]
        for line in ["", "0 0 0 0 0 0 0", "BOOK", *(f"{words}\n" for words in totals_alike + refusals_alike)]:
            with self.assertRaises(Damaged, msg=line):
                totals.read(line.encode())


FOUR, TWO, NONE = Totals((1, 1, 1, 1), 25.0, 300), Totals((0, 1, 1, 0), 0.1, 900), Totals((0, 0, 0, 0), 0.0, 0)


FIRST = book_bytes(EACH)
SECOND = book_bytes([CHARGED | {"charger": 0, "energy_kwh": 0.1}, RENEGED | {"wait": 900}], engine=0)


class Table(unittest.TestCase):
    def test_a_row_for_each_book_and_charger_and_the_sums(self):
        self.assertEqual(
            tables.totals([Named("first.book", FOUR, book.read(FIRST)), Named("second.book", TWO, book.read(SECOND))]),
            [
                "2 books (1 by events, 1 by steps), 6 sessions: 1 open, 2 charged, 2 reneged, 1 balked",
                "energy of the charged sessions: 25.100 kWh",
                "longest wait: 900 s, vehicle 9 (reneged) in second.book",
                "       book  sessions  open  charged  reneged  balked     kWh  longest wait s",
                " first.book         4     1        1        1       1  25.000             300",
                "second.book         2     0        1        1       0   0.100             900",
                "charger  sessions     kWh",
                "      0         1   0.100",
                "      3         2  25.000",
            ],
        )

    def test_a_row_for_each_fleet(self):
        of_fleets, second = Named("fleets.book", FOUR, book.read(book_bytes(OF_FLEETS))), Named("second.book", TWO, book.read(SECOND))
        self.assertEqual(
            tables.totals([of_fleets, second])[-3:],
            [
                "fleet  sessions  open  charged  reneged  balked     kWh  longest wait s",
                "    1         2     0        1        0       1  25.000              60",
                "   64         1     1        0        0       0   0.000              60",
            ],
        )

    def test_a_book_without_sessions(self):
        none = Named("none.book", NONE, book.read(book_bytes([])))
        lines = tables.totals([none])
        self.assertEqual(lines[0], "1 book (0 by events, 1 by steps), 0 sessions: 0 open, 0 charged, 0 reneged, 0 balked")
        self.assertEqual(lines[1:3], ["energy of the charged sessions: 0.000 kWh", "longest wait: none"])
        self.assertEqual(tables.totals([none, Named("second.book", TWO)])[2], "longest wait: 900 s, in second.book")

    def test_a_run_that_has_not_ended(self):
        cut = Named("cut.book", Totals((1, 0, 0, 0), 0.0, 60), book.read(book_bytes([OPEN], ended=0)))
        self.assertIn("warning: cut.book: the run has not ended", tables.totals([cut])[-1])

    def test_a_book_that_cannot_be_shown(self):
        lines = tables.totals([Named("twice.book", Totals((0, 2, 0, 0), 50.0, 60), fault="session 2: vehicle 7 has a session already")])
        self.assertEqual(lines[0], "1 book (0 by events, 0 by steps), 2 sessions: 0 open, 2 charged, 0 reneged, 0 balked")
        self.assertEqual(lines[-1], "warning: twice.book: it is in the sums, but not among the engines, the chargers and the fleets: session 2: vehicle 7 has a session already")


class Tool(Commands):
    """With a stand-in for the program, which knows what to say of each book that it will be given."""

    TWICE = book_bytes([CHARGED, CHARGED])
    ANSWERS = {
        FIRST: line_of(FOUR),
        SECOND: line_of(TWO),
        TWICE: line_of(Totals((0, 2, 0, 0), 50.0, 60)),
        b"": "15 0 0\n",
        b"16": "16 0 0\n",
        b"plan": "12 7 4\n",
    }

    def setUp(self):
        super().setUp()
        self.reader = self.program(f"import sys\nsys.stdout.write({self.ANSWERS!r}[sys.stdin.buffer.read()])\n")
        self.first, self.second = self.file("first.book", FIRST), self.file("second.book", SECOND)

    def program(self, script):
        path = self.file("reader", f"#!{sys.executable}\n{script}".encode())
        os.chmod(path, 0o700)
        return path

    def lines(self, *names, stdin=b""):
        return self.succeeds("totals", "--reader", self.reader, *names, stdin=stdin).decode().splitlines()

    def refused(self, *names, reader=None):
        return self.fails("totals", "--reader", reader or self.reader, *names)

    def test_totals(self):
        named = [Named(self.first, FOUR, book.read(FIRST)), Named(self.second, TWO, book.read(SECOND))]
        self.assertEqual(self.lines(self.first, self.second), tables.totals(named))

    def test_a_book_that_the_program_takes_and_the_tool_cannot_show(self):
        lines = self.lines(self.file("twice.book", self.TWICE))
        self.assertIn("energy of the charged sessions: 50.000 kWh", lines)
        self.assertIn("vehicle 7 has a session already", lines[-1])

    def test_a_book_on_standard_input(self):
        self.assertEqual(self.lines("-", stdin=SECOND), tables.totals([Named("standard input", TWO, book.read(SECOND))]))

    def test_a_refusal_names_the_file(self):
        empty, wrong = self.file("empty.book", b""), self.file("wrong.book", b"16")
        self.assertEqual(
            self.refused(self.first, empty),
            f"{empty}: refused by 15: the book's length is 0, not a multiple of 512 bytes or above 14 blocks, or a block's check is wrong\n",
        )
        self.assertEqual(
            self.refused(wrong, self.first),
            f"{wrong}: refused by 16: a header or session field, a zero byte, or the block count for the session count is against the book's rules\n",
        )

    def test_the_program_is_that_of_the_repository(self):
        self.assertEqual(sitebook.parser().parse_args(["totals", self.first]).reader, PROGRAM)

    def test_a_program_that_is_not_there(self):
        self.assertEqual(self.refused(self.first, reader="none/totals"), "none/totals: there is no such program; bash examples/run builds it\n")

    def test_a_program_that_cannot_be_run(self):
        self.assertEqual(self.refused(self.first, reader=self.first), f"{self.first}: Permission denied\n")

    def test_a_program_that_says_something_else(self):
        other = self.file("other.book", b"plan")
        self.assertEqual(self.refused(other), f"{self.reader}: it wrote b'12 7 4\\n', which is neither totals nor a refusal of a book\n")
        self.assertIn("it wrote b'', which is neither", self.refused(self.first, reader=self.program("")))

    def test_a_book_that_is_not_there(self):
        self.assertIn("none.book: No such file", self.refused("none.book"))


@unittest.skipUnless(PROGRAM.exists(), "the program is not built: bash examples/run")
class Program(Commands):
    def says(self, data):
        return subprocess.run([PROGRAM], input=data, capture_output=True).stdout.decode()

    def expect(self, data, counts, energy, wait):
        self.assertEqual(self.says(data), line_of(Totals(counts, energy, wait)))

    def expect_refusal(self, data, number):
        self.assertEqual(self.says(data), f"{number} 0 0\n")

    def test_the_tool_asks_it(self):
        path = self.file("first.book", FIRST)
        self.assertEqual(self.succeeds("totals", path).decode().splitlines(), tables.totals([Named(path, FOUR, book.read(FIRST))]))
        self.assertIn(f"{path}: refused by 15: ", self.fails("totals", self.file("first.book", FIRST[:-1])))

    def test_every_recorded_book(self):
        for output in recorded_outputs():
            if output.startswith(b"BOOK"):
                sessions, energy = book.read(output).sessions, 0.0
                for session in sessions:
                    energy += session.energy_kwh or 0.0
                counts = [sum(session.outcome == outcome for session in sessions) for outcome in OUTCOMES]
                self.expect(output, counts, energy, max((session.wait for session in sessions), default=0))

    def test_books_of_every_size(self):
        for count in [0, 1, 4, 5, 6, 10, 63, 64]:
            energy = 0.0
            for _ in range(count):
                energy += 0.1
            data = book_bytes([CHARGED | {"vehicle": k, "energy_kwh": 0.1, "wait": k} for k in range(count)])
            self.expect(data, [0, count, 0, 0], energy, max(count - 1, 0))

    def test_what_is_not_tied_together_is_accepted(self):
        for ended in (0, 1):
            self.expect(book_bytes(EACH + EACH, engine=0, ended=ended, used=2**64 - 1), [2, 2, 2, 2], 50.0, 300)
        self.expect(book_bytes([BALKED | {"wait": 2**64 - 1}]), [0, 0, 0, 1], 0.0, 2**64 - 1)
        self.expect(book_bytes([CHARGED | {"arrival": 9000, "plugin": 1, "unplug": 0}]), [0, 1, 0, 0], 25.0, 60)

    def test_energies_of_any_bits(self):
        for energies, total in [([-0.0], 0.0), ([-2.5, 1.0], -1.5), ([math.inf, 1.0], math.inf), ([1e300, 1.0, -1e300], 0.0)]:
            self.expect(book_bytes([CHARGED | {"energy_kwh": energy} for energy in energies]), [0, len(energies), 0, 0], total, 60)
        read = totals.read(self.says(book_bytes([CHARGED, CHARGED | {"energy_kwh": math.nan}])).encode())
        self.assertTrue(math.isnan(read.energy_kwh))

    def test_lengths(self):
        whole = book_bytes(EACH)
        for data in [b"", b"BOOK", whole[:-1], whole + b"\0", whole + bytes(BLOCK), whole + whole, book_bytes([CHARGED] * 66), bytes(BLOCK * 1000)]:
            self.expect_refusal(data, 15)

    def test_any_bit_that_is_turned(self):
        whole = book_bytes(EACH)
        for at in range(0, len(whole), 13):
            turned = bytearray(whole)
            turned[at] ^= 1 << at % 8
            self.expect_refusal(bytes(turned), 15)

    def test_blocks_that_are_swapped(self):
        many = book_bytes([CHARGED | {"vehicle": k} for k in range(12)])
        self.expect_refusal(many[:512] + many[1024:1536] + many[512:1024] + many[1536:], 15)

    def test_the_header(self):
        whole = book_bytes(EACH)
        for at, new in [(0, b"BOOX"), (4, b"\0"), (4, b"\3"), (4, b"\5"), (4, b"\6"), (5, b"\1"), (6, b"\2"), (7, b"\2"), (16, b"\1"), (507, b"\1")]:
            self.expect_refusal(altered(whole, at, new), 16)

    def test_blocks_for_the_sessions(self):
        whole = book_bytes(EACH)
        self.expect_refusal(whole[:BLOCK], 16)
        self.expect_refusal(whole + blocks.sealed(b"", 3), 16)
        self.expect_refusal(book_bytes([]) + blocks.sealed(b"", 2), 16)
        self.expect_refusal(book_bytes([CHARGED] * 65), 16)

    def test_codes(self):
        for session in [CHARGED, OPEN]:
            for connector in range(7):
                says = self.says(book_bytes([session | {"connector": connector}])).split(" ")[0]
                self.assertEqual(says, "0" if 1 <= connector <= 5 else "16")
        for session in EACH:
            for outcome in [4, 255]:
                self.expect_refusal(book_bytes([session | {"outcome": outcome}]), 16)

    def test_fleets(self):
        for session in EACH:
            for fleet in [0, 1, 64, 65, 255, 256, 257, 65535]:
                says = self.says(book_bytes([session | {"fleet": fleet}])).split(" ")[0]
                self.assertEqual(says, "0" if fleet <= 64 else "16")

    def test_fields_that_an_outcome_has_not(self):
        for session in EACH:
            for field in FIELDS:
                if session["outcome"] not in field.outcomes:
                    self.expect_refusal(book_bytes([session | {field.name: 1}]), 16)

    def test_minus_zero_is_not_missing(self):
        self.expect_refusal(book_bytes([OPEN | {"energy_kwh": -0.0}]), 16)

    def test_bytes_without_a_meaning(self):
        whole = book_bytes(EACH)
        for at in [512 + 4 * 96, 512 + 5 * 96, 1019]:
            self.expect_refusal(altered(whole, at, b"\1"), 16)

    def test_a_wrong_check_goes_before_a_wrong_field(self):
        self.expect_refusal(b"BOOX" + book_bytes(EACH)[4:], 15)


if __name__ == "__main__":
    unittest.main()
