"""Books and refusals: read as the program writes them, and refused where they are damaged."""
import math
import struct
import unittest
from pathlib import Path

from made_books import BALKED, CHARGED, EACH, OF_FLEETS, OPEN, RENEGED, altered, book_bytes
from made_dumps import FLEET_PLAN, PLAN
from sitefiles import blocks, book, plan, refusal, text
from sitefiles.blocks import BLOCK, Damaged

CRATES = Path(__file__).parent.parent / "crates"


def recorded_cases():
    """How many cases there are, by the first number of their file."""
    return struct.unpack("<I", (CRATES / "vectors" / "stdin").read_bytes()[:4])[0]


def recorded_outputs():
    """What the Rust original answered to the recorded cases: books and refusals, one after another."""
    data = (CRATES / "vectors" / "stdout").read_bytes()
    while data:
        if data.startswith(b"BOOK"):
            length = BLOCK * (1 + math.ceil(struct.unpack("<H", data[4:6])[0] / 5))
        else:
            length = data.index(b"\n") + 1
        yield data[:length]
        data = data[length:]


class Reading(unittest.TestCase):
    def test_every_recorded_book_and_refusal_can_be_read(self):
        outputs = list(recorded_outputs())
        self.assertEqual(len(outputs), recorded_cases())
        for output in outputs:
            if output.startswith(b"BOOK"):
                book.read(output)
            else:
                refusal.read(output)

    def test_the_fields_of_each_outcome(self):
        read = book.read(book_bytes(EACH, engine=0, ended=0, used=17))
        self.assertEqual((read.engine, read.ended, read.used), ("events", False, 17))
        charged, open_, reneged, balked = read.sessions
        self.assertEqual((charged.charger, charged.connector, charged.unplug, charged.energy_kwh), (3, "NACS", 2080, 25.0))
        self.assertEqual((open_.outcome, open_.plugin, open_.idle, open_.soc_end), ("open", 160, 120.0, 0.75))
        self.assertEqual((open_.unplug, open_.charge_duration, open_.peak_kw, open_.energy_kwh), (None,) * 4)
        self.assertEqual((reneged.outcome, reneged.wait, reneged.charger, reneged.plugin), ("reneged", 300, None, None))
        self.assertEqual((balked.outcome, balked.idle, balked.soc_end, balked.soc_start), ("balked", None, None, 0.5))

    def test_sessions_of_every_outcome_have_their_fleet(self):
        data = book_bytes(OF_FLEETS)
        self.assertEqual([data[512 + 96 * k + 14 : 512 + 96 * k + 16] for k in range(4)], [b"\1\0", b"\x40\0", b"\0\0", b"\1\0"])
        self.assertEqual([session.fleet for session in book.read(data).sessions], [1, 64, None, 1])

    def test_id_0_is_an_id(self):
        self.assertEqual(book.read(book_bytes([CHARGED | {"charger": 0}])).sessions[0].charger, 0)

    def test_books_of_every_size(self):
        for count in [0, 1, 5, 6, 64]:
            sessions = [CHARGED | {"vehicle": k} for k in range(count)]
            self.assertEqual([session.vehicle for session in book.read(book_bytes(sessions)).sessions], list(range(count)))


class Damage(unittest.TestCase):
    def expect(self, data, saying, of_plan=None):
        with self.assertRaises(Damaged) as caught:
            book.read(data, of_plan)
        self.assertIn(saying, str(caught.exception))

    def setUp(self):
        self.whole = book_bytes(EACH)

    def test_any_bit_that_is_turned(self):
        for at in range(len(self.whole)):
            turned = bytearray(self.whole)
            turned[at] ^= 1 << at % 8
            with self.assertRaises(Damaged, msg=f"byte {at}"):
                book.read(bytes(turned))

    def test_a_check_is_that_of_its_place(self):
        turned = bytearray(self.whole)
        turned[600] ^= 1
        self.expect(bytes(turned), "block 2 (bytes 512 to 1023): its check does not agree")
        many = book_bytes([CHARGED | {"vehicle": k} for k in range(12)])
        swapped = many[:512] + many[1024:1536] + many[512:1024] + many[1536:]
        self.expect(swapped, "block 2 ")

    def test_lengths(self):
        self.expect(self.whole[:-1], "1023 bytes, which is no multiple of 512")
        self.expect(self.whole + b"\n", "1025 bytes")
        self.expect(self.whole[:512], "4 sessions, which take 1024 bytes, and the file has 512")
        self.expect(self.whole + blocks.sealed(b"", 3), "4 sessions, which take 1024 bytes, and the file has 1536")
        self.expect(self.whole + self.whole, "block 3 ")

    def test_letters(self):
        self.expect(altered(self.whole, 0, b"BOOX"), "the letters BOOK")

    def test_the_header(self):
        self.expect(altered(self.whole, 4, struct.pack("<H", 65)), "65 sessions; a book has at most 64")
        self.expect(altered(self.whole, 4, struct.pack("<H", 6)), "6 sessions, which take 1536 bytes")
        self.expect(altered(self.whole, 6, b"\2"), "byte 6: engine 2")
        self.expect(altered(self.whole, 7, b"\2"), "byte 7: ended is 2")

    def test_bytes_without_a_meaning_are_zero(self):
        self.expect(altered(self.whole, 16, b"\1"), "byte 16 (the header): it is 1, and must be zero")
        self.expect(altered(self.whole, 507, b"\1"), "byte 507 (the header)")
        self.expect(altered(self.whole, 512 + 4 * 96, b"\5"), "byte 896 (block 2, behind its last session): it is 5")
        self.expect(altered(self.whole, 1019, b"\1"), "byte 1019 (block 2, behind its last session)")

    def test_fields_that_an_outcome_has_not_are_zero(self):
        for session, name in [(OPEN, "unplug"), (OPEN, "energy_kwh"), (RENEGED, "charger"), (RENEGED, "soc_end"), (BALKED, "plugin")]:
            self.expect(book_bytes([session | {name: 1}]), f"has no {name}): it is")

    def test_codes(self):
        self.expect(book_bytes([CHARGED | {"outcome": 4}]), "session 1 (block 2, bytes 512 to 607): outcome 4")
        self.expect(book_bytes([CHARGED | {"connector": 6}]), "connector 6; it can be 1 to 5")
        self.expect(book_bytes([OPEN | {"connector": 0}]), "connector 0")
        for session in EACH:
            for fleet in [65, 256, 65535]:
                self.expect(book_bytes([session | {"fleet": fleet}]), f"session 1 (block 2, bytes 512 to 607): fleet {fleet}; it can be 0 (none) to 64")

    def test_floats_are_amounts(self):
        for value in [math.nan, math.inf, -1.0]:
            self.expect(book_bytes([CHARGED | {"energy_kwh": value}]), "energy_kwh is")

    def test_a_vehicle_has_one_session(self):
        self.expect(book_bytes([CHARGED, RENEGED, CHARGED]), "session 3: vehicle 7 has a session already, session 1")

    def test_a_vehicle_has_the_fleet_of_its_plan(self):
        of_fleet = BALKED | {"fleet": 3}
        for session, of_plan, said in [
            (of_fleet, PLAN, "vehicle 10 has fleet 3 in the book and no fleet in day.txt"),
            (BALKED, FLEET_PLAN, "vehicle 10 has no fleet in the book and fleet 3 in day.txt"),
            (BALKED | {"fleet": 4}, FLEET_PLAN, "vehicle 10 has fleet 4 in the book and fleet 3 in day.txt"),
        ]:
            self.expect(book_bytes([session]), f"{said}: the book is of another plan", of_plan)
        self.assertEqual(book.read(book_bytes([of_fleet, CHARGED]), FLEET_PLAN).sessions[0].fleet, 3)


class Refusals(unittest.TestCase):
    PLAN = text.read_plan(
        "day.txt",
        b"# a site\nprofile 5 battery 50 points 0.5:50\n\ncharger 6 power 50 current 9 voltage 9 connectors\n"
        b"vehicle 7 profile 5 connectors soc 0 1 idle 0 arrival 0 wait 0 queue 0 # late\n",
    )

    def words(self, line, of_plan=None):
        return refusal.in_words(refusal.read(line), of_plan)

    def test_each_rule_has_words(self):
        for number in range(1, 20):
            self.assertTrue(self.words(b"%d 0 0\n" % number)[0].startswith(f"refused by {number}: "))

    def test_places_without_a_plan(self):
        self.assertEqual(self.words(b"12 4 3\n")[1:], ["  block 4 of the plan", "  block 3 of the plan"])
        self.assertEqual(len(self.words(b"4 0 0\n")), 1)

    def test_places_by_the_description(self):
        self.assertEqual(
            self.words(b"12 4 3\n", self.PLAN)[1:],
            [
                "  block 4 of day.txt, vehicle 7, line 5: vehicle 7 profile 5 connectors soc 0 1 idle 0 arrival 0 wait 0 queue 0",
                "  block 3 of day.txt, charger 6, line 4: charger 6 power 50 current 9 voltage 9 connectors",
            ],
        )
        self.assertEqual(self.words(b"6 1 0\n", self.PLAN)[1:], ["  block 1 of day.txt, the header"])

    def test_places_by_the_bytes(self):
        by_bytes = plan.from_bytes("day.plan", self.PLAN.data())
        self.assertEqual(self.words(b"9 2 0\n", by_bytes)[1:], ["  block 2 of day.plan, profile 5"])
        torn = plan.from_bytes("day.plan", self.PLAN.data()[:-512])
        self.assertEqual(self.words(b"5 3 0\n", torn)[1:], ["  block 3 of day.plan"])
        self.assertEqual(self.words(b"4 0 0\n", plan.from_bytes("day.plan", b"\0"))[1:], [])

    def test_another_plan(self):
        with self.assertRaises(Damaged) as caught:
            self.words(b"5 9 0\n", self.PLAN)
        self.assertIn("names block 9, and day.txt has 4 blocks", str(caught.exception))

    def test_what_is_no_refusal(self):
        for line in [b"", b"0 0 0\n", b"20 0 0\n", b"5 2\n", b"5 2 0 0\n", b"5  2 0\n", b"-5 2 0\n", b"BOOX", b"5 2 0\nx", b"\xff"]:
            with self.assertRaises(Damaged, msg=line):
                refusal.read(line)


if __name__ == "__main__":
    unittest.main()
