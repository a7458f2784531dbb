"""Dumps: read and put into words, and refused where they are damaged or of another plan."""
import struct
import unittest

from made_books import CHARGED, EACH, altered, book_bytes
from made_dumps import ARRIVAL, BOOKED_LATE, ENDED, FLEET_PLAN, LONGER_PLAN, OF_FLEETS, PLAN, RENEGE, UNPLUG, WAITING, dump_bytes
from sitefiles import blocks, book, dump, plan, tables
from sitefiles.blocks import Damaged
from sitefiles.dump import Event, Place


def words(state, of_plan=None):
    return dump.in_words(dump.read(dump_bytes(**state), of_plan), of_plan)


class Reading(unittest.TestCase):
    def test_the_fields(self):
        read = dump.read(dump_bytes(**WAITING))
        self.assertEqual((read.used, read.queue), (6, [Place("vehicle", 7), Place("vehicle", 6)]))
        self.assertEqual(read.busy, [(Place("charger", 3), Place("vehicle", 5))])
        self.assertEqual(read.events[0], Event(500, "renege", Place("vehicle", 7)))
        self.assertEqual(read.events[1], Event(600, "arrival", Place("vehicle", 9)))
        self.assertEqual(read.events[2], Event(2080, "unplug", Place("charger", 3)))
        self.assertEqual([(session.vehicle, session.outcome) for session in read.sessions], [(7, "charged"), (10, "balked")])

    def test_the_fields_are_where_they_should_be(self):
        data = bytearray(dump_bytes(**WAITING))
        self.assertEqual(data[:16], b"DUMP\2\0\1\0\4\0\2\0\0\0\0\0")
        self.assertEqual((data[16:30], data[150:158]), (b"\6\0\0\0\0\0\0\0\7\0\6\0\0\0", b"\0\0\3\0\5\0\0\0"))
        self.assertEqual(data[512 + 32 : 512 + 48], b"\x20\x08\0\0\0\0\0\0\2\0\3\0\0\0\0\0")
        self.assertEqual(data[1024:1028], b"\7\0\0\0")

    def test_the_book_is_that_of_the_run_at_this_point(self):
        for state, ended in [(WAITING, 0), (ENDED, 1)]:
            at_this_point = book_bytes(state["sessions"], engine=0, ended=ended, used=state["used"])
            self.assertEqual(dump.read(dump_bytes(**state)).book(), book.read(at_this_point))

    def test_dumps_of_every_size(self):
        for events, event_blocks in [(0, 0), (1, 1), (31, 1), (32, 2), (192, 7)]:
            for sessions, session_blocks in [(0, 0), (1, 1), (5, 1), (6, 2), (64, 13)]:
                state = dict(
                    used=2**64 - 1,
                    queue=list(range(50, 114)),
                    busy=[(18 + k, 50 + k) for k in range(32)],
                    events=[(k, k % 3, 2 + k % 112) for k in range(events)],
                    sessions=[CHARGED | {"vehicle": k} for k in range(sessions)],
                )
                data = dump_bytes(**state)
                self.assertEqual(len(data), 512 * (1 + event_blocks + session_blocks))
                read = dump.read(data)
                self.assertEqual((read.used, len(read.queue), len(read.busy)), (2**64 - 1, 64, 32))
                self.assertEqual([(event.time, event.of.block) for event in read.events], [(k, 2 + k % 112) for k in range(events)])
                self.assertEqual([session.vehicle for session in read.sessions], list(range(sessions)))


class Words(unittest.TestCase):
    def test_a_dump_with_its_plan(self):
        lines = words(WAITING, PLAN)
        self.assertEqual(
            lines[:11],
            [
                "dump after 6 handled events",
                "queued, in this order:",
                "  vehicle 9",
                "  vehicle 8",
                "busy:",
                "  charger 3 with vehicle 7",
                "pending, in this order:",
                "  00:08:20   renege   vehicle 9",
                "  00:10:00  arrival  vehicle 11",
                "  00:34:40   unplug   charger 3",
                "  00:40:00   renege  vehicle 11",
            ],
        )
        self.assertEqual(lines[11], "2 sessions by events (the site limit is ignored), 6 units used, not ended")
        self.assertEqual(lines[13].split()[:4], ["7", "3", "NACS", "charged"])
        self.assertIn("3 vehicles without a session", lines[15])
        self.assertEqual(len(lines), 16)

    def test_a_dump_without_its_plan(self):
        lines = words(WAITING)
        self.assertEqual(lines[2:6], ["  vehicle of block 7", "  vehicle of block 6", "busy:", "  charger of block 3 with vehicle of block 5"])
        self.assertEqual(lines[9], "  00:34:40   unplug  charger of block 3")
        self.assertEqual(lines[13].split()[:4], ["7", "3", "NACS", "charged"])

    def test_the_sessions_are_shown_as_those_of_a_book(self):
        read = book.read(book_bytes(WAITING["sessions"], engine=0, ended=0, used=6))
        self.assertEqual(words(WAITING, PLAN)[11:], tables.show(read, PLAN))

    def test_a_run_that_has_ended(self):
        lines = words(ENDED, PLAN)
        self.assertEqual(lines[:4], ["dump after 15 handled events", "queued, in this order: none", "busy: none", "pending, in this order: none"])
        self.assertEqual(lines[4], "2 sessions by events (the site limit is ignored), 15 units used, ended")
        self.assertEqual(len(lines), 8)

    def test_nothing_handled_yet(self):
        lines = words(dict(used=0, queue=[], busy=[], events=[(100, ARRIVAL, 5), (1900, RENEGE, 5)], sessions=[]), PLAN)
        self.assertEqual(lines[0], "dump after 0 handled events")
        self.assertEqual(lines[4], "  00:01:40  arrival  vehicle 7")
        self.assertIn("0 sessions by events", lines[6])

    def test_a_late_car_with_the_longer_plan(self):
        before, lines = words(WAITING, PLAN), words(BOOKED_LATE, LONGER_PLAN)
        self.assertEqual(lines[:7], before[:7])
        self.assertEqual(
            lines[7:13],
            [
                "  00:08:20   renege   vehicle 9",
                "  00:09:10  arrival  vehicle 12",
                "  00:10:00  arrival  vehicle 11",
                "  00:34:40   unplug   charger 3",
                "  00:35:50   renege  vehicle 12",
                "  00:40:00   renege  vehicle 11",
            ],
        )
        self.assertEqual(lines[13:-1], before[11:-1])
        self.assertIn("4 vehicles without a session", lines[-1])

    def test_fleets(self):
        lines = words(OF_FLEETS, FLEET_PLAN)
        self.assertEqual(lines[1:4], ["queued, in this order:", "  vehicle 9 of fleet 3", "  vehicle 8"])
        self.assertEqual((lines[12].split()[:3], lines[14].split()[:3]), (["vehicle", "fleet", "charger"], ["10", "3", "balked"]))
        self.assertEqual(words(OF_FLEETS)[1:4], words(WAITING)[1:4])
        self.assertEqual(words(OF_FLEETS)[14].split()[:3], ["10", "3", "balked"])

    def test_a_plan_as_bytes_gives_the_same_words(self):
        for state, of_plan in [(WAITING, PLAN), (OF_FLEETS, FLEET_PLAN)]:
            self.assertEqual(words(state, plan.from_bytes("day.plan", of_plan.data())), words(state, of_plan))


class Damage(unittest.TestCase):
    def expect(self, data, saying, of_plan=None):
        with self.assertRaises(Damaged) as caught:
            dump.read(data, of_plan)
        self.assertIn(saying, str(caught.exception))

    def expect_altered(self, at, new, saying):
        self.expect(altered(self.whole, at, new), saying)

    def setUp(self):
        self.whole = dump_bytes(**WAITING)

    def test_any_bit_that_is_turned(self):
        for at in range(len(self.whole)):
            turned = bytearray(self.whole)
            turned[at] ^= 1 << at % 8
            with self.assertRaises(Damaged, msg=f"byte {at}"):
                dump.read(bytes(turned))

    def test_letters(self):
        self.expect_altered(0, b"DUMB", "the file does not begin with the letters DUMP")
        self.expect(b"", "the letters DUMP")
        self.expect(book_bytes(EACH), "the letters DUMP")

    def test_lengths(self):
        self.expect(self.whole[:-1], "1535 bytes, which is no multiple of 512")
        self.expect(self.whole[:4], "4 bytes")
        self.expect(self.whole[:1024], "4 events and 2 sessions, which take 1536 bytes, and the file has 1024")
        self.expect(self.whole + blocks.sealed(b"", 4), "4 events and 2 sessions, which take 1536 bytes, and the file has 2048")

    def test_checks(self):
        swapped = self.whole[:512] + self.whole[1024:] + self.whole[512:1024]
        self.expect(swapped, "block 2 (bytes 512 to 1023): its check does not agree")

    def test_counts(self):
        self.expect_altered(4, struct.pack("<H", 65), "bytes 4 and 5: 65 queued; a dump has at most 64")
        self.expect_altered(6, struct.pack("<H", 33), "bytes 6 and 7: 33 busy; a dump has at most 32")
        self.expect_altered(8, struct.pack("<H", 193), "bytes 8 and 9: 193 events; a dump has at most 192")
        self.expect_altered(10, struct.pack("<H", 65), "bytes 10 and 11: 65 sessions; a dump has at most 64")
        self.expect_altered(8, struct.pack("<H", 32), "32 events and 2 sessions, which take 2048 bytes")
        self.expect_altered(8, struct.pack("<H", 0), "0 events and 2 sessions, which take 1024 bytes")
        self.expect_altered(10, struct.pack("<H", 6), "4 events and 6 sessions, which take 2048 bytes")

    def test_counts_below_what_there_is(self):
        self.expect_altered(4, b"\1", "byte 26 (the header, behind the queue): it is 6")
        self.expect_altered(6, b"\0", "byte 152 (the header, behind the busy chargers): it is 3")
        self.expect_altered(8, b"\3", "byte 560 (block 2, behind its last event): it is 96")
        self.expect_altered(10, b"\1", "byte 1120 (block 3, behind its last session): it is 10")

    def test_counts_above_what_there_is(self):
        self.expect_altered(4, b"\3", "bytes 28 and 29: a vehicle in block 0 of the plan; it can be in blocks 2 to 113")
        self.expect_altered(6, b"\2", "bytes 156 and 157: a charger in block 0 of the plan")
        self.expect_altered(8, b"\5", "bytes 586 and 587: a vehicle in block 0 of the plan")

    def test_bytes_without_a_meaning_are_zero(self):
        for at, where in [(12, "the header"), (15, "the header"), (151, "behind the queue"), (507, "behind the busy chargers")]:
            self.expect_altered(at, b"\1", f"byte {at} (")
            self.expect_altered(at, b"\1", f"{where}): it is 1, and must be zero")
        for at in [521, 524, 527]:
            self.expect_altered(at, b"\1", f"byte {at} (event 1 (block 2, bytes 512 to 527)): it is 1, and must be zero")
        self.expect_altered(1019, b"\1", "byte 1019 (block 2, behind its last event)")
        self.expect_altered(1531, b"\1", "byte 1531 (block 3, behind its last session)")

    def test_the_end_of_a_full_block_of_events(self):
        full = dump_bytes(**WAITING | {"events": [(k, UNPLUG, 3) for k in range(31)]})
        self.expect(altered(full, 512 + 31 * 16, b"\1"), "byte 1008 (block 2, behind its last event)")

    def test_kinds(self):
        self.expect_altered(536, b"\3", "event 2 (block 2, bytes 528 to 543): kind 3; it can be 0 to 2")

    def test_blocks(self):
        self.expect_altered(24, b"\1", "bytes 24 and 25: a vehicle in block 1 of the plan")
        self.expect_altered(154, struct.pack("<H", 114), "bytes 154 and 155: a vehicle in block 114 of the plan")
        self.expect_altered(522, struct.pack("<H", 256 + 7), "bytes 522 and 523: a vehicle in block 263 of the plan")

    def test_sessions(self):
        self.expect_altered(1024 + 13, b"\4", "session 1 (block 3, bytes 1024 to 1119): outcome 4")
        self.expect_altered(1120 + 14, b"\x41", "session 2 (block 3, bytes 1120 to 1215): fleet 65")
        self.expect(dump_bytes(**WAITING | {"sessions": [CHARGED, CHARGED]}), "session 2: vehicle 7 has a session already")

    def test_another_plan(self):
        for other, saying in [
            (dict(queue=[7, 10]), "block 10 of day.txt is no vehicle: the dump is of another plan"),
            (dict(queue=[4]), "block 4 of day.txt is no vehicle"),
            (dict(busy=[(5, 5)]), "block 5 of day.txt is no charger"),
            (dict(busy=[(3, 2)]), "block 2 of day.txt is no vehicle"),
            (dict(events=[(0, UNPLUG, 6)]), "block 6 of day.txt is no charger"),
            (dict(events=[(0, ARRIVAL, 3)]), "block 3 of day.txt is no vehicle"),
            (dict(sessions=[CHARGED | {"vehicle": 12}]), "vehicle 12 is not in day.txt: the dump is of another plan"),
        ]:
            self.expect(dump_bytes(**WAITING | other), saying, PLAN)

    def test_fleets_of_another_plan(self):
        self.expect(dump_bytes(**OF_FLEETS), "vehicle 10 has fleet 3 in the dump and no fleet in day.txt: the dump is of another plan", PLAN)
        self.expect(dump_bytes(**WAITING), "vehicle 10 has no fleet in the dump and fleet 3 in day.txt", FLEET_PLAN)

    def test_a_late_car_with_the_plan_before_it(self):
        self.expect(dump_bytes(**BOOKED_LATE), "block 10 of day.txt is no vehicle: the dump is of another plan", PLAN)


if __name__ == "__main__":
    unittest.main()
