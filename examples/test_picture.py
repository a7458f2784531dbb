"""Pictures: what is drawn of a book, read back from the SVG."""
import unittest
from pathlib import Path
from xml.etree import ElementTree

from made_books import BALKED, CHARGED, EACH, OPEN, RENEGED, book_bytes
from sitefiles import book, picture, text

HERE = Path(__file__).parent
SVG = "{http://www.w3.org/2000/svg}"


def drawn(sessions, plan=None, **header):
    return ElementTree.fromstring(picture.picture(book.read(book_bytes(sessions, **header)), plan))


def words(root):
    return [element.text for element in root.iter(f"{SVG}text")]


def titles(root):
    return [element.text for element in root.iter(f"{SVG}title")]


def bars(root, fill):
    """The widths of the bars of a colour, without the legend's."""
    return [float(element.get("width")) for element in root.iter(f"{SVG}rect") if element.get("fill") == fill and element.get("height") == "30.0"]


class Drawn(unittest.TestCase):
    def test_charging_and_idle_are_in_proportion(self):
        root = drawn([CHARGED])
        (charging,), (idle,) = bars(root, picture.CHARGING), bars(root, picture.IDLE)
        self.assertAlmostEqual(charging / idle, 1800 / 120, delta=0.1)
        self.assertIn("7: 25.0 kWh", words(root))
        self.assertIn("vehicle 7: 00:02:40 to 00:34:40, 25.000 kWh, peak 50.00 kW, NACS", titles(root))

    def test_each_outcome_is_drawn(self):
        root = drawn(EACH, ended=0)
        self.assertEqual(len(bars(root, picture.OPEN)), 1)
        self.assertIn("vehicle 9: came at 00:03:20, gave up after 300 s", titles(root))
        self.assertIn("vehicle 10: drove on at 00:04:10", titles(root))
        self.assertTrue(any("has not ended" in word for word in words(root)))

    def test_a_fleet_is_in_the_title(self):
        shown = titles(drawn([session | {"fleet": 3} for session in EACH]))
        self.assertEqual([title.split(":")[0] for title in shown], [f"vehicle {id} of fleet 3" for id in (7, 8, 9, 10)])

    def test_a_stay_of_no_length_can_be_seen(self):
        root = drawn([CHARGED | {"unplug": 160, "charge_duration": 0.0, "idle": 0.0}])
        self.assertEqual(bars(root, picture.CHARGING), [1.5])

    def test_a_charger_without_a_session_has_a_lane_by_the_plan(self):
        of_plan = text.read_plan("day.txt", b"charger 3 power 50 current 9 voltage 9 connectors\ncharger 4 power 50 current 9 voltage 9 connectors")
        self.assertNotIn("charger 4", words(drawn([CHARGED])))
        self.assertIn("charger 4", words(drawn([CHARGED], of_plan)))

    def test_a_limit_that_events_ignore_is_noted(self):
        for limit, noted in [("90", "90 kW"), ("90 shared evenly", "90 kW, shared evenly")]:
            of_plan = text.read_plan("day.txt", f"limit {limit}\ncharger 3 power 50 current 9 voltage 9 connectors".encode())
            self.assertTrue(any(f"{noted}, which a run by events ignores" in word for word in words(drawn([CHARGED], of_plan, engine=0))))
            self.assertFalse(any("ignores" in word for word in words(drawn([CHARGED], of_plan, engine=1))))

    def test_the_picture_of_the_example(self):
        of_plan = text.read_plan("day.txt", (HERE / "day.txt").read_bytes())
        recorded = book.read((HERE.parent / "crates" / "site" / "stdout").read_bytes())
        self.assertEqual(picture.picture(recorded, of_plan) + "\n", (HERE / "day.svg").read_text())

    def test_an_empty_book(self):
        self.assertIn("0 sessions by steps, 00:00 to 01:00", words(drawn([])))

    def test_all_lies_on_the_page(self):
        gone = [RENEGED | {"vehicle": 2**32 - 1 - k, "arrival": 200 + k} for k in range(30)]
        gone += [BALKED | {"vehicle": k, "arrival": 900} for k in range(30)]
        root = drawn(gone)
        for element in root.iter(f"{SVG}text"):
            self.assertTrue(0 <= float(element.get("x")) <= float(root.get("width")))
            self.assertTrue(0 <= float(element.get("y")) <= float(root.get("height")))


class Queue(unittest.TestCase):
    def lengths(self, *sessions):
        return picture.queue_lengths(book.read(book_bytes(list(sessions))))

    def test_a_vehicle_waits_from_arrival_to_plug_in_or_renege(self):
        self.assertEqual(self.lengths(CHARGED), [(100, 1), (160, 0)])
        self.assertEqual(self.lengths(OPEN), [(100, 1), (160, 0)])
        self.assertEqual(self.lengths(RENEGED), [(200, 1), (500, 0)])
        self.assertEqual(self.lengths(BALKED), [])

    def test_waits_add_up(self):
        second = RENEGED | {"vehicle": 11, "arrival": 150, "wait": 100}
        self.assertEqual(self.lengths(CHARGED, second, RENEGED), [(100, 1), (150, 2), (160, 1), (200, 2), (250, 1), (500, 0)])

    def test_one_for_another_is_no_change(self):
        second = RENEGED | {"vehicle": 11, "arrival": 160, "wait": 100}
        self.assertEqual(self.lengths(CHARGED, second), [(100, 1), (260, 0)])


class Scales(unittest.TestCase):
    def test_ticks_are_few_and_enclose_the_times(self):
        for first, last in [(0, 0), (0, 1), (25200, 31047), (0, 86400), (1_000_000, 2_209_600), (5, 2_209_600), (0, 10_000_000)]:
            scale = picture.scale_of(first, last)
            self.assertLessEqual(len(scale.ticks()), picture.MOST_TICKS + 2)
            self.assertLessEqual(scale.start, first)
            self.assertGreaterEqual(scale.end, last)
            self.assertLess(scale.start, scale.end)

    def test_one_day_is_not_named(self):
        for first, last in [(0, 0), (86400, 86400), (0, 86400), (90000, 172800)]:
            self.assertFalse(picture.several_days(first, last))
        self.assertTrue(picture.several_days(86399, 86401))

    def test_names_of_ticks(self):
        self.assertEqual(picture.tick_name(picture.scale_of(25200, 28000), 25200), "07:00")
        self.assertEqual(picture.tick_name(picture.scale_of(0, 172800), 86400), "day 2, 00:00")
        self.assertEqual(picture.tick_name(picture.scale_of(0, 172800), 43200), "12:00")
        self.assertEqual(picture.tick_name(picture.scale_of(0, 5_000_000), 864000), "day 11")

    def test_days_are_named_where_there_are_several(self):
        late = CHARGED | {"vehicle": 12, "arrival": 100_000, "plugin": 100_060, "unplug": 102_000}
        root = drawn([CHARGED, late])
        self.assertIn("2 sessions by steps, day 1, 00:01 to day 2, 04:20", words(root))
        self.assertIn("day 2, 00:00", words(root))


if __name__ == "__main__":
    unittest.main()
