"""Descriptions: what they mean, and what is said of those that cannot be read."""
import struct
import unittest
from pathlib import Path

from sitefiles import blocks, plan, text
from sitefiles.plan import SCALED, SHARED_EVENLY, Limit

HERE = Path(__file__).parent

PROFILE = "profile 1 battery 50 points 0.5:50"
CHARGER = "charger 1 power 50 current 1200 voltage 400 connectors"
VEHICLE = "vehicle 1 profile 1 connectors soc 0.25 0.75 idle 120 arrival 100 wait 1800 queue 10"
SITE = [PROFILE, CHARGER, VEHICLE]


def data_of(*lines):
    return text.read_plan("day.txt", "\n".join(lines).encode()).data()


def faults_of(*lines):
    """The messages for a description."""
    try:
        text.read_plan("day.txt", "\n".join(lines).encode())
    except text.Unreadable as faults:
        return str(faults).split("\n")
    return []


class Reading(unittest.TestCase):
    def test_the_example_gives_its_plan(self):
        data = text.read_plan("day.txt", (HERE / "day.txt").read_bytes()).data()
        self.assertEqual(data, (HERE / "day.plan").read_bytes())

    def test_a_plan_reads_back(self):
        made = text.read_plan("day.txt", (HERE / "day.txt").read_bytes())
        read = plan.from_bytes("day.plan", made.data())
        self.assertEqual(read.limit, Limit(90, SCALED))
        self.assertEqual([(part.kind, part.id) for part in read.parts], [(part.kind, part.id) for part in made.parts])
        self.assertEqual(read.ids("vehicle"), list(range(7001, 7008)))
        self.assertEqual(read.data(), made.data())

    def test_the_car_is_the_last_vehicle(self):
        late = VEHICLE.replace("vehicle 1", "vehicle 2")
        for lines in [[PROFILE, CHARGER, VEHICLE, late], [VEHICLE, late, CHARGER, PROFILE]]:
            made = text.read_plan("day.txt", "\n".join(lines).encode())
            self.assertEqual(made.car(), made.data()[-512:])
            self.assertEqual((made.car()[:4], blocks.passes(made.car(), 5)), (b"\2\0\0\0", True))
        for lines in [[], [CHARGER], [PROFILE, CHARGER]]:
            self.assertIsNone(text.read_plan("day.txt", "\n".join(lines).encode()).car())

    def test_kinds_come_in_any_order_and_fields_too(self):
        mixed = ["vehicle 1 queue 10 wait 1800 arrival 100 idle 120 soc 0.25 0.75 connectors profile 1", CHARGER, PROFILE]
        self.assertEqual(data_of(*mixed), data_of(*SITE))

    def test_units_times_and_names_may_be_written_out(self):
        written = [
            "profile 1 battery 50kWh points 0.5:50kW",
            "charger 1 power 50 kW current 1200A voltage 400 V connectors",
            "vehicle 1 profile 1 connectors soc .25 7.5e-1 idle 0:02:00 arrival 00:01:40 wait 0:30:00 queue 10",
        ]
        self.assertEqual(data_of(*written), data_of(*SITE))
        self.assertEqual(data_of("limit 90 kW"), data_of("limit 90"))
        self.assertEqual(data_of("profile 1 battery 50 points 0:50 kW 1:20 kW"), data_of("profile 1 battery 50 points 0:50 1:20"))

    def test_a_clock_time_is_seconds_of_the_day(self):
        for written, seconds in [("07:00", 25200), ("7:00:30", 25230), ("31:30", 113400), ("0:00", 0)]:
            by_clock = VEHICLE.replace("arrival 100", f"arrival {written}")
            by_seconds = VEHICLE.replace("arrival 100", f"arrival {seconds} s")
            self.assertEqual(data_of(PROFILE, by_clock), data_of(PROFILE, by_seconds))

    def test_connectors_by_any_spelling(self):
        wanted = data_of("charger 1 power 50 current 1200 voltage 400 connectors Ccs1,Ccs2,Chademo,Gbt,Nacs")
        for written in ["CCS1, CCS2, CHAdeMO, GB/T, NACS", "ccs1 ccs2 chademo gb/t nacs", "CCS1,CCS2 CHADEMO,GBT, nacs"]:
            self.assertEqual(data_of(f"charger 1 power 50 current 1200 voltage 400 connectors {written}"), wanted)

    def test_leads_have_their_caps_by_code(self):
        data = data_of(f"{CHARGER} CCS2 NACS leads nacs:63 A CCS2:125.5A chademo:1")
        self.assertEqual(struct.unpack("<5d", data[512 + 40 : 512 + 80]), (0, 125.5, 1, 0, 63))
        self.assertEqual(data_of(CHARGER)[512 + 40 : 512 + 508], bytes(468))

    def test_a_limit_has_its_mode(self):
        for mode, written in [(1, ["90", "90 kW"]), (2, ["90 shared evenly", "90kW shared evenly", "90 kW  shared\tevenly  # so"])]:
            for words in written:
                self.assertEqual(data_of(f"limit {words}")[12:508], bytes([mode, 0, 0, 0]) + struct.pack("<d", 90) + bytes(484))
        self.assertEqual(data_of(*SITE)[12:24], bytes(12))

    def test_the_example_of_even_shares(self):
        made = text.read_plan("even_shares.txt", (HERE / "even_shares.txt").read_bytes())
        read = plan.from_bytes("even_shares.plan", made.data())
        self.assertEqual((made.limit, read.limit), (Limit(25, SHARED_EVENLY), Limit(25, SHARED_EVENLY)))
        self.assertEqual(read.data(), made.data())

    def test_queue_places_stand_by_fleet(self):
        data = data_of("fleet 3 places 5", "fleet 64 places 64", "fleet 2 places 0", "fleet 1 places 4")
        self.assertEqual(data[24:88], bytes([4, 0, 5]) + bytes(60) + bytes([64]))
        self.assertEqual(data_of("limit 90", "fleet 1 places 4")[12:25], b"\1\0\0\0" + struct.pack("<d", 90) + b"\4")
        self.assertEqual(data_of(*SITE)[24:508], bytes(484))

    def test_a_vehicle_has_its_fleet(self):
        for written in [f"{VEHICLE} fleet 64", VEHICLE.replace("profile 1", "fleet 64 profile 1")]:
            data = data_of(PROFILE, written, "fleet 64 places 1")
            self.assertEqual(data[1024 + 56 : 1024 + 508], b"\x0a\0\0\0\x40\0" + bytes(446))
        self.assertEqual(data_of(PROFILE, VEHICLE)[1024 + 60 : 1024 + 508], bytes(448))

    def test_the_example_of_fleets(self):
        made = text.read_plan("fleets.txt", (HERE / "fleets.txt").read_bytes())
        for read in [made, plan.from_bytes("fleets.plan", made.data())]:
            fleets = [(part.id, part.fleet()) for part in read.parts if part.kind == "vehicle"]
            self.assertEqual(fleets, [(11, 1), (12, 1), (13, 1), (14, 1), (21, None), (22, None), (15, 1)])
            self.assertEqual(read.data()[24:88], b"\1" + bytes(63))

    def test_marks_comments_and_line_ends_do_not_count(self):
        wanted = data_of(*SITE)
        windows = b"\xef\xbb\xbf" + "\r\n".join(["# a site", ""] + [line + "  # so" for line in SITE]).encode()
        self.assertEqual(text.read_plan("day.txt", windows).data(), wanted)

    def test_nothing_is_a_plan_too(self):
        self.assertEqual(data_of(), data_of("# nobody comes"))
        self.assertEqual(len(data_of()), 512)

    def test_the_ends_of_the_ranges_are_within(self):
        data_of("limit 0.125", "profile 0 battery 1 points 0:0.125", "profile 4294967295 battery 1024 points 1:1024")
        data_of("limit 65536 shared evenly", "charger 1 power 1024 current 4096 voltage 4096 connectors", "charger 2 power 0.125 current 1 voltage 1 connectors")
        data_of(PROFILE, "vehicle 1 profile 1 connectors soc 0 1 idle 604800 arrival 1000000 wait 1000000 queue 4294967295")
        data_of("fleet 1 places 0", "fleet 64 places 64", PROFILE, f"{VEHICLE} fleet 1", f"{VEHICLE.replace('vehicle 1', 'vehicle 2')} fleet 64")


class Faults(unittest.TestCase):
    def expect(self, line, word, saying):
        """The line, put behind a good site, is refused for the word, with its number and a message that says this."""
        messages = faults_of(*SITE, line)
        self.assertEqual(len(messages), 1, messages)
        self.assertTrue(messages[0].startswith(f'day.txt:4: "{word}": '), messages[0])
        self.assertIn(saying, messages[0])

    def test_unknown_words(self):
        self.expect("cabinet 2 power 50", "cabinet", "limit, fleet, profile, charger, vehicle")
        self.expect("Charger 2 power 50", "Charger", "unknown kind")
        self.expect("charger 2 watts 50", "watts", "a charger has power, current, voltage, connectors, leads")
        self.expect("charger 2 battery 50", "battery", "unknown field")
        self.expect("charger 2 power 50 watts 3", "watts", "neither a field of this line nor kW, the unit of power")
        self.expect("vehicle 2 profile 1 queue 3 colour red", "colour", "no field of this line")
        self.expect("charger 2 connectors CCS2 watts 3", "watts", "CCS1, CCS2, CHAdeMO, GB/T, NACS")
        self.expect("charger 2 connectors CCS3", "CCS3", "no connector")
        self.expect("charger 2 connectors CCS2,,NACS", "CCS2,,NACS", "a comma without a connector")
        self.expect("charger 2 connectors CCS2,", "CCS2,", "a comma without a connector")

    def test_units_of_something_else(self):
        self.expect("limit 90MW", "90MW", "limit is in kW")
        self.expect("limit 90 MW", "MW", "nor kW, the unit of limit")
        self.expect("charger 2 power 75kWh", "75kWh", "power is in kW")
        self.expect("charger 2 power 75kw", "75kw", "power is in kW")
        self.expect("charger 2 current 75V", "75V", "current is in A")
        self.expect("charger 2 voltage 75 A", "A", "nor V, the unit of voltage")
        self.expect("profile 2 battery 50kW", "50kW", "battery is in kWh")
        self.expect("profile 2 points 0.5:50A", "50A", "is in kW")
        self.expect("profile 2 points 50%:50", "50%", "from 0 to 1")
        self.expect("vehicle 2 soc 20% 80%", "20%", "soc has no unit: it is a number from 0 to 1")
        self.expect("vehicle 2 idle 5min", "5min", "idle is in s")
        self.expect("vehicle 2 arrival 7h", "7h", "arrival is in s")
        self.expect("vehicle 2 queue 3cars", "3cars", "queue has no unit")

    def test_values_too_many_or_too_few(self):
        self.expect("limit", "limit", "missing")
        self.expect("limit 90 80", "80", "too many for limit")
        self.expect("charger 2 power 50 60", "60", "too many for power")
        self.expect("charger 2 power current 3", "power", "missing")
        self.expect("profile 2 battery 50 points", "points", "missing")
        self.expect("vehicle 2 soc 0.5", "soc", "2 values")
        self.expect("vehicle 2 soc 0.5 0.6 0.7", "0.7", "too many for soc")
        self.expect("vehicle 2 arrival 07:00 08:00", "08:00", "neither a field")
        self.expect("vehicle 2 arrival", "arrival", "missing")
        self.expect("vehicle", "vehicle", "its id is missing")

    def test_a_field_given_twice(self):
        self.expect("charger 2 power 50 current 3 power 50", "power", "twice")
        self.expect("vehicle 2 profile 1 profile 1", "profile", "twice")

    def test_a_second_limit(self):
        for second in ["limit 6", "limit 5 shared evenly"]:
            self.assertEqual(faults_of("limit 5", "", second), ['day.txt:3: "limit": a site has one limit, and it is given on line 1'])

    def test_a_limit_shared_otherwise(self):
        for words in ["shared", "evenly", "evenly shared", "shared equally", "shared evenly 2", "shared evenly kW", "shared evenly shared evenly"]:
            self.expect(f"limit 90 kW {words}", words, "behind a limit can stand shared evenly, and nothing else")
        self.expect("limit 90 Shared evenly", "Shared", "neither a field of this line nor kW, the unit of limit")
        self.expect("limit shared evenly", "limit", "its value is missing")
        self.expect("limit shared evenly 90 kW", "limit", "its value is missing")
        self.expect("limit 90MW shared evenly", "90MW", "limit is in kW")
        self.expect("limit 90 80 shared evenly", "80", "too many for limit")
        self.expect("limit 0.12 shared evenly", "0.12", "from 0.125 to 65536 kW")
        self.expect("charger 2 power 50 shared evenly", "shared", "neither a field of this line nor kW, the unit of power")

    def test_ids(self):
        self.expect("charger 4294967296 power 50", "4294967296", "from 0 to 4294967295")
        self.expect("charger -1 power 50", "-1", "from 0 to 4294967295")
        self.expect("charger 1.0 power 50", "1.0", "whole number")
        self.expect("charger power 50", "power", "a number")
        self.expect(CHARGER, "1", "this id has a charger already, on line 2")
        self.expect(VEHICLE, "1", "this id has a vehicle already, on line 3")
        self.expect("vehicle 2 profile 4294967296", "4294967296", "profile is out of its range")

    def test_an_id_is_used_up_by_a_line_with_a_fault(self):
        self.assertEqual(len(faults_of("charger 1 power x", CHARGER)), 2)

    def test_what_is_no_number(self):
        for word in ["nan", "inf", "-inf", "infinity", "1_000", "1,000", "0,5", "x", "0x10", "1e", "--5", "+5", "５", "."]:
            messages = faults_of(f"charger 2 power {word} current 1 voltage 1 connectors")
            self.assertEqual(len(messages), 1, word)
            self.assertTrue(messages[0].startswith(f'day.txt:1: "{word}": power is'), messages[0])
        self.expect("profile 2 points 0.5:", "0.5:", "a point is SOC:power")
        self.expect("profile 2 points :5", ":5", "a point is SOC:power")
        self.expect("profile 2 points 0.5", "0.5", "a point is SOC:power")
        self.expect("profile 2 points 0.5:5:5", "5:5", "a number")

    def test_leads(self):
        self.expect("charger 2 leads", "leads", "missing")
        self.expect("charger 2 leads CCS2", "CCS2", "a lead is connector:current")
        self.expect("charger 2 leads CCS3:100", "CCS3", "no connector")
        self.expect("charger 2 leads CCS2:100 ccs2:90", "ccs2:90", "named already")
        self.expect("charger 2 leads CCS2:0", "0", "from 1 to 4096 A")
        self.expect("charger 2 leads CCS2:100V", "100V", "is in A")

    def test_fleets(self):
        self.expect("fleet", "fleet", "its id is missing")
        self.expect("fleet 0 places 1", "0", "the id of a fleet is out of its range, from 1 to 64")
        self.expect("fleet 65 places 1", "65", "from 1 to 64")
        self.expect("fleet places 1", "places", "the id of a fleet is a number")
        self.expect("fleet 1:4", "1:4", "the id of a fleet is a number")
        self.expect("fleet 2", "fleet 2", "missing: places")
        self.expect("fleet 2 places", "places", "missing")
        self.expect("fleet 2 places -1", "-1", "places is out of its range")
        self.expect("fleet 2 places 1.5", "1.5", "whole number")
        self.expect("fleet 2 places 1 2", "2", "too many for places")
        self.expect("fleet 2 queue 1", "queue", "a fleet has places")
        self.expect("vehicle 2 fleet 0", "0", "fleet is out of its range, from 1 to 64")
        self.expect("vehicle 2 fleet", "fleet", "missing")

    def test_a_fleet_named_twice(self):
        self.assertEqual(faults_of("fleet 3 places 1", "", "fleet 3 places 1"), ['day.txt:3: "3": this id has a fleet already, on line 1'])
        self.expect("vehicle 2 fleet 1 fleet 1", "fleet", "twice")

    def test_a_vehicle_names_a_fleet_that_has_its_places(self):
        stranger = VEHICLE.replace("vehicle 1", "vehicle 2") + " fleet 3"
        self.expect(stranger, "fleet 3", "no line gives its queue places, as fleet 3 places 4")
        self.assertEqual(faults_of(*SITE, stranger, "fleet 3 places 0"), [])

    def test_a_fault_in_a_fleet_is_no_fault_of_its_vehicles(self):
        self.assertEqual(len(faults_of(PROFILE, f"{VEHICLE} fleet 3", "fleet 3 places 65")), 1)

    def test_whole_numbers(self):
        self.expect("vehicle 2 arrival 1.5", "1.5", "whole number")
        self.expect("vehicle 2 arrival 1e3", "1e3", "whole number")
        self.expect("vehicle 2 queue 1.0", "1.0", "whole number")

    def test_times(self):
        self.expect("vehicle 2 arrival 07:60", "07:60", "hh:mm or hh:mm:ss")
        self.expect("vehicle 2 arrival 7:5", "7:5", "hh:mm or hh:mm:ss")
        self.expect("vehicle 2 arrival 07:00:00:00", "07:00:00:00", "hh:mm")
        self.expect("vehicle 2 arrival 277:46:41", "277:46:41", "from 0 to 1000000 s")
        self.expect("vehicle 2 wait 0:15", "0:15", "h:mm:ss")
        self.expect("vehicle 2 idle 169:00:00", "169:00:00", "from 0 to 604800 s")
        self.expect("vehicle 2 idle 5:", "5:", "h:mm:ss")

    def test_ranges_are_said(self):
        for line, word, range in [
            ("limit 0.12", "0.12", "from 0.125 to 65536 kW"),
            ("limit 65536.5", "65536.5", "from 0.125 to 65536 kW"),
            ("profile 2 battery 0.5", "0.5", "from 1 to 1024 kWh"),
            ("profile 2 battery 1e9", "1e9", "from 1 to 1024 kWh"),
            ("profile 2 points 1.5:50", "1.5", "from 0 to 1"),
            ("profile 2 points 0.5:2000", "2000", "from 0.125 to 1024 kW"),
            ("charger 2 power 0", "0", "from 0.125 to 1024 kW"),
            ("charger 2 power 1e999", "1e999", "from 0.125 to 1024 kW"),
            ("charger 2 current 5000", "5000", "from 1 to 4096 A"),
            ("charger 2 voltage 0.5", "0.5", "from 1 to 4096 V"),
            ("vehicle 2 soc -0.0 1", "-0.0", "from 0 to 1"),
            ("vehicle 2 soc 0 1.01", "1.01", "from 0 to 1"),
            ("vehicle 2 idle 604800.5", "604800.5", "from 0 to 604800 s"),
            ("vehicle 2 arrival 1000001", "1000001", "from 0 to 1000000 s"),
            ("vehicle 2 wait -5", "-5", "from 0 to 1000000 s"),
            ("vehicle 2 queue 4294967296", "4294967296", "from 0 to 4294967295"),
            ("vehicle 2 queue " + "9" * 5000, "9" * 5000, "from 0 to 4294967295"),
            ("vehicle 2 fleet 65", "65", "from 1 to 64"),
            ("fleet 2 places 65", "65", "from 0 to 64"),
        ]:
            self.expect(line, word, range)

    def test_points_and_connectors_beyond_what_a_block_holds(self):
        points = " ".join(f"{k / 100}:50" for k in range(31))
        self.expect(f"profile 2 battery 50 points {points}", "0.3:50", "at most 30 points")
        self.assertEqual(faults_of(f"profile 2 battery 50 points {points.rsplit(' ', 1)[0]}"), [])
        self.expect("profile 2 points 0.5:50 0.50:60", "0.50:60", "this SOC already")
        self.expect("charger 2 connectors CCS1 CCS2 CCS1 CCS2 CCS1 NACS", "NACS", "at most 5 connectors")
        self.assertEqual(faults_of("charger 2 power 5 current 5 voltage 5 connectors CCS1 CCS2 CCS1 CCS2 CCS1"), [])

    def test_more_parts_than_a_plan_holds(self):
        profiles = [f"profile {k} battery 50 points 0.5:50" for k in range(17)]
        self.assertEqual(faults_of(*profiles[:16]), [])
        self.assertEqual(faults_of(*profiles), ['day.txt:17: "profile": a plan has at most 16 profiles, and this is number 17'])
        chargers = [CHARGER.replace("1", str(k), 1) for k in range(33)]
        self.assertEqual(faults_of(*chargers), ['day.txt:33: "charger": a plan has at most 32 chargers, and this is number 33'])
        vehicles = [VEHICLE.replace("1", str(k), 1) for k in range(65)]
        self.assertEqual(faults_of(PROFILE, *vehicles), ['day.txt:66: "vehicle": a plan has at most 64 vehicles, and this is number 65'])

    def test_a_vehicle_names_a_profile_that_is_there(self):
        stranger = VEHICLE.replace("vehicle 1", "vehicle 2").replace("profile 1", "profile 9")
        self.expect(stranger, "profile 9", "there is no such profile")

    def test_a_fault_in_a_profile_is_no_fault_of_its_vehicles(self):
        self.assertEqual(len(faults_of("profile 1 battery 50", CHARGER, VEHICLE)), 1)

    def test_missing_fields(self):
        self.expect("profile 2 battery 50", "profile 2", "missing: points")
        self.expect("charger 2 power 50", "charger 2", "missing: current, voltage, connectors")
        self.expect("vehicle 2", "vehicle 2", "missing: profile, connectors, soc, idle, arrival, wait, queue")

    def test_every_line_with_a_fault_is_named_in_order(self):
        messages = faults_of("limit x", VEHICLE, "charger 1 power 1", "profile 2 battery 0 points 0:1")
        self.assertEqual([message.split(":")[1] for message in messages], ["1", "2", "3", "4"])

    def test_bytes_that_are_no_text(self):
        for data in [b"limit 5\nlimit \xff", b"limit 5\nPLAN\0\0", "limit 5\n".encode("utf-16")[2:]]:
            with self.assertRaises(text.Unreadable) as caught:
                text.read_plan("day.txt", data)
            self.assertIn("this byte is no text", str(caught.exception))
        self.assertIn("day.txt:2:", str(self.unreadable(b"limit 5\nlimit \xff")))

    def unreadable(self, data):
        with self.assertRaises(text.Unreadable) as caught:
            text.read_plan("day.txt", data)
        return caught.exception


if __name__ == "__main__":
    unittest.main()
