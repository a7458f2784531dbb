"""Practice days: what the tool asks of the program and makes of its answer, and what the program writes."""
import os
import struct
import subprocess
import sys
import unittest
from pathlib import Path

import sitebook
from sitefiles import blocks, plan, practice, text
from sitefiles.blocks import BLOCK, Damaged
from sitefiles.refusal import Refusal
from test_sitebook import Commands

HERE = Path(__file__).parent
PROGRAM = HERE.parent / "target" / "bin" / "practice_day"
BAY = (HERE / "bay.txt").read_bytes()
PLAN = text.read_plan("bay.txt", BAY).data()
MOST = 2**32 - 1


def draws(seed):
    """Marsaglia's 32-bit xorshift, a shift to the left as a multiplication."""
    state = seed
    while True:
        state ^= state * 2**13 % 2**32
        state ^= state // 2**17
        state ^= state * 2**5 % 2**32
        yield state


def day_bytes(data, seed, count):
    """The practice day of a plan of one vehicle by the rules of request 11."""
    *site, vehicle = [block[: blocks.CHECK] for block in blocks.split(data)]
    drawn = draws(seed)
    cars = []
    for car in range(1, count + 1):
        arrival, start, target = next(drawn) % 86400, next(drawn) % 512 / 1024, (512 + next(drawn) % 512) / 1024
        socs = struct.pack("<dd", start, target)
        cars.append(struct.pack("<I", car) + vehicle[4:16] + socs + vehicle[32:40] + struct.pack("<Q", arrival) + vehicle[48:])
    site[0] = site[0][:8] + struct.pack("<H", count) + site[0][10:]
    return blocks.joined(site + cars)


class Answers(unittest.TestCase):
    def test_what_is_asked(self):
        self.assertEqual(practice.asked(7, 20, b"PLAN"), b"\7\0\0\0\x14\0\0\0PLAN")

    def test_plans(self):
        self.assertEqual(practice.read(PLAN), PLAN)

    def test_refusals(self):
        self.assertEqual(practice.read(b"19 0 0\n"), Refusal(19, ()))
        self.assertEqual(practice.read(b"12 4 3\n"), Refusal(12, (4, 3)))

    def test_what_is_neither(self):
        for output in [b"", b"PLAN", PLAN[:-1], PLAN[:600] + b"\1" + PLAN[601:], b"3 0 0\n", b"13 0 0\n", b"18 0 0\n", b"20 0 0\n", b"0 0 0\n", b"hello\n"]:
            with self.assertRaises(Damaged, msg=output[:20]):
                practice.read(output)


class Tool(Commands):
    """With a stand-in for the program, which writes a day of one seed and count, and else a refusal by the seed."""

    REFUSALS = {0: "19 0 0\n", 5: "5 4 0\n", 12: "12 4 3\n", 13: "13 0 0\n"}

    def setUp(self):
        super().setUp()
        self.day = day_bytes(PLAN, 7, 20)
        answers = {practice.asked(7, 20, PLAN): self.day} | {practice.asked(k, 1, PLAN): line.encode() for k, line in self.REFUSALS.items()}
        self.maker = self.program(f"import sys\nsys.stdout.buffer.write({answers!r}[sys.stdin.buffer.read()])\n")
        self.text = self.file("bay.txt", BAY)

    def program(self, script):
        path = self.file("maker", f"#!{sys.executable}\n{script}".encode())
        os.chmod(path, 0o700)
        return path

    def words(self, seed, count, maker=None):
        return ["practice", "--maker", maker or self.maker, "--seed", seed, "--count", count]

    def refused(self, seed, **more):
        return self.fails(*self.words(seed, 1, **more), self.text)

    def test_a_day(self):
        self.assertEqual(self.succeeds(*self.words(7, 20), self.text), self.day)
        self.assertEqual(self.succeeds(*self.words(7, 20), "-", stdin=BAY), self.day)

    def test_a_day_is_a_plan_for_the_other_commands(self):
        path = self.file("practice.plan", self.succeeds(*self.words(7, 20), self.text))
        self.assertEqual(self.succeeds("input", "steps", 5, path), b"\1\5\0\0\0" + self.day)
        self.assertEqual(plan.from_bytes(path, self.day).ids("vehicle"), list(range(1, 21)))

    def test_refusals_in_words(self):
        said = self.refused(0).replace(self.text, "bay.txt")
        self.assertEqual(
            said,
            "bay.txt: refused by 19: a practice day's seed is 0, its count is not from 1 to 64, the buffer for it is shorter than 57,856 bytes,"
            " or its plan has not just one vehicle\nno practice day is written\n",
        )
        self.assertIn("block 4 of bay.txt, vehicle 3, line 4: vehicle 3 profile 1 ", self.refused(12).replace(self.text, "bay.txt"))
        self.assertIn("refused by 5: ", self.refused(5))

    def test_a_description_with_faults(self):
        path = self.file("bay.txt", b"vehicle\n")
        self.assertIn("no practice day is written", self.fails(*self.words(7, 20), path))

    def test_the_program_is_that_of_the_repository(self):
        options = sitebook.parser().parse_args(["practice", "--seed", "7", "--count", "20", "bay.txt"])
        self.assertEqual((options.maker, options.seed, options.count), (PROGRAM, 7, 20))

    def test_a_program_that_is_not_there(self):
        self.assertEqual(self.refused(7, maker="none/practice_day"), "none/practice_day: there is no such program; bash examples/run builds it\n")

    def test_a_program_that_says_something_else(self):
        self.assertEqual(
            self.refused(13), f"{self.maker}: it wrote b'13 0 0\\n', which is neither a plan nor a refusal of a practice day\n"
        )
        self.assertIn("it wrote b'', which is neither", self.refused(7, maker=self.program("")))


@unittest.skipUnless(PROGRAM.exists(), "the program is not built: bash examples/run")
class Program(Commands):
    def says(self, seed, count, data):
        return subprocess.run([PROGRAM], input=practice.asked(seed, count, data), capture_output=True).stdout

    def expect(self, seed, count, data=PLAN):
        self.assertTrue(self.says(seed, count, data) == day_bytes(data, seed, count), (seed, count))

    def expect_refusal(self, seed, count, data, line):
        self.assertEqual(self.says(seed, count, data), line)

    def test_the_tool_asks_it(self):
        path = self.file("bay.txt", BAY)
        self.assertEqual(self.succeeds("practice", "--seed", 7, "--count", 20, path), day_bytes(PLAN, 7, 20))
        self.assertIn(f"{path}: refused by 19: ", self.fails("practice", "--seed", 0, "--count", 20, path))

    def test_days(self):
        for seed in [1, 2, 7, 2463534242, 2**31, MOST]:
            for count in [1, 2, 20, 63, 64]:
                self.expect(seed, count)

    def test_a_day_of_its_own_day(self):
        self.expect(9, 64, self.says(8, 1, PLAN))

    def test_a_largest_site(self):
        lines = [b"profile %d battery 50 kWh points 0.5:50\n" % k for k in range(1, 17)]
        lines += [b"charger %d power 50 kW current 1200 A voltage 400 V connectors\n" % k for k in range(1, 33)]
        data = text.read_plan("large.txt", b"limit 90 kW\n" + b"".join(lines) + BAY.split(b"\n")[3] + b"\n").data()
        self.expect(5, 64, data)
        self.assertEqual(len(self.says(5, 64, data)), 57856)

    def test_seeds_and_counts_that_are_refused(self):
        for seed, count in [(0, 1), (1, 0), (1, 65), (1, 257), (1, 65537), (1, MOST), (0, 0)]:
            self.expect_refusal(seed, count, PLAN, b"19 0 0\n")

    def test_plans_that_are_refused(self):
        none = blocks.joined([PLAN[:8] + bytes(2) + PLAN[10 : blocks.CHECK], *[block[: blocks.CHECK] for block in blocks.split(PLAN)[1:3]]])
        for data in [none, day_bytes(PLAN, 1, 2), day_bytes(PLAN, 1, 64), (HERE / "day.plan").read_bytes()]:
            self.expect_refusal(1, 1, data, b"19 0 0\n")
        damaged = PLAN[:-1] + bytes([PLAN[-1] ^ 1])
        for seed, count in [(1, 1), (0, 0)]:
            self.expect_refusal(seed, count, damaged, b"5 4 0\n")
            self.expect_refusal(seed, count, PLAN[:-1], b"4 0 0\n")
            self.expect_refusal(seed, count, bytes(BLOCK * 113), b"5 1 0\n")
            self.expect_refusal(seed, count, bytes(BLOCK * 113 + 1), b"4 0 0\n")
            self.expect_refusal(seed, count, bytes(BLOCK * 114), b"4 0 0\n")
            self.expect_refusal(seed, count, b"", b"4 0 0\n")


if __name__ == "__main__":
    unittest.main()
