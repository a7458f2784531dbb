#!/usr/bin/env python3
"""Plans from text, books as text, tables and pictures, and dumps in words.

The program target/bin/site reads what `input` writes, and writes what `show` and the others read: a book or a refusal.
`totals` has each book read by the program target/bin/totals, and `practice` has its plan written by target/bin/practice_day.
`dump` reads what the calls site_dump and site_book_late write, and `car` writes the block of a late car for site_book_late.
FILE is standard input where it is left out or is -.
Exit status: 0 done; 1 a file cannot be read, is damaged, is refused, or is a refusal; 2 wrong usage.
"""
import argparse
import os
import struct
import subprocess
import sys
from pathlib import Path

from sitefiles import book, dump, plan, practice, refusal, tables, text, totals
from sitefiles.blocks import Damaged
from sitefiles.picture import picture

PROGRAMS = Path(__file__).resolve().parent.parent / "target" / "bin"
READER = PROGRAMS / "totals"
DAY_MAKER = PROGRAMS / "practice_day"


class Failed(Exception):
    """What is said on standard error before the tool ends with status 1."""


# ---- files


def file_bytes(name):
    if name == "-":
        return sys.stdin.buffer.read()
    try:
        with open(name, "rb") as file:
            return file.read()
    except OSError as error:
        raise Failed(f"{name}: {error.strerror}") from None


def spoken(name):
    return "standard input" if name == "-" else name


def read_text(name, wanted):
    """A plan from its description. Where this has faults, what is wanted is not written."""
    try:
        return text.read_plan(spoken(name), file_bytes(name))
    except text.Unreadable as faults:
        raise Failed(f"{faults}\nno {wanted} is written") from None


def read_plan(name):
    """A plan from its description or from its bytes, which no text has: they are full of zero bytes."""
    if name is None:
        return None
    data = file_bytes(name)
    if b"\0" in data:
        return plan.from_bytes(name, data)
    try:
        return text.read_plan(name, data)
    except text.Unreadable as faults:
        raise Failed(str(faults)) from None


def read_file(name, reader, of_plan):
    """What a reader takes a file's bytes for, once it has tested them, with a plan also against that."""
    try:
        return reader(file_bytes(name), of_plan)
    except Damaged as damage:
        raise Failed(f"{spoken(name)}: {damage}") from None


def book_or_refusal(data, of_plan):
    if not data:
        raise Damaged("it is empty; the program writes a book or a refusal for every input")
    return book.read(data, of_plan) if data.startswith(b"BOOK") else refusal.read(data)


def read_output(name, of_plan=None):
    """What the program wrote: a book, or a refusal."""
    return read_file(name, book_or_refusal, of_plan)


def read_book(name, of_plan=None):
    """A book; a refusal is none."""
    output = read_output(name, of_plan)
    if isinstance(output, refusal.Refusal):
        raise Failed(f"{spoken(name)}: " + "\n".join(refusal_lines(output, of_plan)))
    return output


def read_totals(name, reader):
    """What a book comes to by the program that reads it, and the book if it can be shown."""
    data = file_bytes(name)
    line = written_by(reader, data)
    try:
        answer = totals.read(line)
    except Damaged as damage:
        raise Failed(f"{reader}: {damage}") from None
    if isinstance(answer, refusal.Refusal):
        raise Failed(f"{spoken(name)}: " + "\n".join(refusal.in_words(answer)))
    try:
        return tables.Named(spoken(name), answer, book.read(data))
    except Damaged as damage:
        return tables.Named(spoken(name), answer, fault=str(damage))


def read_practice(name, maker, seed, count):
    """The practice day that the program writes for a description's one vehicle."""
    of_plan = read_text(name, "practice day")
    try:
        answer = practice.read(written_by(maker, practice.asked(seed, count, of_plan.data())))
    except Damaged as damage:
        raise Failed(f"{maker}: {damage}") from None
    if isinstance(answer, refusal.Refusal):
        raise Failed(f"{spoken(name)}: " + "\n".join([*refusal_lines(answer, of_plan), "no practice day is written"]))
    return answer


def written_by(program, data):
    """What a program writes when it is given these bytes."""
    try:
        return subprocess.run([program], input=data, stdout=subprocess.PIPE).stdout
    except FileNotFoundError:
        raise Failed(f"{program}: there is no such program; bash examples/run builds it") from None
    except OSError as error:
        raise Failed(f"{program}: {error.strerror}") from None


def refusal_lines(output, of_plan):
    try:
        return refusal.in_words(output, of_plan)
    except Damaged as damage:
        raise Failed(str(damage)) from None


def say(line):
    print(line, file=sys.stderr)


def warn(read, of_plan=None):
    for warning in tables.warnings(read, of_plan):
        say(f"warning: {warning}")


# ---- commands


def make_plan(options):
    sys.stdout.buffer.write(read_text(options.text, "plan").data())


def make_car(options):
    car = read_text(options.text, "car").car()
    if car is None:
        raise Failed(f"{spoken(options.text)}: there is no vehicle; the late car is the last one\nno car is written")
    sys.stdout.buffer.write(car)


def make_practice(options):
    sys.stdout.buffer.write(read_practice(options.text, options.maker, options.seed, options.count))


def make_input(options):
    data = file_bytes(options.plan)
    if not data.startswith(b"PLAN"):
        say(f"warning: {spoken(options.plan)} does not begin with the letters PLAN; sitebook.py plan makes a plan of a description")
    sys.stdout.buffer.write(struct.pack("<BI", options.engine, options.allowance) + data)


def show(options):
    of_plan = read_plan(options.plan)
    output = read_output(options.file, of_plan)
    refused = isinstance(output, refusal.Refusal)
    print("\n".join(refusal_lines(output, of_plan) if refused else tables.show(output, of_plan)))
    return 1 if refused else 0


def write_csv(options):
    of_plan = read_plan(options.plan)
    read = read_book(options.file, of_plan)
    tables.write_csv(read, sys.stdout)
    warn(read, of_plan)


def write_totals(options):
    print("\n".join(tables.totals([read_totals(name, options.reader) for name in options.files])))


def draw(options):
    of_plan = read_plan(options.plan)
    read = read_book(options.file, of_plan)
    print(picture(read, of_plan))
    warn(read, of_plan)


def show_dump(options):
    of_plan = read_plan(options.plan)
    read = read_file(options.file, dump.read, of_plan)
    print("\n".join(dump.in_words(read, of_plan)))


# ---- the command line


def engine(word):
    return book.ENGINES.index(word) if word in book.ENGINES else number_below(256)(word)


def number_below(end):
    def number(word):
        if not (word.isascii() and word.isdecimal() and float(word) < end):
            raise argparse.ArgumentTypeError(f"{word} is no number from 0 to {end - 1}")
        return int(word)

    return number


def parser():
    whole = argparse.ArgumentParser(prog="sitebook.py", description=__doc__, formatter_class=argparse.RawDescriptionHelpFormatter)
    commands = whole.add_subparsers(required=True, metavar="COMMAND")

    def command(name, does, help):
        added = commands.add_parser(name, help=help, description=help)
        added.set_defaults(does=does)
        return added

    made = command("plan", make_plan, "write a plan's bytes from its description")
    made.add_argument("text", metavar="day.txt")

    booked = command("car", make_car, "write the block of a late car from the longer plan's description, whose last vehicle it is")
    booked.add_argument("text", metavar="longer.txt")

    drawn = command("practice", make_practice, "write a practice day's plan: copies of a description's one vehicle, with arrivals and SOCs drawn from a seed")
    drawn.add_argument("--seed", metavar="SEED", type=number_below(2**32), required=True, help="1 to 4294967295; equal seeds draw equal days")
    drawn.add_argument("--count", metavar="COUNT", type=number_below(2**32), required=True, help="how many copies, 1 to 64; their ids count from 1")
    drawn.add_argument("--maker", metavar="PROGRAM", default=DAY_MAKER, help="the program that writes the plan; if left out, target/bin/practice_day")
    drawn.add_argument("text", metavar="bay.txt")

    fed = command("input", make_input, "write what the program reads: engine, allowance and plan")
    fed.add_argument("engine", metavar="ENGINE", type=engine, help="events or 0: fast, ignores the site limit; steps or 1: obeys it")
    fed.add_argument("allowance", metavar="ALLOWANCE", type=number_below(2**32), help="units after which the run stops, at most 10000000")
    fed.add_argument("plan", metavar="day.plan")

    add_files(command("show", show, "show a book as a table, or a refusal in words"))
    add_files(command("csv", write_csv, "write all fields of all sessions as CSV"))
    add_files(command("picture", draw, "draw a book's day as SVG"))
    add_files(command("dump", show_dump, "show a dump in words; without its plan, vehicles and chargers by their blocks"))

    summed = command("totals", write_totals, "sum up books")
    summed.add_argument("--reader", metavar="PROGRAM", default=READER, help="the program that reads a book; if left out, target/bin/totals")
    summed.add_argument("files", metavar="FILE", nargs="+")
    return whole


def add_files(command):
    command.add_argument("--plan", metavar="PLAN", help="the plan of the run, as description or as bytes: for warnings, places and names")
    command.add_argument("file", metavar="FILE", nargs="?", default="-")


def main(words):
    options = parser().parse_args(words)
    try:
        status = options.does(options) or 0
        sys.stdout.flush()
        return status
    except Failed as failure:
        say(failure)
        return 1
    except BrokenPipeError:
        # The reader has gone. Python would complain once more when it flushes at the end.
        os.dup2(os.open(os.devnull, os.O_WRONLY), sys.stdout.fileno())
        return 1


if __name__ == "__main__":
    sys.exit(main(sys.argv[1:]))
