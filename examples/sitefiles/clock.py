"""Times: a day begins at second 0, and hours go on past 24."""
import re

CLOCK = re.compile(r"(\d+):([0-5]\d)(?::([0-5]\d))?", re.ASCII)
DURATION = re.compile(r"(\d+):([0-5]\d):([0-5]\d)", re.ASCII)


def seconds(form, word):
    """The seconds that a word of this form means, or None."""
    match = form.fullmatch(word)
    if match is None:
        return None
    hours, minutes, rest = (float(part or 0) for part in match.groups())
    return 3600 * hours + 60 * minutes + rest


def spelled(time):
    """A time as 07:05:30."""
    return f"{minute(time)}:{time % 60:02}"


def minute(time):
    """A time as 07:05."""
    return f"{time // 3600:02}:{time // 60 % 60:02}"
