"""A book's bytes, tested and read."""
import struct
from dataclasses import dataclass

from sitefiles import blocks, sessions
from sitefiles.blocks import CHECK, Damaged
from sitefiles.sessions import MOST_SESSIONS, SESSIONS

ENGINES = ["events", "steps"]


@dataclass(frozen=True)
class Book:
    """A run's sessions in the order in which the run wrote them."""

    engine: str
    ended: bool
    used: int
    sessions: list


def read(data, plan=None):
    """The book that these bytes are, of this plan if one is given; Damaged says what is wrong with them, and where."""
    blocks.test_file(data, b"BOOK")
    count, engine, ended, used = struct.unpack("<HBBQ", data[4:16])
    blocks.test_count(4, count, MOST_SESSIONS, "sessions", "a book")
    blocks.test_blocks(data, 1 + SESSIONS.blocks(count), f"{count} sessions")
    if engine >= len(ENGINES):
        raise Damaged(f"byte 6: engine {engine}; it can be 0 (events) or 1 (steps)")
    if ended > 1:
        raise Damaged(f"byte 7: ended is {ended}; it can be 0 or 1")
    blocks.test_zero(data, 16, CHECK, "the header")
    book = Book(ENGINES[engine], ended == 1, used, sessions.read(data, 2, count))
    if plan is not None:
        sessions.test_against(book.sessions, plan, "book")
    return book
