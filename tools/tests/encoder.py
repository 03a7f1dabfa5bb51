"""Writes history files from entries, for the tests: the other way round of `history.py`."""

from __future__ import annotations

import random
import struct

from rescue_tools.history import (
    FAULTS, Called, Ended, Ending, Entered, Entry, History, Ran, Rescued, Way,
)


def entry_bytes(entry: Entry) -> bytes:
    """The bytes of an entry."""
    if isinstance(entry, Ran):
        return struct.pack("<BBI", 1, *entry)
    if isinstance(entry, Entered):
        return struct.pack("<BBQ", 2, *entry)
    if isinstance(entry, Called):
        front = struct.pack("<BBQBQqI", 3, *entry[:-1], len(entry.data))
        return front + entry.data
    if isinstance(entry, Rescued):
        front = struct.pack("<BBQBQI", 4, entry.hart, entry.entry, FAULTS.index(entry.fault),
                            entry.pc, len(entry.inside))
        return front + b"".join(map(entry_bytes, entry.inside))
    if entry.ending is Ending.EXIT:
        return struct.pack("<BBBB", 5, 0, entry.hart, entry.code)
    if entry.ending is Ending.FAULT:
        return struct.pack("<BBBBQ", 5, 1, entry.hart, FAULTS.index(entry.fault), entry.pc)
    return bytes([5, entry.ending])


def history_bytes(history: History) -> bytes:
    """The bytes of a history file."""
    head = struct.pack("<8sBQQQ", b"rescueh1", history.harts, history.ports, history.budget,
                       len(history.entries))
    return head + b"".join(map(entry_bytes, history.entries))


def long_history(entries: int, points: tuple[int, int], pc: int) -> History:
    """A run of about so many entries by eight harts, with calls of two points, some taken back."""
    chance = random.Random(5)
    made: list[Entry] = []
    count = 0
    while count < entries - 1:
        hart = chance.randrange(8)
        kind = chance.random()
        if kind < 0.7:
            made.append(Ran(hart, chance.randrange(1, 30)))
        elif kind < 0.85:
            made.append(Called(hart, 3, Way(chance.randrange(2)), 4, 4, b"abcd"))
        elif kind < 0.95:
            made.append(Entered(hart, points[0]))
        else:
            inner = Rescued(hart, points[1], "load-rights", pc, [Ran(hart, 5)])
            inside: list[Entry] = [Ran(hart, chance.randrange(40)), inner,
                                   Called(hart, 1, Way.WRITE, 2, 2, b"x\n")]
            made.append(Rescued(hart, points[0], "store-rights", pc, inside))
            count += 4
        count += 1
    made.append(Ended(Ending.EXIT, 0, 0))
    return History(8, 1, 20_000_000, made)


def small_history(points: tuple[int, int], pc: int) -> History:
    """Two harts, a call that returns, and one taken back with a write and another one in it."""
    inner = Rescued(1, points[1], "load-rights", pc, [Ran(1, 20)])
    outer = Rescued(1, points[0], "store-rights", pc + 4, [
        Ran(1, 30), inner, Ran(1, 10), Called(1, 1, Way.WRITE, 5, 5, b"half\n"), Ran(1, 7)])
    return History(4, 1, 1000, [
        Ran(0, 50), Called(0, 0, Way.READ, 64, 8, b"request\n"), Entered(0, points[0]), Ran(0, 40),
        Ran(1, 10), outer, Ran(0, 20), Called(0, 1, Way.WRITE, 3, 3, b"ok\n"),
        Called(0, 3, Way.CLOSE, 0, 0, b""), Ended(Ending.EXIT, 0, 3)])
