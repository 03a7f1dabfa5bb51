"""Reads history files, as docs/MANUAL.md has them under 'The history file'."""

from __future__ import annotations

import struct
from collections.abc import Iterable
from dataclasses import dataclass
from enum import IntEnum
from pathlib import Path
from typing import NamedTuple, TypeAlias

from .refusal import RefusalError, read_bytes

LETTERS = b"rescueh1"
MOST_HARTS = 64
MOST_BUDGET = 20_000_000
DEEPEST = 16
FAULTS = (
    "fetch-rights",
    "fetch-misaligned",
    "illegal",
    "load-rights",
    "store-rights",
    "atomic-misaligned",
    "breakpoint",
    "blocked-in-point",
)
_HEAD = struct.Struct("<8sBQQQ")
_RAN = struct.Struct("<BI")
_ENTERED = struct.Struct("<BQ")
_CALLED = struct.Struct("<BQBQqI")
_RESCUED = struct.Struct("<BQBQI")
_EXIT = struct.Struct("<BB")
_FAULT = struct.Struct("<BBQ")


class Way(IntEnum):
    """What a call on a device is for."""

    READ = 0
    WRITE = 1
    CLOSE = 2


class Ending(IntEnum):
    """How a run ends."""

    EXIT = 0
    FAULT = 1
    STUCK = 2
    BUDGET = 3


class Ran(NamedTuple):
    """A hart made so many ordinary acts."""

    hart: int
    acts: int


class Entered(NamedTuple):
    """A hart entered a point, whose call returned well or hasn't returned."""

    hart: int
    entry: int


class Called(NamedTuple):
    """A call on a device."""

    hart: int
    port: int
    way: Way
    asked: int
    answer: int
    data: bytes

    def stays(self) -> bool:
        """Whether something stays outside: bytes that went, or a device that is closed."""
        return bool(self.data) or (self.way is Way.CLOSE and self.answer == 0)


class Rescued(NamedTuple):
    """A call of a point that met a fault and was taken back."""

    hart: int
    entry: int
    fault: str
    pc: int
    inside: list[Entry]


class Ended(NamedTuple):
    """The end of the run; hart, code, fault and pc as far as the ending has them."""

    ending: Ending
    hart: int = 0
    code: int = 0
    fault: str = ""
    pc: int = 0

    def text(self) -> str:
        """The end as the report has it."""
        if self.ending is Ending.EXIT:
            return f"exit {self.code}"
        if self.ending is Ending.FAULT:
            return f"fault {self.fault} hart {self.hart} pc {self.pc:016x}"
        return self.ending.name.lower()


Entry: TypeAlias = Ran | Entered | Called | Rescued | Ended


@dataclass(frozen=True)
class History:
    """A run as its file holds it."""

    harts: int
    ports: int
    budget: int
    entries: list[Entry]

    def ending(self) -> Ended | None:
        """The end, where the run has one."""
        last = self.entries[-1] if self.entries else None
        return last if isinstance(last, Ended) else None


def steps_of(entries: Iterable[Entry]) -> int:
    """The steps of the entries, as the report counts them."""
    steps = 0
    for entry in entries:
        if isinstance(entry, Ran):
            steps += entry.acts
        elif isinstance(entry, Called):
            steps += 1
        elif isinstance(entry, Rescued):
            steps += steps_of(entry.inside)
    return steps


class _Broken(Exception):
    """The first place that breaks a rule of the file."""


class _Reader:
    """Reads entries from the front of the bytes."""

    def __init__(self, data: bytes) -> None:
        self.data = data
        self.at = 0

    def fields(self, form: struct.Struct) -> tuple[int, ...]:
        """The next fields, of this form."""
        if self.at + form.size > len(self.data):
            raise _Broken(f"it is cut: the file ends at byte {len(self.data)}, within an entry")
        values = form.unpack_from(self.data, self.at)
        self.at += form.size
        return values

    def bytes(self, count: int) -> bytes:
        """So many bytes."""
        end = self.at + count
        if end > len(self.data):
            raise _Broken(f"it is cut: the file ends at byte {len(self.data)}, within an entry")
        taken = self.data[self.at:end]
        self.at = end
        return taken

    def entries(self, count: int, depth: int) -> list[Entry]:
        """So many entries, which lie in so many rescued calls."""
        made: list[Entry] = []
        data, ran = self.data, _RAN
        for _ in range(count):
            if self.at >= len(data):
                raise _Broken(f"it is cut: the file ends at byte {len(data)}, between entries")
            kind = data[self.at]
            self.at += 1
            if kind == 1 and self.at + ran.size <= len(data):
                made.append(Ran._make(ran.unpack_from(data, self.at)))
                self.at += ran.size
            else:
                made.append(self.entry(kind, depth))
        return made

    def entry(self, kind: int, depth: int) -> Entry:
        """The entry of this kind."""
        place = self.at
        if kind == 1:
            return Ran._make(self.fields(_RAN))
        if kind == 2:
            return Entered._make(self.fields(_ENTERED))
        if kind == 3:
            hart, port, way, asked, answer, length = self.fields(_CALLED)
            if way not in (0, 1, 2):
                raise _Broken(f"byte {place}: a call on a device whose way is {way}")
            return Called(hart, port, Way(way), asked, answer, self.bytes(length))
        if kind == 4:
            if depth == DEEPEST:
                raise _Broken(f"byte {place - 1}: more than {DEEPEST} rescued calls in each other")
            hart, point, fault, pc, count = self.fields(_RESCUED)
            name = self.fault(fault, place)
            return Rescued(hart, point, name, pc, self.entries(count, depth + 1))
        if kind == 5:
            return self.ended(place)
        raise _Broken(f"byte {place - 1}: an entry of the unknown kind {kind}")

    def fault(self, number: int, place: int) -> str:
        """The name of the fault of this number."""
        if number >= len(FAULTS):
            raise _Broken(f"byte {place}: a fault of the unknown number {number}")
        return FAULTS[number]

    def ended(self, place: int) -> Ended:
        """The end of the run."""
        number = self.bytes(1)[0]
        if number not in (0, 1, 2, 3):
            raise _Broken(f"byte {place}: an ending of the unknown number {number}")
        ending = Ending(number)
        if ending is Ending.EXIT:
            hart, code = self.fields(_EXIT)
            return Ended(ending, hart, code)
        if ending is Ending.FAULT:
            hart, fault, pc = self.fields(_FAULT)
            return Ended(ending, hart, 0, self.fault(fault, place), pc)
        return Ended(ending)


def read_history(path: Path) -> History:
    """The history that the file holds."""
    data = read_bytes(path, "history")
    try:
        return history_of(data)
    except _Broken as broken:
        raise RefusalError(f"history {path}: {broken}") from broken


def history_of(data: bytes) -> History:
    """The history that these bytes are."""
    if data[:8] != LETTERS[: len(data)] or not data:
        raise _Broken("it is no history file: it doesn't begin with 'rescueh1'")
    reader = _Reader(data)
    if len(data) < _HEAD.size:
        raise _Broken(f"it is cut: the file ends at byte {len(data)}, within its head")
    _, harts, ports, budget, count = _HEAD.unpack_from(data)
    reader.at = _HEAD.size
    if not 1 <= harts <= MOST_HARTS:
        raise _Broken(f"byte 8: {harts} harts, where 1 to {MOST_HARTS} can be")
    if not 1 <= budget <= MOST_BUDGET:
        raise _Broken(f"byte 17: a budget of {budget}, where 1 to {MOST_BUDGET} can be")
    entries = reader.entries(count, 0)
    if reader.at < len(data):
        raise _Broken(f"byte {reader.at}: bytes behind the last entry")
    _check_harts(entries, harts)
    return History(harts, ports, budget, entries)


def _check_harts(entries: list[Entry], harts: int) -> None:
    """Refuses entries of a hart that has no slot."""
    for entry in entries:
        if entry.hart >= harts:
            raise _Broken(f"an entry is of hart {entry.hart}, where {harts} slots are")
        if isinstance(entry, Rescued):
            _check_harts(entry.inside, harts)
