"""Says of a run under points what became of it, beside the same run without the request that
faults."""

from __future__ import annotations

import re
from collections import Counter
from collections.abc import Callable
from dataclasses import dataclass
from enum import Enum

from .runs import Outcome, Runner


class Result(Enum):
    """What became of a run, the best first: its letter, and what it says."""

    SAME = ("=", "as without points")
    RESCUED = ("R", "rescued, else as without the request")
    RECORDS = ("W", "rescued, records stay")
    OTHER = ("D", "other output")
    BUDGET = ("B", "ended by the budget")
    STUCK = ("S", "stuck")
    FAULT = ("F", "ended by a fault")
    TIME = ("T", "past the time limit")
    REFUSED = ("X", "refused")

    @property
    def letter(self) -> str:
        """One letter for a cell."""
        return self.value[0]

    @property
    def text(self) -> str:
        """The meaning in words."""
        return self.value[1]

    @property
    def rank(self) -> int:
        """The larger, the worse."""
        return list(Result).index(self)

    def is_safe(self) -> bool:
        """Whether nothing of this speaks against the point."""
        return self in (Result.SAME, Result.RESCUED)


@dataclass(frozen=True)
class Comparison:
    """How outputs are compared: in any order of the lines or in theirs, without what the pattern
    matches, and with a line in place of a request or without the request."""

    any_order: bool = False
    ignore: str | None = None
    instead: bytes | None = None

    def lines(self, output: bytes) -> list[bytes]:
        """The lines that are compared."""
        if self.ignore is not None:
            output = re.sub(self.ignore.encode(), b"", output, flags=re.MULTILINE)
        return output.splitlines()

    def same(self, one: bytes, other: bytes) -> bool:
        """Whether two outputs are the same."""
        first, second = self.lines(one), self.lines(other)
        return sorted(first) == sorted(second) if self.any_order else first == second

    def fits(self, whole: bytes, without: bytes, faulty: int) -> bool:
        """Whether an output is that without the faulty requests, but for their own answers."""
        lines, wanted = self.lines(whole), self.lines(without)
        if self.instead is not None:
            if self.any_order:
                missing = Counter(wanted) - Counter(lines)
                return len(lines) == len(wanted) and missing.total() <= faulty
            differing = sum(a != b for a, b in zip(lines, wanted, strict=False))
            return len(lines) == len(wanted) and differing <= faulty
        if self.any_order:
            return not Counter(wanted) - Counter(lines)
        rest = iter(lines)
        return all(any(line == found for found in rest) for line in wanted)


@dataclass(frozen=True)
class Case:
    """A run to be judged: under these points, these lines as input, this seed. The line of this
    number is the one that is suspected to fault."""

    points: str
    lines: tuple[bytes, ...]
    seed: int
    suspected: int | None = None

    def given(self) -> bytes:
        """The input."""
        return b"".join(self.lines)


@dataclass(frozen=True)
class Verdict:
    """What became of a case, with the numbers of the lines that fault."""

    result: Result
    end: str
    rescues: int
    faulty: tuple[int, ...] = ()
    note: str = ""


ENDS = {"budget": Result.BUDGET, "stuck": Result.STUCK, "fault": Result.FAULT,
        "time": Result.TIME, "refused": Result.REFUSED}


def judge(runner: Runner, comparison: Comparison, case: Case) -> Verdict:
    """What becomes of the case."""
    came = runner.run(case.points, case.given(), case.seed)
    if came.kind() in ENDS:
        return Verdict(ENDS[came.kind()], came.end, came.rescues)
    if not came.rescues:
        plain = runner.run(None, case.given(), case.seed)
        same = plain.end == came.end and comparison.same(plain.output, came.output)
        note = "" if same else f"without points it ended by {plain.end}, or wrote something else"
        return Verdict(Result.SAME if same else Result.OTHER, came.end, 0, note=note)
    faulty = faulty_lines(runner, case, came)
    if not faulty:
        return Verdict(Result.OTHER, came.end, came.rescues,
                       note="no request was found without which nothing is rescued")
    without = runner.run(case.points, left(case.lines, faulty, comparison.instead), case.seed)
    if without.end != came.end or not comparison.fits(came.output, without.output, len(faulty)):
        return Verdict(Result.OTHER, came.end, came.rescues, faulty,
                       "other output than without the request")
    result = Result.RECORDS if came.staying else Result.RESCUED
    return Verdict(result, came.end, came.rescues, faulty)


def left(lines: tuple[bytes, ...], gone: tuple[int, ...], instead: bytes | None = None) -> bytes:
    """The input without these lines, or with another one in their place."""
    place = b"" if instead is None else instead
    return b"".join(place if n in gone else line for n, line in enumerate(lines))


def faulty_lines(runner: Runner, case: Case, came: Outcome) -> tuple[int, ...]:
    """The lines without which nothing is rescued, or none where that can't be found."""
    def rescues(gone: tuple[int, ...]) -> int:
        return runner.run(case.points, left(case.lines, gone), case.seed).rescues

    if case.suspected is not None and rescues((case.suspected,)) == 0:
        return (case.suspected,)
    gone: tuple[int, ...] = ()
    count = came.rescues
    for number in range(len(case.lines)):
        now = rescues((*gone, number))
        if now < count:
            gone, count = (*gone, number), now
        if not count:
            return gone
    return ()


def shortest(case: Case, holds: Callable[[Case], bool], most: int) -> Case:
    """The case with as many lines left out as can be, by so many tries at most: always fewer lines
    in a row, as long as it still holds."""
    tries, size = 0, max(len(case.lines) // 2, 1)
    while True:
        at = 0
        while at < len(case.lines) and len(case.lines) > 1:
            if tries == most:
                return case
            tries += 1
            fewer = without(case, at, at + size)
            if fewer.lines and holds(fewer):
                case = fewer
            else:
                at += size
        if size == 1:
            return case
        size = max(size // 2, 1)


def without(case: Case, first: int, end: int) -> Case:
    """The case without the lines from the first to the one before the end."""
    suspected = case.suspected
    if suspected is not None:
        if first <= suspected < end:
            suspected = None
        elif suspected >= end:
            suspected -= end - first
    return Case(case.points, case.lines[:first] + case.lines[end:], case.seed, suspected)
