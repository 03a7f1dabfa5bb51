"""Lays the entries of a history out over the run's steps, hart by hart."""

from __future__ import annotations

from array import array
from dataclasses import dataclass, field

from .history import Called, Ended, Entered, Entry, History, Ran, Rescued, Way, steps_of

NONE = -1


@dataclass
class Turns:
    """Acts in a row of one hart. They follow each other: no two harts act in one step."""

    start: array[int] = field(default_factory=lambda: array("I"))
    length: array[int] = field(default_factory=lambda: array("I"))
    hart: array[int] = field(default_factory=lambda: array("B"))
    taken: array[int] = field(default_factory=lambda: array("B"))


@dataclass
class Calls:
    """Calls of points, each behind the call that it lies in."""

    start: array[int] = field(default_factory=lambda: array("I"))
    end: array[int] = field(default_factory=lambda: array("I"))
    hart: array[int] = field(default_factory=lambda: array("B"))
    level: array[int] = field(default_factory=lambda: array("B"))
    parent: array[int] = field(default_factory=lambda: array("i"))
    point: array[int] = field(default_factory=lambda: array("H"))
    rescue: array[int] = field(default_factory=lambda: array("i"))


@dataclass
class Devices:
    """Calls on devices; stream is the place in the list of streams, or -1 for a close."""

    start: array[int] = field(default_factory=lambda: array("I"))
    hart: array[int] = field(default_factory=lambda: array("B"))
    way: array[int] = field(default_factory=lambda: array("B"))
    stream: array[int] = field(default_factory=lambda: array("i"))
    answer: array[int] = field(default_factory=lambda: array("i"))
    port: array[int] = field(default_factory=lambda: array("I"))
    rescue: array[int] = field(default_factory=lambda: array("i"))


@dataclass
class Stream:
    """What went through one port in one direction, in pieces."""

    port: int
    way: Way
    data: bytearray = field(default_factory=bytearray)
    length: array[int] = field(default_factory=lambda: array("I"))
    step: array[int] = field(default_factory=lambda: array("I"))
    rescue: array[int] = field(default_factory=lambda: array("i"))


@dataclass
class Rescue:
    """A call that was taken back. Records that stay are those by which something went outside."""

    entry: int
    fault: str
    pc: int
    hart: int
    depth: int
    start: int
    end: int
    records: int
    staying: int
    call: int


@dataclass
class Timeline:
    """A run over its steps."""

    steps: int = 0
    records: int = 0
    turns: Turns = field(default_factory=Turns)
    calls: Calls = field(default_factory=Calls)
    devices: Devices = field(default_factory=Devices)
    streams: list[Stream] = field(default_factory=list)
    rescues: list[Rescue] = field(default_factory=list)
    points: list[int] = field(default_factory=list)
    ended: Ended | None = None


class _Layout:
    """Goes through the entries in order, and keeps which calls are open."""

    def __init__(self) -> None:
        self.made = Timeline()
        self.open: list[tuple[int, int]] = []
        self.open_hart = NONE
        self.depth = 0
        self.base = 0
        self.rescue = NONE
        self.numbers: dict[int, int] = {}
        self.places: dict[tuple[int, Way], int] = {}

    def entries(self, entries: list[Entry]) -> None:
        """Lays these entries out, behind what is there."""
        turns, made = self.made.turns, self.made
        for entry in entries:
            if isinstance(entry, Ran):
                if entry.hart != self.open_hart and self.open and not self.depth:
                    self.close(0)
                turns.start.append(made.steps)
                turns.length.append(entry.acts)
                turns.hart.append(entry.hart)
                turns.taken.append(self.depth)
                made.steps += entry.acts
            else:
                self.entry(entry)

    def entry(self, entry: Entry) -> None:
        """Lays an entry out that is no row of acts."""
        if isinstance(entry, Ended):
            self.made.ended = entry
            return
        if entry.hart != self.open_hart and self.open and not self.depth:
            self.close(0)
        self.open_hart = entry.hart
        if isinstance(entry, Called):
            self.called(entry)
        elif isinstance(entry, Entered):
            self.close_same(entry.entry)
            self.open.append((entry.entry, self.begin(entry.hart, entry.entry)))
        elif isinstance(entry, Rescued):
            self.rescued(entry)

    def close(self, left: int) -> None:
        """Ends the calls that are open, but for so many."""
        while len(self.open) > left:
            _, call = self.open.pop()
            self.made.calls.end[call] = self.made.steps

    def close_same(self, point: int) -> None:
        """Ends an open call of this point, and those in it, as far as they lie in the rescued call
        that is gone through. The history doesn't hold when a call returned."""
        for place in range(self.base, len(self.open)):
            if self.open[place][0] == point:
                self.close(place)
                return

    def begin(self, hart: int, point: int) -> int:
        """A call of a point that begins here."""
        calls = self.made.calls
        if point not in self.numbers:
            self.numbers[point] = len(self.made.points)
            self.made.points.append(point)
        calls.start.append(self.made.steps)
        calls.end.append(self.made.steps)
        calls.hart.append(hart)
        calls.level.append(min(len(self.open), 255))
        calls.parent.append(self.open[-1][1] if self.open else NONE)
        calls.point.append(self.numbers[point])
        calls.rescue.append(NONE)
        return len(calls.start) - 1

    def rescued(self, entry: Rescued) -> None:
        """Lays a call out that was taken back, with what lies in it."""
        made = self.made
        self.close_same(entry.entry)
        call = self.begin(entry.hart, entry.entry)
        number, start, records = len(made.rescues), made.steps, made.records
        made.calls.rescue[call] = number
        rescue = Rescue(entry.entry, entry.fault, entry.pc, entry.hart, self.depth, start, start,
                        0, 0, call)
        made.rescues.append(rescue)
        outer, base = self.rescue, self.base
        self.open.append((NONE, call))
        self.rescue, self.base = number, len(self.open)
        self.depth += 1
        self.entries(entry.inside)
        self.close(self.base)
        self.depth -= 1
        self.open.pop()
        self.rescue, self.base, self.open_hart = outer, base, entry.hart
        rescue.end = made.calls.end[call] = made.steps
        rescue.records = made.records - records
        rescue.staying += staying_of(entry.inside)

    def called(self, entry: Called) -> None:
        """Lays a call on a device out."""
        made, devices = self.made, self.made.devices
        stream = NONE if entry.way is Way.CLOSE else self.stream(entry.port, entry.way)
        devices.start.append(made.steps)
        devices.hart.append(entry.hart)
        devices.way.append(entry.way)
        devices.stream.append(stream)
        devices.answer.append(max(-(2**31), min(entry.answer, 2**31 - 1)))
        devices.port.append(min(entry.port, 2**32 - 1))
        devices.rescue.append(self.rescue)
        if entry.data:
            piece = made.streams[stream]
            piece.data += entry.data
            piece.length.append(len(entry.data))
            piece.step.append(made.steps)
            piece.rescue.append(self.rescue)
        made.steps += 1
        made.records += 1

    def stream(self, port: int, way: Way) -> int:
        """The place of the stream of this port in this direction."""
        place = self.places.get((port, way))
        if place is None:
            place = self.places[port, way] = len(self.made.streams)
            self.made.streams.append(Stream(port, way))
        return place


def staying_of(entries: list[Entry]) -> int:
    """How many of these calls on devices left something outside, those in rescued calls too."""
    count = 0
    for entry in entries:
        if isinstance(entry, Called):
            count += entry.stays()
        elif isinstance(entry, Rescued):
            count += staying_of(entry.inside)
    return count


def timeline_of(history: History) -> Timeline:
    """The run of the history, laid out."""
    layout = _Layout()
    layout.entries(history.entries)
    layout.close(0)
    assert layout.made.steps == steps_of(history.entries)
    return layout.made


@dataclass(frozen=True)
class Group:
    """The rescues of one point by one fault at one pc."""

    entry: int
    fault: str
    pc: int
    rescues: list[int]
    first: int
    last: int
    records: int
    staying: int


def groups_of(rescues: list[Rescue]) -> list[Group]:
    """The rescues by point, fault and pc, the most frequent first."""
    found: dict[tuple[int, str, int], list[int]] = {}
    for number, rescue in enumerate(rescues):
        found.setdefault((rescue.entry, rescue.fault, rescue.pc), []).append(number)
    made = [
        Group(
            *key,
            numbers,
            min(rescues[number].start for number in numbers),
            max(rescues[number].start for number in numbers),
            sum(rescues[number].records for number in numbers),
            sum(rescues[number].staying for number in numbers),
        )
        for key, numbers in found.items()
    ]
    return sorted(made, key=lambda group: (-len(group.rescues), group.first))
