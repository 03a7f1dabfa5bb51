"""Makes the page of a run: the tables as HTML, the picture's numbers packed beside them."""

from __future__ import annotations

import base64
import sys
import zlib
from array import array
from importlib import resources

import jinja2

from .history import History
from .points import Point
from .program import Program
from .timeline import Group, Timeline, groups_of

MOST_SHOWN = 8 * 1024 * 1024
"""So many bytes of a port and direction go into the page."""


def environment() -> jinja2.Environment:
    """Where the templates are found; all values are escaped."""
    made = jinja2.Environment(
        loader=jinja2.PackageLoader("rescue_tools", "pages"),
        autoescape=True,
        trim_blocks=True,
        lstrip_blocks=True,
        undefined=jinja2.StrictUndefined,
    )
    made.filters["grouped"] = lambda number: f"{number:,}"
    return made


def page_file(name: str) -> str:
    """A file that goes into a page as it is."""
    return resources.files("rescue_tools").joinpath("pages", name).read_text(encoding="utf-8")


class Packed:
    """Arrays of numbers, one behind the other, each with its place."""

    def __init__(self) -> None:
        self.data = bytearray()
        self.places: dict[str, tuple[str, int, int]] = {}

    def add(self, name: str, values: array[int]) -> None:
        """Puts an array behind the others; each begins at a multiple of 4."""
        kind = {"B": "Uint8", "H": "Uint16", "I": "Uint32", "i": "Int32"}[values.typecode]
        if sys.byteorder == "big":
            values = array(values.typecode, values)
            values.byteswap()
        self.data += bytes(-len(self.data) % 4)
        self.places[name] = (kind, len(self.data), len(values))
        self.data += values.tobytes()

    def text(self) -> str:
        """All of it, compressed, as letters."""
        return base64.b64encode(zlib.compress(bytes(self.data), 6)).decode("ascii")


def run_page(
    name: str, history: History, timeline: Timeline, program: Program, points: list[Point] | None
) -> str:
    """The page."""
    groups = groups_of(timeline.rescues)
    packed = _packed(timeline, groups)
    ended = timeline.ended
    facts = {
        "harts": sorted({*timeline.turns.hart, *timeline.devices.hart, *timeline.calls.hart}),
        "steps": timeline.steps,
        "end": "" if ended is None else ended.text(),
        "endHart": None if ended is None else ended.hart,
        "points": [program.function(entry) or f"{entry:#x}" for entry in timeline.points],
        "groups": [_group_fact(group, program) for group in groups],
        "streams": [
            {"port": stream.port, "way": stream.way.name.lower(), "total": len(stream.data)}
            for stream in timeline.streams
        ],
        "arrays": packed.places,
    }
    template = environment().get_template("view.html.j2")
    return template.render(
        name=name,
        program=program.path.name,
        history=history,
        timeline=timeline,
        entries=len(timeline.turns.start) + len(timeline.devices.start) + len(timeline.calls.start),
        end=facts["end"] or "cut off: the history has no end",
        groups=[_row(number, group, program, points) for number, group in enumerate(groups)],
        points=_point_rows(timeline, program, points),
        has_lines=bool(program.lines),
        facts=facts,
        data=packed.text(),
        style=page_file("pages.css"),
        script=page_file("view.js"),
    )


def _packed(timeline: Timeline, groups: list[Group]) -> Packed:
    """The numbers of the picture and of the ports."""
    packed = Packed()
    for part, whole in (("turns", timeline.turns), ("calls", timeline.calls),
                        ("devices", timeline.devices)):
        for name, values in vars(whole).items():
            packed.add(f"{part}.{name}", values)
    rescues = timeline.rescues
    group_of = array("i", bytes(4 * len(rescues)))
    for place, group in enumerate(groups):
        for number in group.rescues:
            group_of[number] = place
    packed.add("rescues.group", group_of)
    for name in ("start", "end", "hart", "depth", "records", "staying", "call"):
        packed.add(f"rescues.{name}", array("I", [getattr(rescue, name) for rescue in rescues]))
    for place, stream in enumerate(timeline.streams):
        shown, room = array("I"), MOST_SHOWN
        for length in stream.length:
            shown.append(min(length, room))
            room -= shown[-1]
        packed.add(f"stream{place}.length", shown)
        packed.add(f"stream{place}.step", stream.step)
        packed.add(f"stream{place}.rescue", stream.rescue)
        packed.add(f"stream{place}.data", array("B", stream.data[:MOST_SHOWN]))
    return packed


def _group_fact(group: Group, program: Program) -> dict[str, object]:
    """What the picture says of a rescue of this group."""
    return {
        "point": program.function(group.entry) or f"{group.entry:#x}",
        "fault": group.fault,
        "place": program.function(group.pc) or f"{group.pc:#x}",
        "line": program.line(group.pc),
    }


def _row(
    number: int, group: Group, program: Program, points: list[Point] | None
) -> dict[str, object]:
    """A row of the table of rescues."""
    point = _point_at(group.entry, program, points)
    return {
        "number": number,
        "point": program.function(group.entry) or "no function",
        "entry": f"{group.entry:016x}",
        "fault": group.fault,
        "pc": f"{group.pc:016x}",
        "place": program.function(group.pc) or "outside the code",
        "line": program.line(group.pc),
        "count": len(group.rescues),
        "first": group.first,
        "last": group.last,
        "records": group.records,
        "staying": group.staying,
        "code": "" if point is None else str(point.code(group.fault)),
    }


def _point_at(entry: int, program: Program, points: list[Point] | None) -> Point | None:
    """The point of the rescue file at this address."""
    for point in points or []:
        if point.address(program) == entry:
            return point
    return None


def _point_rows(
    timeline: Timeline, program: Program, points: list[Point] | None
) -> list[dict[str, object]]:
    """What became of each point: those of the file that weren't called, too."""
    called = [0] * len(timeline.points)
    rescued = [0] * len(timeline.points)
    for number, rescue in zip(timeline.calls.point, timeline.calls.rescue, strict=True):
        called[number] += 1
        rescued[number] += rescue >= 0
    found = {entry: (called[place], rescued[place]) for place, entry in enumerate(timeline.points)}
    for point in points or []:
        address = point.address(program)
        if address is not None:
            found.setdefault(address, (0, 0))
    rows: list[dict[str, object]] = []
    for entry, (calls, rescues) in found.items():
        named = _point_at(entry, program, points)
        limit = "" if named is None else "none" if named.limit is None else str(named.limit)
        rows.append({
            "name": program.function(entry) or "no function", "entry": f"{entry:016x}",
            "calls": calls, "rescues": rescues, "limit": limit,
            "returns": "" if named is None else str(named.returns),
            "kind": "" if named is None else named.kind,
        })
    return rows
