"""Writes a run as a trace-event file, which Perfetto and Chrome's tracing open. A step of the run
is a microsecond there."""

from __future__ import annotations

import json
from collections.abc import Iterator
from pathlib import Path

from .history import Way
from .program import Program
from .refusal import RefusalError
from .timeline import Timeline

Event = dict[str, object]
PROCESS = 1


def write_trace(path: Path, timeline: Timeline, program: Program) -> None:
    """Makes the file, an event a line."""
    try:
        with path.open("w", encoding="utf-8") as file:
            file.write('{"displayTimeUnit": "ns", "traceEvents": [\n')
            before = ""
            for event in events_of(timeline, program):
                file.write(before + json.dumps(event))
                before = ",\n"
            file.write("\n]}\n")
    except OSError as error:
        raise RefusalError(f"{path}: {error.strerror or error}") from error


def events_of(timeline: Timeline, program: Program) -> Iterator[Event]:
    """The events: names of harts, turns, calls of points, calls on devices, the end."""
    yield _named("process_name", 0, f"{program.path.name}, a microsecond for each step")
    for hart in sorted({*timeline.turns.hart, *timeline.devices.hart, *timeline.calls.hart}):
        yield _named("thread_name", hart, f"hart {hart}")
        yield {"ph": "M", "pid": PROCESS, "tid": hart, "name": "thread_sort_index",
               "args": {"sort_index": hart}}
    yield from _calls(timeline, program)
    turns = timeline.turns
    for start, length, hart, taken in zip(turns.start, turns.length, turns.hart, turns.taken,
                                          strict=True):
        name = "turn, taken back" if taken else "turn"
        yield _span(name, "turn", hart, start, length)
    devices = timeline.devices
    for place, start in enumerate(devices.start):
        way = Way(devices.way[place]).name.lower()
        taken_back = devices.rescue[place] >= 0
        yield {"ph": "i", "s": "t", "pid": PROCESS, "tid": devices.hart[place], "ts": start,
               "name": f"{way} {devices.port[place]}", "cat": "device",
               "args": {"answer": devices.answer[place], "in a rescued call": taken_back}}
    if timeline.ended is not None:
        yield {"ph": "i", "s": "g", "pid": PROCESS, "tid": timeline.ended.hart,
               "ts": timeline.steps, "name": f"end {timeline.ended.text()}", "cat": "end"}


def _calls(timeline: Timeline, program: Program) -> Iterator[Event]:
    """The calls of points, each before those in it."""
    calls = timeline.calls
    for place, start in enumerate(calls.start):
        entry = timeline.points[calls.point[place]]
        name = program.function(entry) or f"{entry:#x}"
        number = calls.rescue[place]
        event = _span(name, "call", calls.hart[place], start, calls.end[place] - start)
        if number >= 0:
            rescue = timeline.rescues[number]
            event["name"] = f"{name}: rescued, {rescue.fault}"
            event["cat"] = "rescue"
            event["args"] = {
                "fault": rescue.fault, "pc": f"{rescue.pc:016x}",
                "function": program.function(rescue.pc), "line": program.line(rescue.pc),
                "records": rescue.records, "records that stay": rescue.staying,
            }
        yield event


def _named(kind: str, hart: int, name: str) -> Event:
    return {"ph": "M", "pid": PROCESS, "tid": hart, "name": kind, "args": {"name": name}}


def _span(name: str, category: str, hart: int, start: int, length: int) -> Event:
    return {"ph": "X", "pid": PROCESS, "tid": hart, "ts": start, "dur": length, "name": name,
            "cat": category}
