"""`rescue-view`: shows a saved run as one page, or as a trace-event file."""

from __future__ import annotations

import argparse
from collections.abc import Sequence
from pathlib import Path

from .history import Entered, Entry, History, Rescued, read_history
from .page import run_page
from .points import Point, read_points
from .program import Program, read_program
from .refusal import RefusalError, guarded, write_text
from .timeline import timeline_of
from .trace import write_trace

NO_PLACE = ("fetch-rights", "fetch-misaligned")


def main(words: Sequence[str] | None = None) -> int:
    """The program."""
    return guarded("rescue-view", view, words)


def view(words: Sequence[str]) -> int:
    """Reads the files and makes what is asked for."""
    asked = _parser().parse_args(words)
    if asked.output is None and asked.trace is None:
        raise RefusalError("nothing to make: give '-o page.html', '--trace FILE' or both")
    history = read_history(asked.history)
    found = _places(history)
    program = read_program(asked.program, {pc for pcs in found.values() for pc in pcs})
    points = None if asked.points is None else read_points(asked.points)
    _check_program(asked.history, found, program)
    if points is not None:
        _check_points(asked.points, found, points, program)
    timeline = timeline_of(history)
    if asked.output is not None:
        write_text(asked.output, run_page(asked.history.name, history, timeline, program, points))
    if asked.trace is not None:
        write_trace(asked.trace, timeline, program)
    return 0


def _parser() -> argparse.ArgumentParser:
    made = argparse.ArgumentParser(prog="rescue-view", description=__doc__)
    made.add_argument("history", type=Path, metavar="HISTORY",
                      help="a file that 'rescue .. --save HISTORY' made")
    made.add_argument("--program", type=Path, metavar="ELF", required=True,
                      help="the guest, with its symbols")
    made.add_argument("--points", type=Path, metavar="FILE", help="the rescue file of the run")
    made.add_argument("-o", "--output", type=Path, metavar="PAGE", help="the page to make")
    made.add_argument("--trace", type=Path, metavar="FILE",
                      help="a trace-event file to make, for Perfetto or Chrome's tracing")
    return made


def _places(history: History) -> dict[int, set[int]]:
    """The points that were called, each with the pcs of faults whose instruction is there."""
    found: dict[int, set[int]] = {}
    _add_places(history.entries, found)
    return found


def _add_places(entries: list[Entry], found: dict[int, set[int]]) -> None:
    for entry in entries:
        if isinstance(entry, Entered):
            found.setdefault(entry.entry, set())
        elif isinstance(entry, Rescued):
            pcs = found.setdefault(entry.entry, set())
            if entry.fault not in NO_PLACE:
                pcs.add(entry.pc)
            _add_places(entry.inside, found)


def _check_program(path: Path, found: dict[int, set[int]], program: Program) -> None:
    """Refuses a history whose points or faults lie where the program has no code."""
    for entry, pcs in found.items():
        for what, address in [("point", entry), *(("fault", pc) for pc in sorted(pcs))]:
            if not program.has_code(address):
                raise RefusalError(
                    f"history {path} is of another program: its {what} at {address:#x} lies "
                    f"outside the code of {program.path}"
                )
        if "+" in program.function(entry):
            raise RefusalError(
                f"history {path} is of another program: its point at {entry:#x} is no function's "
                f"start in {program.path}, but {program.function(entry)}"
            )


def _check_points(
    path: Path, found: dict[int, set[int]], points: list[Point], program: Program
) -> None:
    """Refuses a history with a point that the rescue file doesn't have, or a file of a function
    that the program doesn't have."""
    known = set()
    for point in points:
        address = point.address(program)
        if address is None:
            raise RefusalError(
                f"rescue file {path}: {program.path} has no function {point.name()!r}"
            )
        known.add(address)
    for entry in found:
        if entry not in known:
            raise RefusalError(
                f"rescue file {path} is of another run: the history has calls of a point at "
                f"{entry:#x} ({program.function(entry) or 'no function'}), the file doesn't"
            )
