"""`rescue-sweep`: runs a program over seeds, inputs, points and codes, and says what is safe."""

from __future__ import annotations

import argparse
import csv
import hashlib
import os
import re
import shutil
import sys
from collections import Counter
from collections.abc import Iterator, Sequence
from contextlib import ExitStack
from dataclasses import dataclass, replace
from pathlib import Path

from rich.console import Console
from rich.progress import BarColumn, MofNCompleteColumn, Progress, TextColumn, TimeRemainingColumn
from rich.table import Table

from .judge import Case, Comparison, Result, Verdict, judge, shortest
from .points import Code, Point, file_of, read_points
from .pools import Work, on_cluster, on_this_machine
from .program import Program, read_program
from .refusal import RefusalError, guarded, read_bytes, write_text
from .runs import Runner, Setting, on_the_way
from .store import Key, Store
from .sweep_page import Shortest, sweep_page

STOPPED = 130


@dataclass(frozen=True)
class Input:
    """An input: its name, its lines, and which of them is suspected to fault."""

    name: str
    lines: tuple[bytes, ...]
    suspected: int | None = None


@dataclass(frozen=True)
class Plan:
    """What a sweep goes over."""

    setting: Setting
    comparison: Comparison
    points: dict[str, str]
    inputs: list[Input]
    seeds: list[int]

    def key(self) -> str:
        """A text that is another for another sweep."""
        return hashlib.sha256(repr((self.setting.key(), self.comparison)).encode()).hexdigest()

    def work(self) -> Iterator[tuple[Key, Case]]:
        """All cases. A key holds what the rescue file and the input are, beside their names."""
        for point, text in self.points.items():
            for given in self.inputs:
                for seed in self.seeds:
                    yield Key(keyed(point, text.encode()), keyed(given.name, b"".join(given.lines)),
                              seed), Case(text, given.lines, seed, given.suspected)


def keyed(name: str, contents: bytes) -> str:
    """A name with a mark of what it stands for."""
    return f"{name}\t{hashlib.sha256(contents).hexdigest()[:16]}"


def main(words: Sequence[str] | None = None) -> int:
    """The program."""
    return guarded("rescue-sweep", sweep, words)


def sweep(words: Sequence[str]) -> int:
    """Makes the plan, has it judged, and tells what came."""
    asked = _parser().parse_args(words)
    plan = _plan(asked)
    store = Store(asked.results, plan.key())
    try:
        known, stopped = store.verdicts(), False
        work = [(key, case) for key, case in plan.work() if key not in known]
        try:
            _judge(asked, plan, work, store)
        except KeyboardInterrupt:
            stopped = True
        known = store.verdicts()
        found = {key: known[key] for key, _ in plan.work() if key in known}
        if stopped:
            print(f"stopped: {len(found):,} of {len(found) + _missing(plan, known):,} cases are "
                  f"kept in {asked.results}; the same command goes on", file=sys.stderr)
            return STOPPED
    finally:
        store.close()
    cases = [] if asked.shrink == 0 else _shortest(asked, plan, found)
    _tell(plan, found, cases)
    if asked.csv is not None:
        _write_csv(asked.csv, found)
    if asked.page is not None:
        names = [given.name for given in plan.inputs]
        write_text(asked.page, sweep_page(asked.program.name, list(plan.points), names,
                                          len(plan.seeds), _counts(found), cases))
    return 0


def _missing(plan: Plan, known: dict[Key, Verdict]) -> int:
    return sum(key not in known for key, _ in plan.work())


def _judge(asked: argparse.Namespace, plan: Plan, work: Work, store: Store) -> None:
    """Has the cases judged, keeps each verdict, and shows on a terminal how far it is."""
    if not work:
        return
    if asked.scheduler is not None:
        verdicts = on_cluster(plan.setting, plan.comparison, work, asked.scheduler)
    else:
        verdicts = on_this_machine(plan.setting, plan.comparison, work, asked.jobs)
    console = Console(stderr=True)
    columns = (TextColumn("{task.description}"), BarColumn(), MofNCompleteColumn(),
               TimeRemainingColumn())
    progress = Progress(*columns, console=console)
    task = progress.add_task("cases", total=len(work))
    with ExitStack() as stack:
        if console.is_terminal:
            stack.enter_context(progress)
        for key, verdict in verdicts:
            store.put(key, verdict)
            progress.advance(task)


def _counts(found: dict[Key, Verdict]) -> dict[tuple[str, str], Counter[Result]]:
    """How often each result came, by point and input."""
    counts: dict[tuple[str, str], Counter[Result]] = {}
    for key, verdict in found.items():
        place = (key.point.split("\t")[0], key.input.split("\t")[0])
        counts.setdefault(place, Counter())[verdict.result] += 1
    return counts


def _shortest(asked: argparse.Namespace, plan: Plan, found: dict[Key, Verdict]) -> list[Shortest]:
    """For each point the shortest cases whose output differs, from its inputs with fewest lines."""
    runner = Runner(plan.setting)
    cases = {key: case for key, case in plan.work() if found[key].result is Result.OTHER}
    made: list[Shortest] = []
    for point in plan.points:
        seen: dict[str, tuple[Key, Case]] = {}
        for key, case in cases.items():
            if key.point.split("\t")[0] == point:
                seen.setdefault(key.input, (key, case))
        for key, case in sorted(seen.values(), key=lambda pair: len(pair[1].lines))[:asked.shrink]:
            best = shortest(
                case, lambda fewer: judge(runner, plan.comparison, fewer).result is Result.OTHER,
                asked.tries)
            verdict = judge(runner, plan.comparison, best)
            came = runner.run(best.points, best.given(), best.seed)
            made.append(Shortest(
                point, key.input.split("\t")[0], best.seed,
                best.given().decode("utf-8", "replace"), verdict.note,
                came.output.decode("utf-8", "replace"), len(case.lines)))
    return made


def _tell(plan: Plan, found: dict[Key, Verdict], cases: list[Shortest]) -> None:
    """The tables on the terminal."""
    console = Console(width=None if sys.stdout.isatty() else 140)
    counts = _counts(found)
    seeds = f"{len(plan.seeds)} seed{'s' * (len(plan.seeds) != 1)}"
    table = Table(title=f"{len(found):,} cases: each input by {seeds}")
    for name in ("point = code", "safe?", *(result.letter for result in Result)):
        table.add_column(name, justify="right" if len(name) == 1 else "left")
    for point in plan.points:
        total: Counter[Result] = Counter()
        for given in plan.inputs:
            total += counts.get((point, given.name), Counter())
        table.add_row(point, safety(total), *(str(total[result]) for result in Result))
    console.print(table)
    console.print("; ".join(f"{result.letter} {result.text}" for result in Result),
                  highlight=False)
    rows = Table(title="Inputs that speak against a point")
    for name in ("point", "input", "what came, of how many seeds"):
        rows.add_column(name)
    for (point, name), count in counts.items():
        if not all(result.is_safe() for result in count):
            rows.add_row(point, name, ", ".join(
                f"{result.text}: {count[result]}" for result in Result if count[result]))
    if rows.row_count:
        console.print(rows)
    for case in cases:
        console.print(f"shortest case of [b]{case.point}[/b], seed {case.seed} "
                      f"({case.note}):", highlight=False)
        console.print(case.lines, markup=False, highlight=False)


def safety(count: Counter[Result]) -> str:
    """What the results of a point come to."""
    if count[Result.REFUSED]:
        return "refused"
    if all(result.is_safe() for result in count):
        return "yes, here" if count[Result.RESCUED] else "nothing was rescued"
    if all(result.is_safe() or result is Result.RECORDS for result in count):
        return "look at records"
    return "no"


def _write_csv(path: Path, found: dict[Key, Verdict]) -> None:
    """A line for each case."""
    try:
        with path.open("w", encoding="utf-8", newline="") as file:
            lines = csv.writer(file)
            lines.writerow(["point", "input", "seed", "result", "end", "rescues", "faulty", "note"])
            for key, verdict in found.items():
                lines.writerow([
                    key.point.split("\t")[0], key.input.split("\t")[0], key.seed,
                    verdict.result.name.lower(), verdict.end, verdict.rescues,
                    " ".join(str(number + 1) for number in verdict.faulty), verdict.note])
    except OSError as error:
        raise RefusalError(f"{path}: {error.strerror or error}") from error


# ---- the command line


def _plan(asked: argparse.Namespace) -> Plan:
    """What the words ask for."""
    rescue = shutil.which(asked.rescue)
    if rescue is None and asked.scheduler is None:
        raise RefusalError(f"{asked.rescue} is no program here; name it by --rescue")
    program = read_program(asked.program, set())
    points = _candidates(asked)
    for point in points:
        if point.function is not None and point.address(program) is None:
            raise RefusalError(f"point {point.name()}: {asked.program} has no such function")
    if asked.ignore is not None:
        try:
            re.compile(asked.ignore.encode())
        except re.error as error:
            raise RefusalError(f"--ignore {asked.ignore!r}: {error}") from error
    setting = Setting(
        os.path.abspath(rescue) if rescue else asked.rescue,
        read_bytes(asked.program, "program"), asked.harts, asked.budget, asked.seconds,
        asked.over_port, tuple(read_bytes(path, "port file") for path in asked.port))
    instead = None if asked.instead is None else asked.instead.encode() + b"\n"
    comparison = Comparison(asked.any_order, asked.ignore, instead)
    inputs = _inputs(asked)
    if asked.tried:
        points += _tried(asked, setting, program, inputs, points)
    return Plan(setting, comparison, _rescue_files(points, asked), inputs, asked.seeds)


def _candidates(asked: argparse.Namespace) -> list[Point]:
    """The points of the file, and those that are named beside it."""
    points = [] if asked.points is None else read_points(asked.points)
    points += [Point(name, None, -1) for name in asked.point]
    if not points and not asked.tried:
        raise RefusalError("no points: give '--points FILE', '--point FUNCTION' or '--try'")
    return points


def _tried(asked: argparse.Namespace, setting: Setting, program: Program, inputs: list[Input],
           points: list[Point]) -> list[Point]:
    """The functions on the way to the faults of the inputs, beside these points."""
    if asked.over_port or asked.port:
        raise RefusalError("--try gives a guest standard input alone, and no port")
    known = {point.address(program) for point in points}
    made: list[Point] = []
    for given in inputs:
        for entry, name in on_the_way(setting, b"".join(given.lines), asked.seeds[0]):
            if entry not in known:
                known.add(entry)
                named = program.named(name) == entry
                made.append(Point(name, None, -1) if named else Point(None, entry, -1))
    if not made and not points:
        raise RefusalError("--try: no input ends by a fault")
    return made


def _rescue_files(points: list[Point], asked: argparse.Namespace) -> dict[str, str]:
    """The rescue files: each point alone, with its codes or with each code that is given; and all
    points together where the file has several."""
    made: dict[str, str] = {}
    for point in points:
        point = replace(point, kind="blocking")
        if asked.code:
            for code in asked.code:
                made[f"{point.name()} = {code}"] = file_of([replace(point, returns=code, codes={})])
        else:
            made[f"{point.name()} = {point.returns}"] = file_of([point])
    if len(points) > 1 and not asked.alone:
        made["all together"] = file_of(points)
    return made


def _lines(path: Path, what: str) -> tuple[bytes, ...]:
    return tuple(read_bytes(path, what).splitlines(keepends=True))


def _inputs(asked: argparse.Namespace) -> list[Input]:
    """The inputs: whole files, and each request between what comes before and behind it."""
    made = [Input(path.name, _lines(path, "input")) for path in asked.input]
    if asked.each is not None:
        before = () if asked.before is None else _lines(asked.before, "input")
        behind = () if asked.behind is None else _lines(asked.behind, "input")
        for number, line in enumerate(_lines(asked.each, "requests"), 1):
            ended = line if line.endswith(b"\n") else line + b"\n"
            name = f"{number} {line.decode('utf-8', 'replace').strip()}"
            made.append(Input(name, (*before, ended, *behind), len(before)))
    if not made:
        raise RefusalError("no inputs: give '--input FILE', '--each FILE' or both")
    names = Counter(given.name for given in made)
    return [given if names[given.name] == 1 else replace(given, name=f"{given.name} ({number})")
            for number, given in enumerate(made, 1)]


def _seeds(text: str) -> list[int]:
    """Seeds, as `0-49` or `1,5,9`."""
    made: list[int] = []
    for part in text.split(","):
        first, _, last = part.partition("-")
        made += range(int(first), int(last or first) + 1)
    if not made or min(made) < 0 or max(made) >= 2**64:
        raise ValueError(text)
    return made


def _code(text: str) -> Code:
    return text if text == "void" else int(text)


def _number(text: str) -> int:
    if int(text) < 1:
        raise ValueError(text)
    return int(text)


def _parser() -> argparse.ArgumentParser:
    made = argparse.ArgumentParser(prog="rescue-sweep", description=__doc__)
    made.add_argument("program", type=Path, metavar="PROGRAM", help="the guest, with its symbols")
    what = made.add_argument_group("what is swept")
    what.add_argument("--points", type=Path, metavar="FILE", help="a rescue file; each of its "
                      "points is tried alone, and all of them together")
    what.add_argument("--point", action="append", default=[], metavar="FUNCTION",
                      help="one more point, which returns -1")
    what.add_argument("--try", dest="tried", action="store_true", help="also each function on the "
                      "way to a fault that an input meets, as 'rescue try' finds them")
    what.add_argument("--code", action="append", default=[], type=_code, metavar="CODE",
                      help="a code to try in place of the file's; a number or 'void'")
    what.add_argument("--alone", action="store_true", help="not all points together")
    what.add_argument("--input", action="append", default=[], type=Path, metavar="FILE",
                      help="an input, a request a line")
    what.add_argument("--each", type=Path, metavar="FILE",
                      help="requests: each line makes an input of its own")
    what.add_argument("--before", type=Path, metavar="FILE", help="lines before each request")
    what.add_argument("--behind", type=Path, metavar="FILE", help="lines behind each request")
    what.add_argument("--seeds", type=_seeds, default=[0], metavar="0-49", help="seeds")
    run = made.add_argument_group("a run")
    run.add_argument("--rescue", default="rescue", metavar="RESCUE", help="the program")
    run.add_argument("--harts", type=_number, default=8, metavar="N")
    run.add_argument("--budget", type=_number, default=5_000_000, metavar="N")
    run.add_argument("--seconds", type=float, default=60, metavar="S", help="the time limit")
    run.add_argument("--over-port", action="store_true",
                     help="input and output go through the first port")
    run.add_argument("--port", action="append", default=[], type=Path, metavar="FILE",
                     help="a further port: what the guest reads there")
    compared = made.add_argument_group("how outputs are compared")
    compared.add_argument("--any-order", action="store_true", help="lines may come in any order")
    compared.add_argument("--ignore", metavar="PATTERN", help="what is left out of the outputs")
    compared.add_argument("--instead", metavar="LINE", help="a harmless request that stands in "
                          "place of a faulty one, where leaving it out would change the others")
    where = made.add_argument_group("where, and what comes")
    where.add_argument("--results", type=Path, default=Path("sweep.sqlite"), metavar="FILE",
                       help="where verdicts are kept: a sweep that was stopped goes on from there")
    where.add_argument("--jobs", type=_number, default=os.cpu_count() or 1, metavar="N")
    where.add_argument("--scheduler", metavar="ADDRESS", help="of a Dask cluster")
    where.add_argument("--shrink", type=int, default=1, metavar="N",
                       help="so many differing cases of a point are made as short as can be")
    where.add_argument("--tries", type=_number, default=200, metavar="N", help="for each of them")
    where.add_argument("--csv", type=Path, metavar="FILE", help="a line for each case")
    where.add_argument("--page", type=Path, metavar="FILE", help="a page with a heat map")
    return made
