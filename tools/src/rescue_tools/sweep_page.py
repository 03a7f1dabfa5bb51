"""Makes the page of a sweep: a heat map of points by inputs, and the shortest cases."""

from __future__ import annotations

from collections import Counter
from dataclasses import dataclass

from .judge import Result
from .page import environment, page_file


@dataclass(frozen=True)
class Shortest:
    """The shortest case found that differs: its input as text, and what the program wrote."""

    point: str
    input: str
    seed: int
    lines: str
    note: str
    output: str
    before: int


def sweep_page(
    program: str, points: list[str], inputs: list[str], seeds: int,
    counts: dict[tuple[str, str], Counter[Result]], cases: list[Shortest],
) -> str:
    """The page."""
    rows = [
        (point, [_cell(name, counts.get((point, name), Counter())) for name in inputs])
        for point in points
    ]
    totals = []
    for point in points:
        total: Counter[Result] = Counter()
        for name in inputs:
            total += counts.get((point, name), Counter())
        totals.append((point, [total[result] for result in Result]))
    return environment().get_template("sweep.html.j2").render(
        program=program, inputs=list(enumerate(inputs, 1)), rows=rows, totals=totals, seeds=seeds,
        results=list(Result), cases=cases, total=sum(c.total() for c in counts.values()),
        style=page_file("pages.css"),
    )


def _cell(name: str, count: Counter[Result]) -> dict[str, object]:
    """A cell: the letter of the worst result, how often it came, and all results in words."""
    if not count:
        return {"letter": "", "kind": "none", "times": 0, "all": 0, "text": f"{name}: no case"}
    worst = max(count, key=lambda result: result.rank)
    words = ", ".join(f"{result.text}: {count[result]}" for result in Result if count[result])
    return {"letter": worst.letter, "kind": worst.name.lower(), "times": count[worst],
            "all": count.total(), "text": f"{name}: {words}"}
