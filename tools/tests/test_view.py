"""rescue-view: what the page and the trace hold, and what is refused."""

from __future__ import annotations

import json
import subprocess
import sys
from pathlib import Path

import pytest
from conftest import TOP, WORKERS
from encoder import history_bytes, small_history

from rescue_tools.history import Ended, Ending, History, Ran, Rescued, read_history
from rescue_tools.program import read_program
from rescue_tools.timeline import groups_of, timeline_of
from rescue_tools.view import main

PROGRAM = str(WORKERS / "workers")
POINTS = str(WORKERS / "points.toml")


def test_reads_what_the_encoder_writes(small: Path, points: tuple[int, int]) -> None:
    assert read_history(small) == small_history(points, points[0] + 16)


def test_lays_a_run_out(points: tuple[int, int]) -> None:
    made = timeline_of(small_history(points, points[0] + 16))
    assert (made.steps, made.records) == (191, 4)
    outer, inner = made.rescues
    assert (outer.start, outer.end, outer.depth) == (101, 169, 0)
    assert (outer.records, outer.staying) == (1, 1)
    assert (inner.start, inner.end, inner.depth, inner.records) == (131, 151, 1, 0)
    assert list(made.calls.level) == [0, 0, 1]
    assert list(made.calls.end) == [91, 169, 151]
    assert [bytes(stream.data) for stream in made.streams] == [b"request\n", b"half\nok\n"]
    assert [(group.fault, len(group.rescues)) for group in groups_of(made.rescues)] == [
        ("store-rights", 1), ("load-rights", 1)]


def test_writes_a_trace_that_nests(small: Path, tmp_path: Path) -> None:
    trace = tmp_path / "trace.json"
    assert main([str(small), "--program", PROGRAM, "--trace", str(trace)]) == 0
    events = json.loads(trace.read_text())["traceEvents"]
    calls = [event for event in events if event.get("cat") == "rescue"]
    assert [(call["name"], call["ts"], call["dur"]) for call in calls] == [
        ("handle: rescued, store-rights", 101, 68), ("letters: rescued, load-rights", 131, 20)]
    assert {event["ph"] for event in events} == {"M", "X", "i"}


def test_names_lines_of_the_source(lined: Path, tmp_path: Path) -> None:
    program = read_program(lined, set())
    handle = program.named("handle")
    assert handle is not None
    pcs = set(range(handle, handle + 100, 4))
    lines = read_program(lined, pcs).lines
    pc = next(pc for pc in sorted(lines) if lines[pc] == "lined.c:5")
    history = History(1, 0, 100, [Rescued(0, handle, "load-rights", pc, [Ran(0, 9)]),
                                  Ended(Ending.STUCK)])
    (tmp_path / "history").write_bytes(history_bytes(history))
    page = tmp_path / "page.html"
    assert main([str(tmp_path / "history"), "--program", str(lined), "-o", str(page)]) == 0
    assert "lined.c:5" in page.read_text()


def refused(words: list[str], capsys: pytest.CaptureFixture[str]) -> str:
    """The one line of a refusal."""
    assert main(words) == 2
    came = capsys.readouterr()
    assert came.out == "" and came.err.count("\n") == 1
    return came.err


def test_refuses_a_cut_history_at_every_length(
    small: Path, tmp_path: Path, capsys: pytest.CaptureFixture[str]
) -> None:
    whole, cut = small.read_bytes(), tmp_path / "cut"
    for length in range(len(whole)):
        cut.write_bytes(whole[:length])
        line = refused([str(cut), "--program", PROGRAM, "-o", str(tmp_path / "page")], capsys)
        assert "cut" in line or length == 0
    cut.write_bytes(whole + b"x")
    assert "behind the last entry" in refused(
        [str(cut), "--program", PROGRAM, "-o", str(tmp_path / "page")], capsys)


def test_refuses_other_files(
    small: Path, tmp_path: Path, capsys: pytest.CaptureFixture[str]
) -> None:
    out = ["-o", str(tmp_path / "page")]
    stripped = tmp_path / "stripped"
    subprocess.run(["riscv64-linux-gnu-strip", "-o", stripped, PROGRAM], check=True)
    other = tmp_path / "points.toml"
    other.write_text('version = 1\n[[point]]\nfunction = "handle"\nreturns = 0\n')
    absent = str(tmp_path / "absent")
    half = tmp_path / "half"
    half.write_bytes((WORKERS / "workers").read_bytes()[:3000])
    for words, part in [
        ([str(small), "--program", str(TOP / "examples" / "server" / "server"), *out],
         "of another program"),
        ([str(small), "--program", str(stripped), *out], "no function symbols"),
        ([str(small), "--program", str(half), *out], "ELF"),
        ([str(small), "--program", POINTS, *out], "no whole ELF file"),
        ([str(small), "--program", absent, *out], "No such file"),
        ([absent, "--program", PROGRAM, *out], "No such file"),
        ([str(small), "--program", PROGRAM, "--points", absent, *out], "No such file"),
        ([str(small), "--program", PROGRAM, "--points", str(other), *out], "of another run"),
        ([str(small), "--program", PROGRAM, "--points", PROGRAM, *out], "rescue file"),
        ([PROGRAM, "--program", PROGRAM, *out], "no history file"),
        ([str(small), "--program", PROGRAM, "-o", absent + "/page"], "No such file"),
        ([str(small), "--program", PROGRAM], "nothing to make"),
    ]:
        assert part in refused(words, capsys)


def test_runs_as_a_program() -> None:
    came = subprocess.run([sys.executable, "-c", "from rescue_tools.view import main; main()"],
                          env={"PYTHONPATH": str(TOP / "tools" / "src")}, capture_output=True,
                          text=True, check=False)
    assert came.returncode == 2 and "usage" in came.stderr
