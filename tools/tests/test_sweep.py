"""rescue-sweep: what it finds, that it goes on, that a cluster finds the same, what is refused."""

from __future__ import annotations

import csv
import os
import signal
import socket
import subprocess
import sys
import time
from pathlib import Path

import pytest
from conftest import TOP, WORKERS

from rescue_tools.judge import Case, Comparison, Result, shortest
from rescue_tools.store import Store
from rescue_tools.sweep import main

FAKE = str(TOP / "tools" / "tests" / "fake_rescue.py")
REQUESTS = "3\nbad\nleak\nsay\nwait\nspin\nsleep\n"
WANTED = {"3": "same", "bad": "rescued", "leak": "other", "say": "records", "wait": "stuck",
          "spin": "budget", "sleep": "time"}


@pytest.fixture
def words(tmp_path: Path) -> list[str]:
    """The words of a sweep of seven requests, two seeds and one point."""
    (tmp_path / "requests").write_text(REQUESTS)
    (tmp_path / "before").write_text("1\n2\n4\n")
    (tmp_path / "behind").write_text("5\n6\n")
    return [str(WORKERS / "workers"), "--point", "handle", "--rescue", FAKE, "--each",
            str(tmp_path / "requests"), "--before", str(tmp_path / "before"), "--behind",
            str(tmp_path / "behind"), "--seeds", "0-1", "--seconds", "3", "--jobs", "4",
            "--results", str(tmp_path / "results"), "--csv", str(tmp_path / "csv"), "--page",
            str(tmp_path / "page.html")]


def found(path: Path) -> dict[str, str]:
    """The result of each request, which is to be the same for each seed."""
    with path.open(newline="") as file:
        rows = list(csv.DictReader(file))
    results = {row["input"].split()[1]: row["result"] for row in rows}
    assert all(results[row["input"].split()[1]] == row["result"] for row in rows)
    return results


def test_it_tells_what_became_of_each(
    words: list[str], tmp_path: Path, capsys: pytest.CaptureFixture[str]
) -> None:
    assert main(words) == 0
    assert found(tmp_path / "csv") == WANTED
    page, told = (tmp_path / "page.html").read_text(), capsys.readouterr().out
    assert "other output: 2" in page and "handle = -1" in told and "no" in told
    shown = told[told.index("shortest case"):]
    assert shown.split("\n", 1)[1].split()[0] == "leak" and "4" not in shown.split()[-2:]


def test_it_takes_the_functions_on_the_way_to_a_fault(
    words: list[str], tmp_path: Path, capsys: pytest.CaptureFixture[str]
) -> None:
    at = words.index("--point")
    assert main([*words[:at], "--try", *words[at + 2:], "--alone", "--shrink", "0"]) == 0
    told = capsys.readouterr().out
    assert "handle = -1" in told and "0x104a9 = -1" in told and found(tmp_path / "csv") == WANTED


def test_it_goes_on_where_it_was(words: list[str], tmp_path: Path) -> None:
    path = os.pathsep.join(["src", "tests"])
    process = subprocess.Popen(
        [sys.executable, "-c", "import sys; from rescue_tools.sweep import main; sys.exit(main())",
         *words, "--jobs", "1"], cwd=TOP / "tools", env={**os.environ, "PYTHONPATH": path},
        stderr=subprocess.PIPE, text=True)
    base = tmp_path / "results"
    until = time.monotonic() + 60
    while time.monotonic() < until and _kept(base) < 3:
        time.sleep(0.05)
    process.send_signal(signal.SIGINT)
    _, errors = process.communicate(timeout=60)
    assert process.returncode == 130 and "the same command goes on" in errors
    kept = _kept(base)
    assert 3 <= kept < 14
    assert main(words) == 0
    assert _kept(base) == 14 and found(tmp_path / "csv") == WANTED


def _kept(base: Path) -> int:
    """How many verdicts the file has."""
    import sqlite3
    try:
        with sqlite3.connect(base) as connection:
            return int(connection.execute("select count(*) from verdicts").fetchone()[0])
    except sqlite3.Error:
        return 0


def test_a_cluster_finds_the_same(words: list[str], tmp_path: Path) -> None:
    pytest.importorskip("distributed")
    with socket.socket() as free:
        free.bind(("127.0.0.1", 0))
        address = f"tcp://127.0.0.1:{free.getsockname()[1]}"
    environment = {**os.environ, "PYTHONPATH": str(TOP / "tools" / "src")}
    command = [sys.executable, "-m", "distributed.cli.dask_scheduler", "--host", "127.0.0.1",
               "--port", address.rsplit(":", 1)[1], "--no-dashboard"]
    worker = [sys.executable, "-m", "distributed.cli.dask_worker", address, "--host", "127.0.0.1",
              "--nthreads", "2", "--no-dashboard", "--local-directory", str(tmp_path)]
    started = [subprocess.Popen(line, env=environment, cwd=tmp_path, stdout=subprocess.DEVNULL,
                                stderr=subprocess.DEVNULL) for line in (command, worker, worker)]
    try:
        for _ in range(100):
            with socket.socket() as tried:
                if tried.connect_ex(("127.0.0.1", int(address.rsplit(":", 1)[1]))) == 0:
                    break
            time.sleep(0.2)
        assert main([*words, "--scheduler", address]) == 0
    finally:
        for process in reversed(started):
            process.terminate()
        for process in started:
            process.wait(timeout=30)
    assert found(tmp_path / "csv") == WANTED


def test_the_shortest_case_has_what_it_takes() -> None:
    lines = tuple(str(number).encode() + b"\n" for number in range(40))

    def holds(case: Case) -> bool:
        return {b"7\n", b"31\n"} <= set(case.lines)

    best = shortest(Case("", lines, 0, 31), holds, 500)
    assert best.lines == (b"7\n", b"31\n") and best.suspected == 1


def test_outputs_are_compared() -> None:
    plain = Comparison()
    assert plain.fits(b"1\nerror\n2\n", b"1\n2\n", 1) and not plain.fits(b"1\n3\n", b"1\n2\n", 1)
    loose = Comparison(any_order=True, ignore="^[0-9]+: ")
    assert loose.fits(b"2: b\n1: a\n3: error\n", b"1: a\n2: b\n", 1)
    placed = Comparison(instead=b"sum\n")
    assert placed.fits(b"1\nerror\n2\n", b"1\n0\n2\n", 1)
    assert not placed.fits(b"1\nerror\n3\n", b"1\n0\n2\n", 1)
    assert Result.OTHER.rank > Result.RECORDS.rank


def test_it_refuses(
    words: list[str], tmp_path: Path, capsys: pytest.CaptureFixture[str]
) -> None:
    absent = str(tmp_path / "absent")
    for more, part in [
        (["--port", absent], "port file"), (["--input", absent], "No such file"),
        (["--points", absent], "No such file"), (["--rescue", absent], "is no program here"),
        (["--point", "nothing"], "no such function"), (["--ignore", "("], "--ignore"),
        (["--results", str(tmp_path)], "results"),
        (["--scheduler", "tcp://127.0.0.1:9"], "scheduler"),
    ]:
        assert main([*words, *more]) == 2
        came = capsys.readouterr()
        assert came.err.count("\n") == 1 and part in came.err
    (tmp_path / "results").unlink(missing_ok=True)
    (tmp_path / "results").write_text("no base at all, but a text that is long enough\n" * 9)
    assert main(words) == 2


def test_a_store_keeps_sweeps_apart(tmp_path: Path) -> None:
    one, other = Store(tmp_path / "base", "one"), Store(tmp_path / "base", "other")
    assert one.verdicts() == other.verdicts() == {}
