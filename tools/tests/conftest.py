"""What the tests share: guests that are kept in examples, histories, a browser."""

from __future__ import annotations

import shutil
import subprocess
from collections.abc import Iterator
from pathlib import Path
from typing import Any

import pytest
from encoder import history_bytes, long_history, small_history

from rescue_tools.program import read_program

TOP = Path(__file__).resolve().parents[2]
WORKERS = TOP / "examples" / "workers"
SOURCE = """
int letters(int *p) { return *p; }
int handle(int *p) {
    int sum = letters(p);
    return sum + *(volatile int *)8;
}
void _start(void) { handle((int *)0); for (;;) {} }
"""


@pytest.fixture(scope="session")
def points() -> tuple[int, int]:
    """The entries of both points of the example."""
    program = read_program(WORKERS / "workers", set())
    handle, letters = program.named("handle"), program.named("letters")
    assert handle is not None and letters is not None
    return handle, letters


@pytest.fixture(scope="session")
def small(tmp_path_factory: pytest.TempPathFactory, points: tuple[int, int]) -> Path:
    """A small history of the example."""
    path = tmp_path_factory.mktemp("small") / "small.history"
    path.write_bytes(history_bytes(small_history(points, points[0] + 16)))
    return path


@pytest.fixture(scope="session")
def long(tmp_path_factory: pytest.TempPathFactory, points: tuple[int, int]) -> Path:
    """A history of 1,000,000 entries."""
    path = tmp_path_factory.mktemp("long") / "long.history"
    path.write_bytes(history_bytes(long_history(1_000_000, points, points[0] + 16)))
    return path


@pytest.fixture(scope="session")
def lined(tmp_path_factory: pytest.TempPathFactory) -> Path:
    """A guest with lines of its source."""
    compiler = shutil.which("riscv64-linux-gnu-gcc")
    if compiler is None:
        pytest.skip("gcc-riscv64-linux-gnu is not there")
    folder = tmp_path_factory.mktemp("lined")
    (folder / "lined.c").write_text(SOURCE)
    subprocess.run([compiler, "-g", "-O0", "-march=rv64ima", "-mabi=lp64", "-static", "-nostdlib",
                    "-ffreestanding", "-o", "lined", "lined.c"], cwd=folder, check=True)
    return folder / "lined"


@pytest.fixture(scope="session")
def browser() -> Iterator[Any]:
    """Chromium without a window, with its driver."""
    chromium, driver = shutil.which("chromium"), shutil.which("chromedriver")
    if chromium is None or driver is None:
        pytest.skip("chromium and chromium-driver are not there")
    from selenium import webdriver
    from selenium.webdriver.chrome.service import Service

    options: Any = webdriver.ChromeOptions()
    options.binary_location = chromium
    for word in ("--headless=new", "--no-sandbox", "--disable-gpu", "--disable-dev-shm-usage",
                 "--window-size=1300,900"):
        options.add_argument(word)
    options.set_capability("goog:loggingPrefs", {"browser": "ALL"})
    made = webdriver.Chrome(service=Service(driver), options=options)
    yield made
    made.quit()
