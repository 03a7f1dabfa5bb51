#!/usr/bin/env python3
"""Makes the pictures of docs/TOOLS.md, by headless Chromium:

    PYTHONPATH=tools/src tools/tests/pictures.py RESCUE SWEEP.html

RESCUE is the program, SWEEP.html the page of examples/sweep. The examples are made before, by
`make` in their folders.
"""

from __future__ import annotations

import subprocess
import sys
import tempfile
import time
from pathlib import Path
from typing import Any

from selenium import webdriver
from selenium.webdriver.chrome.service import Service

from rescue_tools.view import main as view

TOP = Path(__file__).resolve().parents[2]
PICTURES = TOP / "docs" / "pictures"


def chromium() -> Any:
    """A browser without a window."""
    options: Any = webdriver.ChromeOptions()
    options.binary_location = "/usr/bin/chromium"
    for word in ("--headless=new", "--no-sandbox", "--disable-gpu", "--hide-scrollbars",
                 "--disable-dev-shm-usage", "--force-device-scale-factor=1"):
        options.add_argument(word)
    return webdriver.Chrome(service=Service("/usr/bin/chromedriver"), options=options)


def pictured(browser: Any, page: Path, name: str, height: int, words: str) -> None:
    """A picture of a page behind a script; the height is that of the page's upper part."""
    browser.set_window_size(1180, height)
    browser.get(page.as_uri())
    time.sleep(1)
    browser.execute_script(words)
    time.sleep(1)
    browser.save_screenshot(str(PICTURES / f"{name}.png"))


def run_page(rescue: str, name: str, folder: Path) -> Path:
    """The page of a run of the example."""
    example = TOP / "examples" / name
    words = ["--points", str(example / "points.toml")]
    with (example / "input").open("rb") as given:
        subprocess.run([rescue, "alone", "--seed", "0", *words, "--save",
                        str(folder / f"{name}.history"), str(example / name)], stdin=given,
                       capture_output=True, check=False)
    page = folder / f"{name}.html"
    if view([str(folder / f"{name}.history"), "--program", str(example / name), *words,
             "-o", str(page)]):
        raise SystemExit(1)
    return page


def main() -> None:
    """Makes all."""
    rescue, sweep = sys.argv[1:]
    PICTURES.mkdir(exist_ok=True)
    browser = chromium()
    light = "document.documentElement.dataset.theme = 'light'; "
    first = "document.getElementById('next').click()"
    with tempfile.TemporaryDirectory() as name:
        folder = Path(name)
        pictured(browser, run_page(rescue, "workers", folder), "workers", 880, light)
        pictured(browser, run_page(rescue, "json", folder), "json", 920,
                 f"document.getElementById('theme').click(); {first}")
        pictured(browser, run_page(rescue, "sql", folder), "sql", 880, light + first)
    pictured(browser, Path(sweep).resolve(), "sweep", 760, light)
    browser.quit()


if __name__ == "__main__":
    main()
