"""The pages in a real browser."""

from __future__ import annotations

import time
from collections import Counter
from pathlib import Path
from typing import Any

from conftest import WORKERS

from rescue_tools.judge import Result
from rescue_tools.sweep_page import Shortest, sweep_page
from rescue_tools.view import main


def opened(browser: Any, page: Path) -> float:
    """Opens a page; the seconds until it is drawn."""
    began = time.monotonic()
    browser.get(page.as_uri())
    ready = ("return document.documentElement.dataset.ready === 'yes' && "
             "document.getElementById('picture').dataset.drawn === 'yes'")
    while not browser.execute_script(ready):
        assert time.monotonic() - began < 20, browser.get_log("browser")
        time.sleep(0.02)
    return time.monotonic() - began


def shown(browser: Any) -> tuple[int, int]:
    """The steps that the picture shows, once it is drawn."""
    time.sleep(0.3)
    picture = browser.find_element("id", "picture")
    return int(picture.get_attribute("data-from")), int(picture.get_attribute("data-to"))


def page_of(history: Path, folder: Path) -> Path:
    page = folder / "page.html"
    assert main([str(history), "--program", str(WORKERS / "workers"), "--points",
                 str(WORKERS / "points.toml"), "-o", str(page)]) == 0
    return page


def test_a_page_opens_and_finds_a_rescue(browser: Any, small: Path, tmp_path: Path) -> None:
    page = page_of(small, tmp_path)
    opened(browser, page)
    assert shown(browser) == (0, 191)
    browser.find_element("id", "find").send_keys("load-rights letters")
    rows = [row for row in browser.find_elements("css selector", "tr[data-group]")
            if row.is_displayed()]
    assert len(rows) == 1 and "letters" in rows[0].text
    rows[0].find_element("css selector", "button[data-go=first]").click()
    first, last = shown(browser)
    assert 0 < first < 131 and 151 < last
    assert "load-rights" in browser.find_element("id", "reading").text
    assert browser.get_log("browser") == []
    text = page.read_text()
    assert "http:" not in text and "https:" not in text


def test_it_is_worked_by_keyboard(browser: Any, small: Path, tmp_path: Path) -> None:
    opened(browser, page_of(small, tmp_path))
    picture = browser.find_element("id", "picture")
    picture.send_keys("n")
    near = shown(browser)
    assert near[1] - near[0] < 191
    assert "Rescue 1 of 2" in browser.find_element("id", "reading").text
    picture.send_keys("+")
    nearer = shown(browser)
    assert nearer[1] - nearer[0] < near[1] - near[0]
    picture.send_keys("0")
    assert shown(browser) == (0, 191)
    browser.find_element("id", "theme").click()
    theme = browser.execute_script("return document.documentElement.dataset.theme")
    assert theme in ("dark", "light")
    assert browser.get_log("browser") == []


def test_ports_mark_what_rescued_calls_wrote(browser: Any, small: Path, tmp_path: Path) -> None:
    opened(browser, page_of(small, tmp_path))
    assert browser.find_element("id", "bytes").text == "\u27e6half\n\u27e7ok"
    mark = browser.find_element("css selector", "#bytes mark")
    mark.click()
    first, last = shown(browser)
    assert last - first < 180 and "store-rights" in browser.find_element("id", "reading").text
    assert browser.get_log("browser") == []


def test_a_million_entries_open_in_two_seconds(browser: Any, long: Path, tmp_path: Path) -> None:
    page = page_of(long, tmp_path)
    seconds = min(opened(browser, page) for _ in range(3))
    assert seconds < 2
    frame = browser.execute_async_script("""
        const done = arguments[0], picture = document.getElementById('picture');
        const times = [];
        let count = 0, last = performance.now();
        (function turn() {
          document.getElementById(count % 2 ? 'in' : 'out').click();
          requestAnimationFrame(() => {
            const now = performance.now();
            times.push(now - last); last = now;
            if (++count < 30) turn(); else done(times.sort((a, b) => a - b)[15]);
          });
        })();""")
    print(f"opened in {seconds:.2f} s, a frame takes {frame:.0f} ms")
    assert frame < 200
    assert browser.get_log("browser") == []


def test_a_heat_map_is_read_by_keyboard(browser: Any, tmp_path: Path) -> None:
    counts = {("handle = -1", "1 <b>"): Counter({Result.SAME: 3, Result.OTHER: 2})}
    case = Shortest("handle = -1", "1 <b>", 0, "<b>\n", "other output", "error\n", 5)
    page = tmp_path / "sweep.html"
    page.write_text(sweep_page("guest", ["handle = -1"], ["1 <b>"], 5, counts, [case]))
    browser.get(page.as_uri())
    cell = browser.find_element("css selector", ".map td")
    assert cell.text.split() == ["D", "2"]
    cell.send_keys("")
    told = browser.find_element("id", "reading").text
    assert told == "handle = -1, input 1 <b>: as without points: 3, other output: 2"
    assert browser.get_log("browser") == []
