"""The input of a load: what the summary of `rescue load 1` says of it."""

from __future__ import annotations

import pytest

from rescue_tools.loads import faults_last, input_of, write_input
from rescue_tools.refusal import RefusalError


def test_the_first_load() -> None:
    given = input_of(1)
    assert (len(given), sum(given), given.count(0)) == (1000, 7630, 67)
    lines = faults_last(given).splitlines(keepends=True)
    assert lines[-1] == b"\0" * 67 and sum(b"".join(lines)) == 7640


def test_it_refuses_other_words() -> None:
    refused: list[list[str]] = [[], ["0"], ["1001"], ["x"], ["1", "2"]]
    for words in refused:
        with pytest.raises(RefusalError):
            write_input(words)
