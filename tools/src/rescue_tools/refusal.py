"""What a bad file or a bad word ends in: one line on standard error, and the status 2."""

from __future__ import annotations

import sys
from collections.abc import Callable, Sequence
from pathlib import Path

STATUS = 2


class RefusalError(Exception):
    """A file or a word that can't be taken; the text is the line that the user sees."""


def read_bytes(path: Path, what: str) -> bytes:
    """What a file holds."""
    try:
        return path.read_bytes()
    except OSError as error:
        raise RefusalError(f"{what} {path}: {error.strerror or error}") from error


def write_text(path: Path, text: str) -> None:
    """Makes a file of this text."""
    try:
        path.write_text(text, encoding="utf-8")
    except OSError as error:
        raise RefusalError(f"{path}: {error.strerror or error}") from error


def guarded(name: str, body: Callable[[Sequence[str]], int], words: Sequence[str] | None) -> int:
    """The status of a program's body; a refusal is printed as one line."""
    try:
        return body(sys.argv[1:] if words is None else words)
    except RefusalError as refusal:
        print(f"{name}: {refusal}", file=sys.stderr)
        return STATUS
    except BrokenPipeError:
        return STATUS
