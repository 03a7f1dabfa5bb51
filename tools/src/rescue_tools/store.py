"""Keeps what a sweep has found in an SQLite file, so that it goes on where it was."""

from __future__ import annotations

import sqlite3
from pathlib import Path
from typing import NamedTuple

from .judge import Result, Verdict
from .refusal import RefusalError

TABLE = """
create table if not exists verdicts (
    sweep text not null, point text not null, input text not null, seed integer not null,
    result text not null, ending text not null, rescues integer not null, faulty text not null,
    note text not null, primary key (sweep, point, input, seed)) without rowid
"""


class Key(NamedTuple):
    """Which case a verdict is of: the point with its code, the input, the seed."""

    point: str
    input: str
    seed: int


class Store:
    """The file. A sweep is known by a text made of all that decides what its cases are."""

    def __init__(self, path: Path, sweep: str) -> None:
        self.sweep = sweep
        try:
            self.base = sqlite3.connect(path)
            self.base.execute(TABLE)
        except sqlite3.Error as error:
            raise RefusalError(f"results {path}: {error}") from error

    def verdicts(self) -> dict[Key, Verdict]:
        """All that is known of this sweep."""
        rows = self.base.execute(
            "select point, input, seed, result, ending, rescues, faulty, note from verdicts "
            "where sweep = ?", (self.sweep,))
        return {
            Key(point, given, seed): Verdict(
                Result[result], ending, rescues, tuple(map(int, faulty.split())), note)
            for point, given, seed, result, ending, rescues, faulty, note in rows
        }

    def put(self, key: Key, verdict: Verdict) -> None:
        """Keeps a verdict at once."""
        with self.base:
            self.base.execute(
                "insert or replace into verdicts values (?, ?, ?, ?, ?, ?, ?, ?, ?)",
                (self.sweep, *key, verdict.result.name, verdict.end, verdict.rescues,
                 " ".join(map(str, verdict.faulty)), verdict.note))

    def close(self) -> None:
        """Closes the file."""
        self.base.close()
