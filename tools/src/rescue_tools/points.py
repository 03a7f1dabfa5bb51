"""Reads and writes rescue files, as far as these programs need them."""

from __future__ import annotations

import tomllib
from dataclasses import dataclass, field
from pathlib import Path

from .history import FAULTS
from .program import Program
from .refusal import RefusalError, read_bytes

Code = int | str
"""What a rescued call returns: a number, or the text `void`."""


@dataclass(frozen=True)
class Point:
    """A rescue point of a file."""

    function: str | None
    entry: int | None
    returns: Code
    codes: dict[str, Code] = field(default_factory=dict)
    limit: int | None = None
    kind: str = "blocking"

    def name(self) -> str:
        """The function, or the address, as the file names it."""
        return self.function if self.function is not None else f"{self.entry:#x}"

    def address(self, program: Program) -> int | None:
        """Where the point lies."""
        return self.entry if self.function is None else program.named(self.function)

    def code(self, fault: str) -> Code:
        """What a call returns that is rescued from this fault."""
        return self.codes.get(fault, self.returns)

    def text(self) -> str:
        """The point as a rescue file of version 2 has it."""
        place = f"entry = {self.entry}" if self.function is None else (
            f"function = {_quoted(self.function)}"
        )
        lines = ["[[point]]", place, f"returns = {_value(self.returns)}"]
        if self.codes:
            codes = ", ".join(f"{name} = {_value(code)}" for name, code in self.codes.items())
            lines.append(f"codes = {{ {codes} }}")
        if self.limit is not None:
            lines.append(f"limit = {self.limit}")
        return "\n".join([*lines, f"kind = {_quoted(self.kind)}"]) + "\n"


def _quoted(text: str) -> str:
    """A basic string of TOML."""
    marked = text.replace("\\", "\\\\").replace('"', '\\"')
    return f'"{marked}"'


def _value(code: Code) -> str:
    return str(code) if isinstance(code, int) else _quoted(code)


def file_of(points: list[Point]) -> str:
    """A rescue file of these points."""
    return "version = 2\n\n" + "\n".join(point.text() for point in points)


def read_points(path: Path) -> list[Point]:
    """The points of the file. The program checks all its rules; here only the form is looked at."""
    data = read_bytes(path, "rescue file")
    try:
        made = tomllib.loads(data.decode("utf-8"))
        return [_point(table) for table in made.get("point", [])]
    except (UnicodeDecodeError, tomllib.TOMLDecodeError) as error:
        raise RefusalError(f"rescue file {path}: {error}") from error
    except (KeyError, TypeError, AttributeError, ValueError) as error:
        raise RefusalError(f"rescue file {path}: a point of another form ({error})") from error


def _point(table: dict[str, object]) -> Point:
    function, entry, limit = table.get("function"), table.get("entry"), table.get("limit")
    codes, kind = table.get("codes", {}), table.get("kind", "blocking")
    if not (function is None or isinstance(function, str)):
        raise ValueError("function is a text")
    if not (entry is None or isinstance(entry, int)):
        raise ValueError("entry is a number")
    if (function is None) == (entry is None):
        raise ValueError("one of function and entry is to be there")
    if not (limit is None or isinstance(limit, int)) or not isinstance(kind, str):
        raise ValueError("limit or kind")
    if not isinstance(codes, dict) or not set(codes) <= set(FAULTS):
        raise ValueError("codes")
    made = {str(name): _code(value) for name, value in codes.items()}
    return Point(function, entry, _code(table["returns"]), made, limit, kind)


def _code(value: object) -> Code:
    if isinstance(value, bool) or not isinstance(value, int) and value != "void":
        raise ValueError(f"a code {value!r}")
    return value if isinstance(value, int) else "void"
