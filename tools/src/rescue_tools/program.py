"""Reads what a guest's ELF file says of addresses: code, functions, lines of the source."""

from __future__ import annotations

import io
from bisect import bisect_right
from dataclasses import dataclass, field
from pathlib import Path
from typing import Any

from elftools.common.exceptions import ELFError
from elftools.elf.elffile import ELFFile
from elftools.elf.sections import SymbolTableSection

from .refusal import RefusalError, read_bytes

EXECUTABLE = 1
RISCV = "EM_RISCV"


@dataclass(frozen=True)
class Function:
    """A function symbol."""

    address: int
    size: int
    name: str


@dataclass
class Program:
    """A guest: where its code lies, its functions, and the source's lines where it has them."""

    path: Path
    code: list[tuple[int, int]]
    functions: list[Function]
    lines: dict[int, str] = field(default_factory=dict)

    def __post_init__(self) -> None:
        self._addresses = [function.address for function in self.functions]

    def has_code(self, address: int) -> bool:
        """Whether an instruction may lie there."""
        return any(start <= address < end for start, end in self.code)

    def function(self, address: int) -> str:
        """The name of the function that the address lies in, with the distance from its start."""
        at = bisect_right(self._addresses, address) - 1
        if at < 0 or not self.has_code(address):
            return ""
        found = self.functions[at]
        distance = address - found.address
        if found.size and distance >= found.size:
            return ""
        return f"{found.name}+{distance:#x}" if distance else found.name

    def line(self, address: int) -> str:
        """The file and the line of an instruction, where the ELF file has them."""
        return self.lines.get(address, "")

    def named(self, name: str) -> int | None:
        """The address of the function of this name."""
        found = [function.address for function in self.functions if function.name == name]
        return found[0] if found else None


def read_program(path: Path, addresses: set[int]) -> Program:
    """The guest that the file holds, with the lines of these addresses."""
    data = read_bytes(path, "program")
    try:
        elf = ELFFile(io.BytesIO(data))
        if elf.header["e_machine"] != RISCV or elf.elfclass != 64:
            raise RefusalError(f"program {path}: it is no ELF file of a 64-bit RISC-V program")
        code = [
            (part["p_vaddr"], part["p_vaddr"] + part["p_memsz"])
            for part in elf.iter_segments("PT_LOAD")
            if part["p_flags"] & EXECUTABLE
        ]
        functions = _functions(elf)
    except RefusalError:
        raise
    except Exception as error:  # pyelftools raises many kinds on damaged files
        what = str(error) if isinstance(error, ELFError) else "it is damaged"
        raise RefusalError(f"program {path}: it is no whole ELF file ({what})") from error
    if not functions:
        raise RefusalError(
            f"program {path}: it has no function symbols; take the file as built, before 'strip'"
        )
    return Program(path, code, functions, _lines(elf, addresses))


def _functions(elf: Any) -> list[Function]:
    """The function symbols, by address; of those at one address the last by name."""
    found: dict[int, Function] = {}
    for section in elf.iter_sections():
        if not isinstance(section, SymbolTableSection):
            continue
        for symbol in section.iter_symbols():
            if symbol["st_info"]["type"] == "STT_FUNC" and symbol["st_shndx"] != "SHN_UNDEF":
                made = Function(symbol["st_value"], symbol["st_size"], symbol.name)
                old = found.get(made.address)
                if old is None or (made.size, made.name) > (old.size, old.name):
                    found[made.address] = made
    return [found[address] for address in sorted(found)]


def _lines(elf: Any, addresses: set[int]) -> dict[int, str]:
    """The file and line of each of the addresses, as far as the debugging information says."""
    lines: dict[int, str] = {}
    if not addresses:
        return lines
    try:
        if not elf.has_dwarf_info():
            return lines
        dwarf = elf.get_dwarf_info()
        wanted = sorted(addresses)
        for unit in dwarf.iter_CUs():
            program = dwarf.line_program_for_CU(unit)
            if program is not None:
                _lines_of_unit(program, wanted, lines)
    except Exception:  # damaged debugging information: the page is made without lines
        return lines
    return lines


def _lines_of_unit(program: Any, wanted: list[int], lines: dict[int, str]) -> None:
    """Adds what the line program of one unit says of the wanted addresses."""
    files = program["file_entry"]
    first = 0 if program["version"] >= 5 else 1
    before = None
    for row in program.get_entries():
        state = row.state
        if state is None:
            continue
        if before is not None and before.address < state.address:
            at = bisect_right(wanted, before.address - 1)
            while at < len(wanted) and wanted[at] < state.address:
                number = before.file - first
                if 0 <= number < len(files):
                    name = files[number].name.decode("utf-8", "replace")
                    lines.setdefault(wanted[at], f"{name}:{before.line}")
                at += 1
        before = None if state.end_sequence else state
