"""ELF files for RV64, with loads and a symbol table, by the fields of the ELF standard."""
import struct
from dataclasses import dataclass, field

EXECUTE, WRITE, READ = 1, 2, 4
HEADER, PROGRAM_HEADER, SECTION_HEADER, SYMBOL = 64, 56, 64, 24
FUNCTION = 2


@dataclass
class Load:
    """A load: its address, its bytes in the file, its size in memory, its rights."""
    address: int
    contents: bytes
    size: int
    rights: int


@dataclass
class Symbol:
    """A symbol of the first symbol table."""
    name: bytes
    value: int
    size: int = 0
    info: int = FUNCTION
    section: int = 1


@dataclass
class Elf:
    """An executable. `bytes` makes the file, and says where its parts are."""
    loads: list
    entry: int
    symbols: list = field(default_factory=list)
    places: dict = field(default_factory=dict)

    def bytes(self):
        """Header, program headers, the loads' bytes, then symbols, names and section headers."""
        at = HEADER + PROGRAM_HEADER * len(self.loads)
        headers, contents = [], []
        for load in self.loads:
            headers.append(struct.pack("<IIQQQQQQ", 1, load.rights, at, load.address,
                                       load.address, len(load.contents), load.size, 4096))
            contents.append(load.contents)
            at += len(load.contents)
        sections = self.sections(at) if self.symbols else b""
        place = self.places.get("sections", 0)
        count = 3 if self.symbols else 0
        head = (b"\x7fELF\x02\x01\x01" + bytes(9)
                + struct.pack("<HHIQQQIHHHHHH", 2, 243, 1, self.entry, HEADER, place, 0, HEADER,
                              PROGRAM_HEADER, len(self.loads), SECTION_HEADER, count, 0))
        return head + b"".join(headers) + b"".join(contents) + sections

    def sections(self, at):
        """The symbol table, its names and the section headers, from this place of the file on."""
        names, table = bytearray(1), bytearray()
        for symbol in self.symbols:
            table += struct.pack("<IBBHQQ", len(names), symbol.info, 0, symbol.section,
                                 symbol.value, symbol.size)
            names += symbol.name + b"\0"
        self.places = {"symbols": at, "names": at + len(table),
                       "sections": at + len(table) + len(names)}
        headers = (bytes(SECTION_HEADER)
                   + section_header(2, at, len(table), 2, SYMBOL)
                   + section_header(3, at + len(table), len(names), 0, 0))
        return bytes(table) + bytes(names) + headers


def section_header(kind, offset, size, link, entry_size):
    """A section header of 64 bytes."""
    return struct.pack("<IIQQQQIIQQ", 0, kind, 0, 0, offset, size, link, 0, 1, entry_size)


def plain_elf(code, data=b"", data_size=4096, data_address=0x20000, symbols=()):
    """Text that is read and executed, data that is read and written, and symbols."""
    text = code.bytes()
    loads = [Load(code.base, text, len(text), READ | EXECUTE)]
    if data_size:
        loads.append(Load(data_address, data, data_size, READ | WRITE))
    return Elf(loads, code.base, list(symbols))
